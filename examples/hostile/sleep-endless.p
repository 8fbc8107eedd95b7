main() while (1) sleep 1;
