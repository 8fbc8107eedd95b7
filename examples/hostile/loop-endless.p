main() while (1) { }
