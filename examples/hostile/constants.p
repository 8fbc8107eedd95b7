const c = cellmin % -1;
main() return c + (cellmin / -1 == cellmin) + (1 << 33) + (cellmin >> -1);
