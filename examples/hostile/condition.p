#if cellmin / -1 == cellmin && cellmin % -1 == 0
main() return 3;
#endif
