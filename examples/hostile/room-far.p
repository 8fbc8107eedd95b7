#pragma dynamic 0x7fffffff
main() { }
