f(a[]) return a[100000000];
main() { new b[4]; return f(b); }
