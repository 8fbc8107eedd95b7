main() { new a[2147483647]; }
