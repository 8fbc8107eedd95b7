main() { new b[4]; new i = -1; return b[i]; }
