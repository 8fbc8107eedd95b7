main() { switch (1) { case 0 .. 2147483647: ; } }
