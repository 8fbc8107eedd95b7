native p(v);
new zero;
main() {
  p(7);
  p(1 / zero);
}
