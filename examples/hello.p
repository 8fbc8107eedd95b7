native hello(v);
native wait(v);
main() {
  hello(7);
  wait(1000);
  hello(8);
  exit 0;
}
