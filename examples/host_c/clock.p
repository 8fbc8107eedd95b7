// A clock that sleeps between its beats.
native beat(number);
native ask();

main() {
  new count = ask();
  for (new i = 1; i <= count; i++) {
    beat(i);
    sleep i * 5;
  }
  return count;
}
