/* an automaton of three lights that a counter turns, and one of a door that opens and closes */
new time;
new changes;

entry() <light:red> time = 30;
entry() <light:green> time = 20;
entry() <light:amber> { time = 5; changes++; }

tick() <light:red> { if (--time == 0) state light:green; }
tick() <light:green> { if (--time == 0) state light:amber; }
tick() <light:amber> { if (--time == 0) state light:red; }

pass() <door:open> { state door:closed; return 1; }
pass() <door:closed> { state door:open; return 0; }
pass() <> { state door:open; return 2; }

main() {
  new passed = 0;
  state light:red;
  for (new i = 0; i < 1000000; i++) {
    tick();
    if (i % 7 == 0) passed += pass();
  }
  return changes + passed;
}
