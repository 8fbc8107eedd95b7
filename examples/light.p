/* a traffic light */
native lamp(const name[], time);
native pressed();
#define SHOW(%1,%2) lamp(%1, %2); sleep %2
new rounds;
entry() <red> { SHOW("red", 30); }
entry() <green> { SHOW(!"green", 20); }
entry() <amber> { SHOW("amber", 5); }
next() <red> { if (pressed()) state green; }
next() <green> state amber;
next() <amber> { rounds++; state red; }
main() {
  state red;
  while (rounds < 1) next();
  return rounds;
}
