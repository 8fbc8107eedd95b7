// The guard's publics as the game calls them, for the commands: each result is told.
#define main guard_main
#include "guard.p"
#undef main

native told(value);

main() {
  new seen[2];
  for (new round = 0; round < 3; round++) {
    seen[0] = round + 2;
    seen[1] = round + 4;
    told(@tick(round, "Bob", seen));
  }
  new text[8];
  told(@name(text, 8));
}
