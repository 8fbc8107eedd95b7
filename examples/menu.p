/* a menu: keys open it, move a mark along its lines, and close it */
native key();
native show(const text[], marked);

const LINES = 3;
new line;

move(step) line = (line + step + LINES) % LINES;

draw(number) {
  switch (number) {
    case 0: show("load", number == line);
    case 1: show("save", number == line);
    default: show("quit", number == line);
  }
}

draw_all() {
  for (new i = 0; i < LINES; i++) draw(i);
}

entry() <closed> show("press o", 0);
entry() <open> {
  line = 0;
  draw_all();
}

press(k) <closed> {
  if (k == 'o') state open;
}
press(k) <open> {
  switch (k) {
    case 'u': { move(-1); draw_all(); }
    case 'd': { move(1); draw_all(); }
    case 'x': state closed;
  }
}

main() {
  new k;
  state closed;
  while ((k = key()) != 0) press(k);
  return line;
}
