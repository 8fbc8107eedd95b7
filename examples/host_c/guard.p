// A guard of the game: main sets it up, and @tick is called in each round.
native say(const text[]);
native distance(x, y, const from[]);
native move(dx, dy);
native rest();

new rounds;
new home[2] = { 3, 4 };

forward @tick(id, const name[], const seen[]);
forward @name(out[], size);

main() {
  say("guard ready");
  sleep 10;
  say(!"guard awake");
  return 7;
}

@tick(id, const name[], const seen[]) {
  rounds++;
  say(name);
  new far = distance(seen[0], seen[1], home);
  if (far > 2)
    move(seen[0] > home[0] ? 1 : -1, 0);
  else
    rest();
  return rounds * 100 + id;
}

@name(out[], size) {
  new text[] = "Ivo";
  new i;
  for (i = 0; i < size - 1 && text[i]; i++)
    out[i] = text[i];
  out[i] = 0;
  say(out);
  return i;
}
