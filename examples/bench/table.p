/* how often each of 100,000 numbers came: a table in which a number is looked for from its rest on */
const SIZE = 4096;
const NONE = -1;
new keys[SIZE] = {NONE, ...};
new counts[SIZE];
new seed = 1;

random() {
  seed = seed * 1103515245 + 12345;
  return seed >>> 16;
}

place(key) {
  new at = (key * 40503) & (SIZE - 1);
  while (keys[at] != NONE && keys[at] != key) at = (at + 1) & (SIZE - 1);
  keys[at] = key;
  return at;
}

main() {
  for (new i = 0; i < 100000; i++) counts[place(random() % 3000)]++;
  new most = 0, used = 0;
  for (new i = 0; i < SIZE; i++) {
    if (counts[i] > most) most = counts[i];
    if (counts[i]) used++;
  }
  return most * 10000 + used;
}
