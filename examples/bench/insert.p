/* insertion sort of 300 numbers that swaps by reference, twenty times */
new list[300];
new seed = 1;

random() {
  seed = seed * 1103515245 + 12345;
  return seed >>> 16;
}

swap(&a, &b) {
  new t = a;
  a = b;
  b = t;
}

sort(cells[], count) {
  new swaps = 0;
  for (new i = 1; i < count; i++) {
    for (new k = i; k > 0 && cells[k - 1] > cells[k]; k--) {
      swap(cells[k - 1], cells[k]);
      swaps++;
    }
  }
  return swaps;
}

main() {
  new swaps = 0;
  for (new round = 0; round < 20; round++) {
    for (new i = 0; i < sizeof list; i++) list[i] = random();
    swaps += sort(list, sizeof list);
  }
  return swaps;
}
