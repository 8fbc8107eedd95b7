/* a sort that swaps by reference, and counts its swaps */
native show(const list[], count);

new list[6] = {31, -4, 15, 9, 2, 6};

swap(&a, &b) {
  new t = a;
  a = b;
  b = t;
}

sort(cells[], count) {
  new swaps = 0;
  for (new i = 1; i < count; i++) {
    for (new k = i; k > 0 && cells[k - 1] > cells[k]; k--) {
      swap(cells[k - 1], cells[k]);
      swaps++;
    }
  }
  return swaps;
}

main() {
  show(list, sizeof list);
  new swaps = sort(list, sizeof list);
  show(list, sizeof list);
  return swaps;
}
