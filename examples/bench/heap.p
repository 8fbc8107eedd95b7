/* heap sort of 5,000 numbers, ten times */
new list[5000];
new seed = 1;

random() {
  seed = seed * 1103515245 + 12345;
  return seed >>> 16;
}

sift(cells[], from, count) {
  new value = cells[from];
  new child;
  while ((child = 2 * from + 1) < count) {
    if (child + 1 < count && cells[child + 1] > cells[child]) child++;
    if (cells[child] <= value) break;
    cells[from] = cells[child];
    from = child;
  }
  cells[from] = value;
}

sort(cells[], count) {
  for (new i = count / 2 - 1; i >= 0; i--) sift(cells, i, count);
  for (new end = count - 1; end > 0; end--) {
    new t = cells[0];
    cells[0] = cells[end];
    cells[end] = t;
    sift(cells, 0, end);
  }
}

main() {
  new sum = 0;
  for (new round = 0; round < 10; round++) {
    for (new i = 0; i < sizeof list; i++) list[i] = random();
    sort(list, sizeof list);
    sum += list[500 * round];
  }
  return sum;
}
