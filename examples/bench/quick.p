/* quicksort of 2,000 numbers, forty times */
new list[2000];
new seed = 1;

random() {
  seed = seed * 1103515245 + 12345;
  return seed >>> 16;
}

sort(low, high) {
  if (low >= high) return 0;
  new pivot = list[(low + high) / 2];
  new i = low, j = high;
  while (i <= j) {
    while (list[i] < pivot) i++;
    while (list[j] > pivot) j--;
    if (i <= j) {
      new t = list[i];
      list[i++] = list[j];
      list[j--] = t;
    }
  }
  sort(low, j);
  sort(i, high);
  return 0;
}

main() {
  new sum = 0;
  for (new round = 0; round < 40; round++) {
    for (new i = 0; i < sizeof list; i++) list[i] = random();
    sort(0, sizeof list - 1);
    sum += list[50 * round];
  }
  return sum;
}
