/* in how many ways twelve queens fit on a board: backtracking over rows of bits */
const ALL = (1 << 12) - 1;

ways(columns, left, right) {
  if (columns == ALL) return 1;
  new count = 0;
  new free = ALL & ~(columns | left | right);
  while (free != 0) {
    new one = free & -free;
    free ^= one;
    count += ways(columns | one, (left | one) << 1, (right | one) >> 1);
  }
  return count;
}

main() return ways(0, 0, 0);
