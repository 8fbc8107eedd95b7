/* a hundred generations of life on a board that is round in both ways */
const N = 32;
new cells[N][N];
new next[N][N];

neighbours(y, x) {
  new up = (y + N - 1) % N, down = (y + 1) % N;
  new left = (x + N - 1) % N, right = (x + 1) % N;
  return cells[up][left] + cells[up][x] + cells[up][right] + cells[y][left] + cells[y][right]
    + cells[down][left] + cells[down][x] + cells[down][right];
}

step() {
  for (new y = 0; y < N; y++) {
    for (new x = 0; x < N; x++) {
      switch (neighbours(y, x)) {
        case 2: next[y][x] = cells[y][x];
        case 3: next[y][x] = 1;
        default: next[y][x] = 0;
      }
    }
  }
  for (new y = 0; y < N; y++) cells[y] = next[y];
}

main() {
  for (new y = 0; y < N; y++) {
    for (new x = 0; x < N; x++) cells[y][x] = (y * y + 3 * x * y + x) % 5 == 0;
  }
  for (new generation = 0; generation < 100; generation++) step();
  new count = 0;
  for (new y = 0; y < N; y++) {
    for (new x = 0; x < N; x++) count += cells[y][x];
  }
  return count;
}
