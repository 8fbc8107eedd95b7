/* the product of tables of forty rows, twenty times */
const N = 40;
new a[N][N];
new b[N][N];
new c[N][N];

multiply() {
  for (new i = 0; i < N; i++) {
    for (new j = 0; j < N; j++) {
      new sum = 0;
      for (new k = 0; k < N; k++) sum += a[i][k] * b[k][j];
      c[i][j] = sum;
    }
  }
}

main() {
  for (new i = 0; i < N; i++) {
    for (new j = 0; j < N; j++) {
      a[i][j] = i + j;
      b[i][j] = i - j;
    }
  }
  new trace = 0;
  for (new round = 0; round < 20; round++) {
    multiply();
    for (new i = 0; i < N; i++) {
      trace += c[i][i];
      a[i] = c[i];
    }
  }
  return trace;
}
