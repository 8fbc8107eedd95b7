/* how many primes are below a million: a sieve of bits */
const LIMIT = 1000000;
new bits[LIMIT / 32];

main() {
  new count = 0;
  for (new n = 2; n < LIMIT; n++) {
    if ((bits[n / 32] >>> (n % 32)) & 1) continue;
    count++;
    if (n > 1000) continue;
    for (new m = n * n; m < LIMIT; m += n) bits[m / 32] |= 1 << (m % 32);
  }
  return count;
}
