/* how many primes are below 500,000: a sieve of packed characters */
const LIMIT = 500000;
new marks[LIMIT char];

main() {
  new count = 0;
  for (new n = 2; n < LIMIT; n++) {
    if (marks{n}) continue;
    count++;
    if (n > 707) continue;
    for (new m = n * n; m < LIMIT; m += n) marks{m} = 1;
  }
  return count;
}
