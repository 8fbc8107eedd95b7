/* sums and products, read from a packed text */
native value(const text[], number);

new const text[] = !"2+3*4+50";
new at;

is_digit() return '0' <= text{at} <= '9';

number() {
  new n = 0;
  while (is_digit()) {
    n = n * 10 + text{at} - '0';
    at++;
  }
  return n;
}

product() {
  new n = number();
  while (text{at} == '*') {
    at++;
    n *= number();
  }
  return n;
}

sum() {
  new n = product();
  while (text{at} == '+') {
    at++;
    n += product();
  }
  return n;
}

main() {
  new n = sum();
  value(text, n);
  return n;
}
