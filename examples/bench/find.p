/* how often words of three letters stand in a text of 20,000 packed letters */
const LENGTH = 20000;
new text[LENGTH char];
new seed = 1;

letter() {
  seed = seed * 1103515245 + 12345;
  return 'a' + (seed >>> 16) % 4;
}

starts(const word[], at) {
  for (new i = 0; word{i} != 0; i++) {
    if (text{at + i} != word{i}) return false;
  }
  return true;
}

count(const word[]) {
  new found = 0;
  for (new at = 0; at < LENGTH - 3; at++) {
    if (starts(word, at)) found++;
  }
  return found;
}

main() {
  for (new i = 0; i < LENGTH - 1; i++) text{i} = letter();
  new sum = 0;
  sum += count(!"abc") * 1;
  sum += count(!"cab") * 2;
  sum += count(!"ddd") * 3;
  sum += count(!"abcd") * 4;
  sum += count(!"bb") * 5;
  return sum;
}
