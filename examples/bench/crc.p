/* the CRC-32 of a packed text of 4,000 characters, a hundred times, by a table */
const LENGTH = 4000;
new table[256];
new text[LENGTH char];

make_table() {
  for (new n = 0; n < 256; n++) {
    new c = n;
    for (new k = 0; k < 8; k++) c = c & 1 ? (c >>> 1) ^ 0xedb88320 : c >>> 1;
    table[n] = c;
  }
}

crc(c) {
  c = ~c;
  for (new i = 0; i < LENGTH; i++) c = table[(c ^ text{i}) & 255] ^ (c >>> 8);
  return ~c;
}

main() {
  make_table();
  for (new i = 0; i < LENGTH; i++) text{i} = 'a' + i % 26;
  new c = 0;
  for (new round = 0; round < 100; round++) c = crc(c);
  return c;
}
