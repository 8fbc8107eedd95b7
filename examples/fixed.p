/* fixed-point numbers with two decimals, and the operators on them */
native show(Fixed:x);

Fixed:fixed(whole, hundredths) return Fixed:(whole * 100 + hundredths);

Fixed:operator*(Fixed:a, Fixed:b) return Fixed:(_:a * _:b / 100);
Fixed:operator*(Fixed:a, b) return Fixed:(_:a * b);
Fixed:operator/(Fixed:a, Fixed:b) return Fixed:(_:a * 100 / _:b);
Fixed:operator=(whole) return Fixed:(whole * 100);

main() {
  new Fixed:price = fixed(19, 95);
  new Fixed:total = price * fixed(1, 20);
  show(total);
  total = total * 3;
  show(total);
  total = 7;
  show(total);
  show(total / fixed(0, 50));
  show(2 * price);
  return _:total;
}
