/* points of the Mandelbrot set, with fixed-point numbers and operators on them */
const SHIFT = 12;

Fixed:operator=(whole) return Fixed:(whole << SHIFT);
Fixed:operator*(Fixed:a, Fixed:b) return Fixed:((_:a * _:b) >> SHIFT);
Fixed:operator*(Fixed:a, b) return Fixed:(_:a * b);
Fixed:operator/(Fixed:a, b) return Fixed:(_:a / b);
bool:operator>(Fixed:a, b) return bool:(_:a > b << SHIFT);

passes(Fixed:re, Fixed:im, most) {
  new Fixed:x = re, Fixed:y = im;
  for (new n = 0; n < most; n++) {
    new Fixed:xx = x * x;
    new Fixed:yy = y * y;
    if (xx + yy > 4) return n;
    y = x * y * 2 + im;
    x = xx - yy + re;
  }
  return most;
}

main() {
  new sum = 0;
  for (new row = -20; row <= 20; row++) {
    new Fixed:im = row;
    for (new column = -60; column <= 20; column++) {
      new Fixed:re = column;
      sum += passes(re / 30, im / 20, 100);
    }
  }
  return sum;
}
