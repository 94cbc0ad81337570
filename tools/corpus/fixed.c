// Fixed point with sixteen binary digits: products, roots, sines by turning, logarithms, a line, and a Mandelbrot set.
#include "pack.h"

// call multiply 98304 163840
// call divide 65536 196608
// call root 131072
// call sine 34314
// call sine -51471
// call logarithm 655360
// call power 98304
// call line 3 17 15 22
// call mandelbrot 2
// call mean 4 3
// call polynomial 78643
// call divide 1 0
// call mandelbrot 5
// call line 3 17 40 29
// call mean 16 7

typedef int fixed;
#define ONE 65536

// In parts of 16 bits, since a product of 64 bits isn't there.
EXPORT(multiply) fixed multiply(fixed x, fixed y) {
  int negative = (x < 0) != (y < 0);
  unsigned a = x < 0 ? 0u - (unsigned)x : (unsigned)x, b = y < 0 ? 0u - (unsigned)y : (unsigned)y;
  unsigned high = (a >> 16) * (b >> 16) << 16, low = (a & 65535) * (b & 65535) >> 16;
  unsigned product = high + (a >> 16) * (b & 65535) + (a & 65535) * (b >> 16) + low;
  return negative ? (fixed)(0u - product) : (fixed)product;
}

EXPORT(divide) fixed divide(fixed x, fixed y) { return (fixed)(((long long)x << 16) / y); }

EXPORT(root) fixed root(fixed x) {
  unsigned rest = (unsigned)x, found = 0, bit = 1u << 30, remainder = 0;
  for (int i = 0; i < 24; i++) {
    remainder = remainder << 2 | rest >> 30;
    rest <<= 2;
    found <<= 1;
    if (remainder > 2 * found) remainder -= 2 * found + 1, found++;
  }
  return bit ? (fixed)found : 0;
}

static const int angles[16] = {51472, 30386, 16055, 8150, 4091, 2047, 1024, 512, 256, 128, 64, 32, 16, 8, 4, 2};

// By sixteen turns that need only shifts; the angle is from -1.57 to 1.57.
EXPORT(sine) fixed sine(fixed angle) {
  int x = 39797, y = 0;
  for (int i = 0; i < 16; i++) {
    int dx = x >> i, dy = y >> i;
    if (angle >= 0) x -= dy, y += dx, angle -= angles[i];
    else x += dy, y -= dx, angle += angles[i];
  }
  return y;
}

EXPORT(logarithm) fixed logarithm(fixed x) {
  REQUIRE(x > 0);
  fixed found = 0;
  for (; x < ONE; x <<= 1) found -= ONE;
  for (; x >= 2 * ONE; x >>= 1) found += ONE;
  for (fixed bit = ONE / 2; bit > 32; bit >>= 1) {
    x = multiply(x, x);
    if (x >= 2 * ONE) x >>= 1, found += bit;
  }
  return found;
}

// e to this power, by the first terms of its series.
EXPORT(power) fixed power(fixed x) {
  fixed sum = ONE, term = ONE;
  for (int i = 1; i < 12 && term; i++) {
    term = multiply(term, x) / i;
    sum += term;
  }
  return sum;
}

static unsigned grid[32];

EXPORT(line) int line(int x0, int y0, int x1, int y1) {
  int dx = x1 > x0 ? x1 - x0 : x0 - x1, dy = y1 > y0 ? y0 - y1 : y1 - y0, rest = dx + dy, count = 0;
  for (;; count++) {
    grid[y0 & 31] |= 1u << (x0 & 31);
    if (x0 == x1 && y0 == y1) return count;
    int twice = 2 * rest;
    if (twice >= dy) rest += dy, x0 += x0 < x1 ? 1 : -1;
    if (twice <= dx) rest += dx, y0 += y0 < y1 ? 1 : -1;
  }
}

// With ten binary digits, so that products have room.
EXPORT(mandelbrot) int mandelbrot(int side) {
  int sum = 0;
  for (int row = 0; row < side; row++)
    for (int column = 0; column < side; column++) {
      int cx = -2048 + 3072 * column / side, cy = -1024 + 2048 * row / side, x = 0, y = 0, turns = 0;
      while (turns < 8 && x * x + y * y < 4 << 20) {
        int next = (x * x - y * y) / 1024 + cx;
        y = 2 * x * y / 1024 + cy, x = next, turns++;
      }
      sum += turns;
    }
  return sum;
}

EXPORT(mean) fixed mean(int count, unsigned seed) {
  fixed sum = 0, squares = 0;
  random_seed(seed);
  for (int i = 0; i < count; i++) {
    fixed value = (fixed)(random_next() >> 14);
    sum += value / count;
    squares += multiply(value, value) / count;
  }
  return root(squares - multiply(sum, sum));
}

EXPORT(polynomial) fixed polynomial(fixed x) {
  static const fixed factors[6] = {-32768, 65536, 13107, -98304, 6554, 131072};
  fixed value = 0;
  for (int i = 5; i >= 0; i--) value = multiply(value, x) + factors[i];
  return value;
}
