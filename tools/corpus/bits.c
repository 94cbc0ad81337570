// Bits of 32: counted, turned round, mixed and found, in several ways.
#include "pack.h"

// call count 3735928559
// call counts 20
// call reverse 19088743
// call gray 1000
// call morton 300 517
// call unmorton 305419896
// call hamming 24
// call code 9
// call decode 77
// call log 1048577
// call next 11
// call parity 16
// call swap 287454020
// call power_of_two 1000
// call add 123456 654321
// call multiply 1234 567
// call divide 1000000 37
// call float 1078530011
// call counts 150
// call reverse -2
// call hamming 200
// call parity 150

EXPORT(count) int count(unsigned x) {
  int ones = 0;
  for (; x; x &= x - 1) ones++;
  return ones;
}

EXPORT(counts) int counts(unsigned most) {
  int sum = 0;
  for (unsigned i = 0; i < most; i++) {
    unsigned x = i * 2654435761u;
    x -= x >> 1 & 0x55555555;
    x = (x & 0x33333333) + (x >> 2 & 0x33333333);
    x = (x + (x >> 4)) & 0x0f0f0f0f;
    sum += (int)(x * 0x01010101 >> 24) - __builtin_popcount(i);
  }
  return sum;
}

EXPORT(reverse) unsigned reverse(unsigned x) {
  unsigned turned = 0;
  for (int i = 0; i < 32; i++, x >>= 1) turned = turned << 1 | (x & 1);
  return turned;
}

EXPORT(gray) unsigned gray(unsigned x) {
  unsigned code = x ^ x >> 1, back = code;
  for (int shift = 16; shift > 0; shift >>= 1) back ^= back >> shift;
  return back == x ? code : 0;
}

static unsigned spread(unsigned x) {
  x = (x | x << 8) & 0x00ff00ff;
  x = (x | x << 4) & 0x0f0f0f0f;
  x = (x | x << 2) & 0x33333333;
  return (x | x << 1) & 0x55555555;
}

EXPORT(morton) unsigned morton(unsigned x, unsigned y) { return spread(x) | spread(y) << 1; }

EXPORT(unmorton) unsigned unmorton(unsigned code) {
  unsigned x = 0, y = 0;
  for (int i = 0; i < 16; i++) {
    x |= (code >> 2 * i & 1) << i;
    y |= (code >> (2 * i + 1) & 1) << i;
  }
  return x * 65536 + y;
}

EXPORT(hamming) int hamming(int most) {
  int sum = 0;
  for (int i = 0; i < most; i++) sum += __builtin_popcount((unsigned)(i ^ (i + 7)));
  return sum;
}

// Four bits with three that tell which one was turned.
EXPORT(code) unsigned code(unsigned bits) {
  unsigned a = bits & 1, b = bits >> 1 & 1, c = bits >> 2 & 1, d = bits >> 3 & 1;
  return (a ^ b ^ d) | (a ^ c ^ d) << 1 | a << 2 | (b ^ c ^ d) << 3 | b << 4 | c << 5 | d << 6;
}

EXPORT(decode) unsigned decode(unsigned word) {
  unsigned wrong = 0;
  for (unsigned place = 1; place < 8; place++)
    if (word >> (place - 1) & 1) wrong ^= place;
  if (wrong) word ^= 1u << (wrong - 1);
  return (word >> 2 & 1) | (word >> 3 & 14);
}

EXPORT(log) int logarithm(unsigned x) {
  int found = 0;
  for (int shift = 16; shift > 0; shift /= 2)
    if (x >> shift) x >>= shift, found += shift;
  return found * 100 + 31 - __builtin_clz(x | 1) + __builtin_ctz(x | 256);
}

// The next number with as many bits, five times.
EXPORT(next) unsigned next(unsigned x) {
  for (int i = 0; i < 5; i++) {
    unsigned low = x & -x, over = x + low;
    x = over | ((x ^ over) / low) >> 2;
  }
  return x;
}

EXPORT(parity) int parity(int most) {
  int odd = 0;
  for (int i = 0; i < most; i++) {
    unsigned x = (unsigned)i * 77u;
    x ^= x >> 16, x ^= x >> 8, x ^= x >> 4;
    odd += 0x6996 >> (x & 15) & 1;
  }
  return odd;
}

EXPORT(swap) unsigned swap(unsigned x) { return x << 24 | (x & 0xff00) << 8 | (x >> 8 & 0xff00) | x >> 24; }

EXPORT(power_of_two) unsigned power_of_two(unsigned x) {
  x--;
  x |= x >> 1, x |= x >> 2, x |= x >> 4, x |= x >> 8, x |= x >> 16;
  return x + 1;
}

EXPORT(add) unsigned add(unsigned a, unsigned b) {
  while (b) {
    unsigned carry = (a & b) << 1;
    a ^= b, b = carry;
  }
  return a;
}

EXPORT(multiply) unsigned multiply(unsigned a, unsigned b) {
  unsigned product = 0;
  for (; b; b >>= 1, a <<= 1)
    if (b & 1) product += a;
  return product;
}

EXPORT(divide) unsigned divide(unsigned a, unsigned b) {
  unsigned quotient = 0, rest = 0;
  for (int i = 31; i >= 0; i--) {
    rest = rest << 1 | (a >> i & 1);
    if (rest >= b) rest -= b, quotient |= 1u << i;
  }
  return quotient;
}

// A float's bits as thousandths.
EXPORT(float) int float_in_thousandths(unsigned bits) {
  int exponent = (int)(bits >> 23 & 255) - 127;
  unsigned fraction = (bits & 0x7fffff) | 0x800000;
  int value = exponent >= 10 ? 0 : (int)((fraction >> 10) * 1000 >> (13 - exponent));
  return bits >> 31 ? -value : value;
}
