// Numbers of 64 bits: random ones, roots, common divisors, digits, fractions, products modulo a number, bits.
#include "pack.h"

// call random 12 88172645463325252
// call root 1000000007000000
// call gcd 1311768467294899695 98765432109876
// call digits 9223372036854775807
// call multiply 123456789012 98765 1000000007
// call bits -6148914691236517206
// call fraction 355 113 6
// call hash 10
// call order 6 5
// call split 81985529216486895
// call step 12
// call digits 0
// call gcd 0 0
// call step 40
// call order 16 9
// call multiply 123456789012 98765432109 1000000007
// call hash 40

EXPORT(random) number random(int count, number seed) {
  for (; count > 0; count--) {
    seed ^= seed << 13;
    seed ^= seed >> 7;
    seed ^= seed << 17;
  }
  return seed;
}

EXPORT(root) number root(number x) {
  number found = 0;
  for (number bit = 1ull << 24; bit; bit >>= 1) {
    number next = found | bit;
    if (x / next >= next) found = next;
  }
  return found;
}

EXPORT(gcd) number gcd(number a, number b) {
  REQUIRE(a || b);
  for (int left = 12; b && left > 0; left--) {
    number rest = a % b;
    a = b, b = rest;
  }
  return a;
}

EXPORT(digits) unsigned digits(number x) {
  unsigned sum = 0;
  do {
    number tenth = x / 10;
    sum = sum * 3 + ((unsigned)x - 10 * (unsigned)tenth);
    x = tenth;
  } while (x);
  return sum;
}

// By doubling, so that no product of 64 bits is made.
EXPORT(multiply) number multiply(number a, number b, number modulus) {
  number product = 0;
  for (a %= modulus, b %= modulus; b; b >>= 1) {
    if (b & 1) product = product + a >= modulus ? product + a - modulus : product + a;
    a = a + a >= modulus ? a + a - modulus : a + a;
  }
  return product;
}

EXPORT(bits) int bits(number x) {
  int ones = __builtin_popcountll(x), zeros = __builtin_clzll(x | 1) + __builtin_ctzll(x | 1ull << 63), changes = 0;
  for (int i = 0; i < 63; i += 3) changes += (int)((x >> i ^ x >> (i + 1)) & 1);
  return ones * 10000 + zeros * 100 + changes;
}

EXPORT(fraction) number fraction(number a, number b, int places) {
  number found = a / b;
  for (a -= found * 113; places > 0; places--) {
    a = (a << 3) + (a << 1);
    number digit = a / b;
    found = (found << 4) + digit;
    while (a >= b) a -= b;
  }
  return found;
}

EXPORT(hash) number hash(int count) {
  number sum = 0xcbf29ce484222325;
  for (int i = 0; i < count; i++) {
    sum = (sum ^ (number)(i * 7 + 3)) * 0x100000001b3;
    sum ^= sum >> 29;
  }
  return sum;
}

static long long numbers[32];

EXPORT(order) long long order(int count, number seed) {
  REQUIRE(count <= 32);
  for (int i = 0; i < count; i++) {
    seed = random(1, seed);
    long long value = (long long)seed;
    int j = i;
    for (; j > 0 && numbers[j - 1] > value; j--) numbers[j] = numbers[j - 1];
    numbers[j] = value;
  }
  return numbers[count / 2];
}

EXPORT(split) unsigned split(number x) {
  unsigned sum = 0;
  for (int i = 0; i < 8; i++) sum += (unsigned)(x >> 8 * i & 255) * (unsigned)(i + 1);
  return sum ^ (unsigned)(x >> 32);
}

// A register that is fed back, of 61 bits.
EXPORT(step) number step(int count) {
  number bits = 0x123456789abcdef;
  for (; count > 0; count--) bits = bits >> 1 | ((bits ^ bits >> 1 ^ bits >> 4) & 1) << 60;
  return bits;
}
