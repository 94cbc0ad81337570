// Primes and what belongs to them: sieves of bytes and of bits, factors, powers modulo a number, perfect numbers.
#include "pack.h"

// call sieve 40
// call bits 60
// call factors 360360
// call gcd 1071 462
// call power 7 1000 1009
// call totient 96
// call is_prime 9973
// call perfect 28
// call nth 12
// call collatz 9
// call sieve 200
// call bits 300
// call nth 30
// call collatz 27

static byte crossed[1024];
static unsigned marks[64];

EXPORT(sieve) int sieve(unsigned most) {
  REQUIRE(most <= sizeof crossed);
  int count = 0;
  memset(crossed, 0, most);
  for (unsigned i = 2; i < most; i++) {
    if (crossed[i]) continue;
    count++;
    for (unsigned j = i * i; j < most; j += i) crossed[j] = 1;
  }
  return count;
}

// Of the odd numbers alone, one bit each.
EXPORT(bits) int bits(unsigned most) {
  int count = most > 2;
  for (int i = 0; i < 64; i++) marks[i] = 0;
  for (unsigned i = 3; i < most; i += 2) {
    if (marks[i / 64] >> i / 2 % 32 & 1) continue;
    count++;
    for (unsigned j = i * i; j < most; j += 2 * i) marks[j / 64] |= 1u << j / 2 % 32;
  }
  return count;
}

// The prime factors, the least in the lowest digit to the base 100.
EXPORT(factors) number factors(unsigned n) {
  number found = 0;
  int shift = 0;
  for (unsigned p = 2; p * p <= n; p += 1 + (p > 2))
    for (; n % p == 0; n /= p) found |= (number)p << shift, shift = (shift + 8) % 64;
  return n > 1 ? found | (number)n << shift : found;
}

EXPORT(gcd) unsigned gcd(unsigned a, unsigned b) {
  while (b) {
    unsigned rest = a % b;
    a = b, b = rest;
  }
  return a;
}

EXPORT(power) unsigned power(unsigned base, unsigned exponent, unsigned modulus) {
  unsigned result = 1 % modulus;
  for (base %= modulus; exponent > 0; exponent >>= 1) {
    if (exponent & 1) result = result * base % modulus;
    base = base * base % modulus;
  }
  return result;
}

EXPORT(totient) unsigned totient(unsigned n) {
  unsigned count = 0;
  for (unsigned i = 1; i <= n / 8; i++) count += gcd(i, n) == 1;
  return count;
}

EXPORT(is_prime) int is_prime(unsigned n) {
  if (n < 4) return n > 1;
  if (n % 2 == 0 || n % 3 == 0) return 0;
  for (unsigned p = 5; p * p <= n; p += 6)
    if (n % p == 0 || n % (p + 2) == 0) return 0;
  return 1;
}

EXPORT(perfect) int perfect(unsigned n) {
  unsigned sum = 1;
  for (unsigned d = 2; d < n; d++) sum += n % d ? 0 : d;
  return sum == n;
}

EXPORT(nth) unsigned nth(unsigned count) {
  unsigned n = 1;
  while (count > 0) count -= (unsigned)is_prime(++n);
  return n;
}

EXPORT(collatz) int collatz(unsigned n) {
  int steps = 0;
  for (; n != 1; steps++) n = n % 2 ? 3 * n + 1 : n / 2;
  return steps;
}
