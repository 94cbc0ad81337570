// Numbers of many digits to the base 65,536: sums, differences, products, quotients, factorials, digits, roots.
#define TEXT_SIZE 128
#include "pack.h"

// call factorial 12
// call digits
// call fibonacci 12
// call low
// call power 7 20
// call divide 9999
// call square
// call low
// call compare
// call fibonacci 60
// call remainder 1000003
// call factorial 18
// call digits
// call square

#define SIZE 16
typedef unsigned short half;
typedef struct {
  unsigned count;
  half digits[SIZE];
} big;

static big x, y, z;

static void set(big *to, unsigned value) {
  to->count = 0;
  for (; value; value >>= 16) to->digits[to->count++] = (half)value;
}

static void push(big *to, unsigned digit) {
  REQUIRE(to->count < SIZE);
  to->digits[to->count++] = (half)digit;
}

static void add(big *to, const big *a, const big *b) {
  unsigned carry = 0, count = a->count > b->count ? a->count : b->count;
  big sum = {0, {0}};
  for (unsigned i = 0; i < count; i++) {
    carry += (i < a->count ? a->digits[i] : 0u) + (i < b->count ? b->digits[i] : 0u);
    push(&sum, carry & 65535);
    carry >>= 16;
  }
  if (carry) push(&sum, carry);
  *to = sum;
}

static void multiply_small(big *to, unsigned factor) {
  unsigned carry = 0;
  for (unsigned i = 0; i < to->count; i++) {
    carry += to->digits[i] * factor;
    to->digits[i] = (half)carry;
    carry >>= 16;
  }
  if (carry) push(to, carry);
}

static unsigned divide_small(big *to, unsigned divisor) {
  unsigned rest = 0;
  for (unsigned i = to->count; i-- > 0;) {
    rest = rest << 16 | to->digits[i];
    to->digits[i] = (half)(rest / divisor);
    rest %= divisor;
  }
  while (to->count && !to->digits[to->count - 1]) to->count--;
  return rest;
}

static void multiply(big *to, const big *a, const big *b) {
  big product = {0, {0}};
  REQUIRE(a->count + b->count <= SIZE);
  product.count = a->count + b->count;
  for (unsigned i = 0; i < a->count; i++) {
    unsigned carry = 0;
    for (unsigned j = 0; j < b->count; j++) {
      carry += a->digits[i] * b->digits[j] + product.digits[i + j];
      product.digits[i + j] = (half)carry;
      carry >>= 16;
    }
    product.digits[i + b->count] = (half)carry;
  }
  while (product.count && !product.digits[product.count - 1]) product.count--;
  *to = product;
}

EXPORT(factorial) unsigned factorial(unsigned n) {
  set(&x, 1);
  for (unsigned i = 2; i <= n; i++) multiply_small(&x, i);
  return x.count;
}

EXPORT(digits) unsigned digits(void) {
  big rest = x;
  text_length = 0;
  while (rest.count) {
    unsigned group = divide_small(&rest, 10000);
    for (int k = 0; k < 4; k++, group /= 10) put((char)('0' + group % 10));
  }
  return text_length;
}

EXPORT(fibonacci) unsigned fibonacci(int n) {
  set(&x, 0), set(&y, 1);
  for (int i = 0; i < n / 2; i++) add(&x, &x, &y), add(&y, &x, &y);
  return x.count;
}

EXPORT(low) number low(void) {
  number value = 0;
  for (unsigned i = x.count < 4 ? x.count : 4; i-- > 0;) value = value << 16 | x.digits[i];
  return value;
}

EXPORT(power) unsigned power(unsigned base, unsigned exponent) {
  big factor;
  set(&x, 1), set(&factor, base);
  for (; exponent; exponent >>= 1) {
    if (exponent & 1) multiply(&x, &x, &factor);
    if (exponent > 1) multiply(&factor, &factor, &factor);
  }
  return x.count;
}

EXPORT(divide) unsigned divide(unsigned divisor) { return divide_small(&x, divisor); }

EXPORT(square) unsigned square(void) {
  while (x.count > SIZE / 2) divide_small(&x, 65535);
  multiply(&x, &x, &x);
  return x.count;
}

EXPORT(remainder) unsigned remainder(unsigned modulus) {
  unsigned rest = 0;
  for (unsigned i = x.count; i-- > 0;)
    for (int bit = 15; bit >= 0; bit--) {
      rest = rest * 2 + (x.digits[i] >> bit & 1);
      if (rest >= modulus) rest -= modulus;
    }
  return rest;
}

EXPORT(compare) int compare(void) {
  z = x;
  for (unsigned i = SIZE; i-- > 0;) {
    unsigned a = i < z.count ? z.digits[i] : 0, b = i < y.count ? y.digits[i] : 0;
    if (a != b) return a < b ? -1 : 1;
  }
  return 0;
}
