// Numbers with 32 binary digits behind the point, in 64 bits: 1.5 is 6442450944. `fixed.sh` compiles it.

#define EXPORT(name) __attribute__((export_name(#name)))

typedef long long fixed;
typedef unsigned long long number;

static number of_size(fixed x) { return x < 0 ? 0 - (number)x : (number)x; }

EXPORT(add) fixed add(fixed x, fixed y) { return (fixed)((number)x + (number)y); }

// The whole part, rounded down.
EXPORT(floor) int floor_of(fixed x) { return (int)(x >> 32); }

// The quotient of two, cut off behind its last digit: a digit at a time, since 96 bits are divided by 64. Traps by 0, and where the
// quotient has no room.
EXPORT(divide) fixed divide(fixed x, fixed y) {
  number dividend = of_size(x), divisor = of_size(y), same = divisor;
  // clang makes a rest of a quotient, by `i64.mul`, where it knows that both have one divisor.
  __asm__("" : "+r"(same));
  number whole = dividend / divisor, rest = dividend % same;
  if (whole >> 31) __builtin_trap();
  for (unsigned k = 0; k < 32; k++) {
    unsigned carry = (unsigned)(rest >> 63);
    rest <<= 1, whole <<= 1;
    if (carry || rest >= divisor) rest -= divisor, whole++;
  }
  return (x < 0) == (y < 0) ? (fixed)whole : (fixed)(0 - whole);
}

// The square root of a number from 0 up, cut off behind its last digit but 16. Traps below 0.
EXPORT(root) fixed root(fixed x) {
  if (x < 0) __builtin_trap();
  number rest = (number)x, found = 0;
  for (number bit = 1ull << 62; bit > 0; bit >>= 2) {
    number next = found + bit;
    found >>= 1;
    if (rest >= next) rest -= next, found += bit;
  }
  return (fixed)(found << 16);
}
