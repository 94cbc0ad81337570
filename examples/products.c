// Products of 64 bits, which a pack has by a function that tools/mul64.py adds: random numbers by Melissa O'Neill's PCG, the
// hash FNV-1a, powers modulo a number, and fixed point with 32 bits behind the point. `products.sh` compiles it.

#define EXPORT(name) __attribute__((export_name(#name)))

typedef unsigned long long number;

static number state;

// The generator begins anew with this number.
EXPORT(seed) void seed(number from) { state = from; }

// The next random number of 32 bits.
EXPORT(next) unsigned next(void) {
  number old = state;
  state = old * 6364136223846793005 + 1442695040888963407;
  unsigned mixed = (unsigned)(((old >> 18) ^ old) >> 27), turn = (unsigned)(old >> 59);
  return mixed >> turn | mixed << (-turn & 31);
}

// A random number below `most`: the high half of a product.
EXPORT(below) unsigned below(unsigned most) { return (unsigned)((number)next() * most >> 32); }

// The hash of so many bytes, 0, 1, 2 and so on.
EXPORT(hash) number hash(unsigned length) {
  number found = 0xcbf29ce484222325;
  for (unsigned at = 0; at < length; at++) found = (found ^ (at & 255)) * 0x100000001b3;
  return found;
}

// A power modulo a number below 2^32. Traps where that is 0.
EXPORT(power) unsigned power(unsigned base, unsigned exponent, unsigned modulus) {
  number result = 1 % modulus, square = base % modulus;
  for (; exponent > 0; exponent >>= 1, square = square * square % modulus)
    if (exponent & 1) result = result * square % modulus;
  return (unsigned)result;
}

// The product of two numbers with 16 bits behind the point.
EXPORT(scale) int scale(int x, int y) { return (int)((long long)x * y >> 16); }
