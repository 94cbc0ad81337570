// Dice by a generator of random numbers without multiplication, George Marsaglia's xorshift with 64 bits. `dice.sh` compiles it.

#define EXPORT(name) __attribute__((export_name(#name)))

static unsigned long long state = 0x9e3779b97f4a7c15;

// The generator begins anew with this number, or with 1 where it is 0.
EXPORT(seed) void seed(unsigned long long number) { state = number ? number : 1; }

// The next number of 64 bits.
EXPORT(next) unsigned long long next(void) {
  state ^= state << 13;
  state ^= state >> 7;
  state ^= state << 17;
  return state;
}

// A die of so many sides, each number as likely as the others. Traps without a side.
EXPORT(roll) unsigned roll(unsigned sides) {
  unsigned long long most = ~0ull - ~0ull % sides, number;
  do number = next();
  while (number >= most);
  return 1 + (unsigned)(number % sides);
}

// The sum of so many of them.
EXPORT(sum) unsigned long long sum(unsigned dice, unsigned sides) {
  unsigned long long all = 0;
  for (; dice > 0; dice--) all += roll(sides);
  return all;
}
