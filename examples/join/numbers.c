// A library in C: numbers, the text of a number in a memory that it shares, and operations by their number in a table.
// `build.sh` compiles it to `numbers.wasm`, which defines the memory and the table.

#define EXPORT(name) __attribute__((export_name(#name)))

typedef unsigned (*operation)(unsigned, unsigned);

static char text[16];

EXPORT(gcd) unsigned gcd(unsigned a, unsigned b) {
  while (b) {
    unsigned rest = a % b;
    a = b;
    b = rest;
  }
  return a;
}

EXPORT(root) unsigned root(unsigned square) {
  unsigned found = 0;
  for (unsigned bit = 1u << 15; bit; bit >>= 1) {
    unsigned more = found | bit;
    if (more * more <= square) found = more;
  }
  return found;
}

// The digits of a number, with a zero byte behind them.
EXPORT(digits) const char *digits(unsigned number) {
  char *at = text + sizeof text - 1;
  do {
    *--at = (char)('0' + number % 10);
    number /= 10;
  } while (number);
  return at;
}

static unsigned sum(unsigned a, unsigned b) { return a + b; }
static unsigned difference(unsigned a, unsigned b) { return a > b ? a - b : b - a; }
static unsigned common(unsigned a, unsigned b) { return a / gcd(a, b) * b; }

// An operation, for its caller to call.
EXPORT(chosen) operation chosen(unsigned number) {
  static const operation operations[] = {sum, difference, common};
  if (number >= sizeof operations / sizeof *operations) __builtin_trap();
  return operations[number];
}
