// SipHash-2-4, a keyed hash of 64 bits, by Jean-Philippe Aumasson and Daniel J. Bernstein: additions, rotations and exclusive ors of
// numbers of 64 bits. `hash.sh` compiles it.

#define EXPORT(name) __attribute__((export_name(#name)))

typedef unsigned long long number;

static unsigned char text[64];
static number v0, v1, v2, v3;

static number turned(number x, unsigned bits) { return x << bits | x >> (64 - bits); }

static void turn(void) {
  v0 += v1, v1 = turned(v1, 13) ^ v0, v0 = turned(v0, 32);
  v2 += v3, v3 = turned(v3, 16) ^ v2;
  v0 += v3, v3 = turned(v3, 21) ^ v0;
  v2 += v1, v1 = turned(v1, 17) ^ v2, v2 = turned(v2, 32);
}

static void take(number word) {
  v3 ^= word;
  turn(), turn();
  v0 ^= word;
}

// The text is the numbers from 0 up, a byte each.
EXPORT(count) void count(void) {
  for (unsigned k = 0; k < sizeof text; k++) text[k] = (unsigned char)k;
}

// The hash of the text's first bytes by a key of two halves. Traps where the text hasn't as many.
EXPORT(hash) number hash(number low, number high, unsigned length) {
  if (length > sizeof text) __builtin_trap();
  v0 = low ^ 0x736f6d6570736575;
  v1 = high ^ 0x646f72616e646f6d;
  v2 = low ^ 0x6c7967656e657261;
  v3 = high ^ 0x7465646279746573;
  unsigned at = 0;
  for (; at + 8 <= length; at += 8) take(*(number *)(text + at));
  number rest = (number)length << 56;
  for (unsigned k = 0; at + k < length; k++) rest |= (number)text[at + k] << (8 * k);
  take(rest);
  v2 ^= 0xff;
  turn(), turn(), turn(), turn();
  return v0 ^ v1 ^ v2 ^ v3;
}
