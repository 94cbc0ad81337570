// What C programs for packs want: exports, traps, memory functions, a text buffer, random numbers. It needs no library, and
// what isn't used of it vanishes. Include it in one source; the text is there where TEXT_SIZE is defined before that.

#ifndef PACK_H
#define PACK_H

typedef unsigned char byte;
typedef unsigned long long number;

// A function that the pack is called with: EXPORT(name) int name(int x) { .. }
#define EXPORT(name) __attribute__((export_name(#name)))

// Ends the call with `trap unreachable`, and where a condition doesn't hold.
#define TRAP() __builtin_trap()
#define REQUIRE(condition) ((condition) ? (void)0 : TRAP())

// A function that needn't be used.
#define OFFERED static __attribute__((unused))

// ---- memory: clang calls these for large structures and arrays

void *memset(void *to, int value, unsigned long count) {
  for (byte *at = to; count > 0; count--) *at++ = (byte)value;
  return to;
}

void *memcpy(void *to, const void *from, unsigned long count) {
  const byte *source = from;
  for (byte *at = to; count > 0; count--) *at++ = *source++;
  return to;
}

void *memmove(void *to, const void *from, unsigned long count) {
  byte *at = to;
  const byte *source = from;
  if (at <= source) return memcpy(to, from, count);
  while (count-- > 0) at[count] = source[count];
  return to;
}

// ---- a text, which a pack shows by its address and length: `memory ADDR LEN` in a script

#ifdef TEXT_SIZE

static char text[TEXT_SIZE];
static unsigned text_length;

OFFERED void put(char c) {
  REQUIRE(text_length < TEXT_SIZE);
  text[text_length++] = c;
}

OFFERED void put_text(const char *from) {
  while (*from) put(*from++);
}

OFFERED void put_unsigned(unsigned value) {
  if (value >= 10) put_unsigned(value / 10);
  put((char)('0' + value % 10));
}

OFFERED void put_int(int value) {
  if (value < 0) put('-');
  put_unsigned(value < 0 ? 0u - (unsigned)value : (unsigned)value);
}

EXPORT(text_address) char *text_address(void) { return text; }
EXPORT(text_size) unsigned text_size(void) { return text_length; }

#endif

// ---- random numbers: George Marsaglia's xorshift with 32 bits, which needs no product. The seed isn't 0.

static unsigned random_state = 2463534242;

OFFERED void random_seed(unsigned seed) { random_state = seed ? seed : 1; }

OFFERED unsigned random_next(void) {
  random_state ^= random_state << 13;
  random_state ^= random_state >> 17;
  random_state ^= random_state << 5;
  return random_state;
}

// One below `most`, each nearly as likely as the others.
OFFERED unsigned random_below(unsigned most) {
  REQUIRE(most > 0);
  return random_next() % most;
}

#endif
