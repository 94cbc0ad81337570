// MD5 of texts that are made from a seed, with the table of sines and the rotations in arrays.
#include "pack.h"

// call make 20 7
// call begin 20
// call rounds 16
// call rounds 16
// call rounds 16
// call rounds 16
// call finish
// call word 3
// call make 55 9
// call begin 55
// call rounds 64
// call finish
// call begin 20
// call rounds 64
// call finish
// call word 4

static const unsigned sines[64] = {
    0xd76aa478, 0xe8c7b756, 0x242070db, 0xc1bdceee, 0xf57c0faf, 0x4787c62a, 0xa8304613, 0xfd469501,
    0x698098d8, 0x8b44f7af, 0xffff5bb1, 0x895cd7be, 0x6b901122, 0xfd987193, 0xa679438e, 0x49b40821,
    0xf61e2562, 0xc040b340, 0x265e5a51, 0xe9b6c7aa, 0xd62f105d, 0x02441453, 0xd8a1e681, 0xe7d3fbc8,
    0x21e1cde6, 0xc33707d6, 0xf4d50d87, 0x455a14ed, 0xa9e3e905, 0xfcefa3f8, 0x676f02d9, 0x8d2a4c8a,
    0xfffa3942, 0x8771f681, 0x6d9d6122, 0xfde5380c, 0xa4beea44, 0x4bdecfa9, 0xf6bb4b60, 0xbebfbc70,
    0x289b7ec6, 0xeaa127fa, 0xd4ef3085, 0x04881d05, 0xd9d4d039, 0xe6db99e5, 0x1fa27cf8, 0xc4ac5665,
    0xf4292244, 0x432aff97, 0xab9423a7, 0xfc93a039, 0x655b59c3, 0x8f0ccc92, 0xffeff47d, 0x85845dd1,
    0x6fa87e4f, 0xfe2ce6e0, 0xa3014314, 0x4e0811a1, 0xf7537e82, 0xbd3af235, 0x2ad7d2bb, 0xeb86d391};
static const byte turns[16] = {7, 12, 17, 22, 5, 9, 14, 20, 4, 11, 16, 23, 6, 10, 15, 21};

static byte message[64];
static unsigned state[4];

EXPORT(make) void make(unsigned count, unsigned seed) {
  REQUIRE(count <= 55);
  random_seed(seed);
  for (unsigned i = 0; i < count; i++) message[i] = (byte)random_next();
}

static unsigned rotate(unsigned x, unsigned k) { return x << k | x >> (32 - k); }

static unsigned mixed(unsigned round, unsigned b, unsigned c, unsigned d) {
  switch (round) {
    case 0: return (b & c) | (~b & d);
    case 1: return (d & b) | (~d & c);
    case 2: return b ^ c ^ d;
    default: return c ^ (b | ~d);
  }
}

static unsigned words[16], at[4], done;

// A text of at most 55 bytes, which with its end and its length makes one block.
EXPORT(begin) void begin(unsigned count) {
  static const unsigned first[4] = {0x67452301, 0xefcdab89, 0x98badcfe, 0x10325476};
  REQUIRE(count <= 55);
  message[count] = 0x80;
  for (unsigned i = count + 1; i < 64; i++) message[i] = 0;
  message[56] = (byte)(8 * count), message[57] = (byte)(count >> 5);
  for (unsigned i = 0; i < 16; i++) {
    const byte *four = &message[4 * i];
    words[i] = four[0] | (unsigned)four[1] << 8 | (unsigned)four[2] << 16 | (unsigned)four[3] << 24;
  }
  for (int i = 0; i < 4; i++) state[i] = at[i] = first[i];
  done = 0;
}

// So many of the 64 rounds.
EXPORT(rounds) unsigned rounds(unsigned count) {
  static const byte factor[4] = {1, 5, 3, 7}, first[4] = {0, 1, 5, 0};
  unsigned a = at[0], b = at[1], c = at[2], d = at[3];
  for (; count > 0 && done < 64; count--, done++) {
    unsigned round = done / 16;
    unsigned sum = a + mixed(round, b, c, d) + sines[done] + words[(factor[round] * done + first[round]) % 16];
    a = d, d = c, c = b;
    b += rotate(sum, turns[4 * round + done % 4]);
  }
  at[0] = a, at[1] = b, at[2] = c, at[3] = d;
  return b;
}

EXPORT(finish) unsigned finish(void) {
  REQUIRE(done == 64);
  for (int i = 0; i < 4; i++) state[i] += at[i];
  return state[0];
}

EXPORT(word) unsigned word(unsigned i) {
  REQUIRE(i < 4);
  return state[i];
}
