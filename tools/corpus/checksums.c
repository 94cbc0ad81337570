// Checksums: CRC by bits and by half bytes, Adler, Fletcher, FNV, Murmur, and one by the digits of a card's number.
#include "pack.h"

// call make 32 5
// call crc16 8
// call crc32 32
// call adler 24
// call fletcher 20
// call fnv 24
// call murmur 32 9
// call card 4539578763621486
// call joined 8
// call make 64 3
// call murmur 300 1
// call crc16 40
// call joined 32
// call crc32 64

static byte bytes[256];
static const unsigned halves[16] = {0x00000000, 0x1db71064, 0x3b6e20c8, 0x26d930ac, 0x76dc4190, 0x6b6b51f4,
                                    0x4db26158, 0x5005713c, 0xedb88320, 0xf00f9344, 0xd6d6a3e8, 0xcb61b38c,
                                    0x9b64c2b0, 0x86d3d2d4, 0xa00ae278, 0xbdbdf21c};

EXPORT(make) void make(unsigned count, unsigned seed) {
  REQUIRE(count <= sizeof bytes);
  random_seed(seed);
  for (unsigned i = 0; i < count; i++) bytes[i] = (byte)(random_next() >> 3);
}

EXPORT(crc16) unsigned crc16(unsigned count) {
  unsigned crc = 0xffff;
  for (unsigned i = 0; i < count; i++) {
    crc ^= (unsigned)bytes[i] << 8;
    for (int bit = 0; bit < 8; bit++) crc = crc & 0x8000 ? (crc << 1 ^ 0x1021) & 0xffff : crc << 1;
  }
  return crc;
}

EXPORT(crc32) unsigned crc32(unsigned count) {
  unsigned crc = ~0u;
  for (unsigned i = 0; i < count; i++) {
    crc ^= bytes[i];
    crc = crc >> 4 ^ halves[crc & 15];
    crc = crc >> 4 ^ halves[crc & 15];
  }
  return ~crc;
}

EXPORT(adler) unsigned adler(unsigned count) {
  unsigned low = 1, high = 0;
  for (unsigned i = 0; i < count; i++) {
    low = (low + bytes[i]) % 65521;
    high = (high + low) % 65521;
  }
  return high << 16 | low;
}

EXPORT(fletcher) unsigned fletcher(unsigned count) {
  unsigned first = 0, second = 0;
  for (unsigned i = 0; i < count; i++) {
    first += bytes[i];
    if (first >= 255) first -= 255;
    second += first;
    if (second >= 255) second -= 255;
  }
  return second * 256 + first;
}

EXPORT(fnv) unsigned fnv(unsigned count) {
  unsigned hash = 2166136261u;
  for (unsigned i = 0; i < count; i++) hash = (hash ^ bytes[i]) * 16777619u;
  return hash;
}

static unsigned scrambled(unsigned k) {
  k *= 0xcc9e2d51;
  return (k << 15 | k >> 17) * 0x1b873593;
}

EXPORT(murmur) unsigned murmur(unsigned count, unsigned seed) {
  REQUIRE(count <= sizeof bytes);
  unsigned hash = seed, rest = 0;
  for (unsigned i = 0; i + 4 <= count; i += 4) {
    const byte *at = bytes + i;
    hash ^= scrambled(at[0] | (unsigned)at[1] << 8 | (unsigned)at[2] << 16 | (unsigned)at[3] << 24);
    hash = (hash << 13 | hash >> 19) * 5 + 0xe6546b64;
  }
  for (unsigned i = count % 4; i > 0; i--) rest = rest << 8 | bytes[count / 4 * 4 + i - 1];
  hash ^= scrambled(rest) ^ count;
  hash = (hash ^ hash >> 16) * 0x85ebca6b;
  hash = (hash ^ hash >> 13) * 0xc2b2ae35;
  return hash ^ hash >> 16;
}

// Whether the last digit is the one that belongs to the others.
EXPORT(card) int card(number digits) {
  unsigned sum = 0;
  for (int place = 0; digits > 0; place++, digits /= 10) {
    unsigned digit = (unsigned)(digits % 10);
    if (place % 2) digit = digit > 4 ? 2 * digit - 9 : 2 * digit;
    sum += digit;
  }
  return sum % 10 == 0;
}

EXPORT(joined) unsigned joined(unsigned count) { return crc16(count) << 16 ^ adler(count) ^ fnv(count); }
