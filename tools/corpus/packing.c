// Bytes made shorter and long again: runs, a window that is looked back into, Huffman's lengths, move to front, deltas.
#include "pack.h"

// call make 30 7
// call runs 30
// call unrun 0
// call equal 30
// call back 16
// call unback 0
// call equal 16
// call front 20
// call lengths 30
// call delta 30
// call varint 8
// call make 100 5
// call runs 100
// call back 24
// call front 60
// call lengths 90
// call varint 30

static byte plain[256], packed[640], again[256];
static unsigned packed_size;

// Runs and repeats, so that something can be made shorter.
EXPORT(make) void make(unsigned count, unsigned seed) {
  REQUIRE(count <= sizeof plain);
  random_seed(seed);
  for (unsigned i = 0; i < count;) {
    unsigned value = random_below(5), run = 1 + random_below(6);
    while (run-- > 0 && i < count) plain[i++] = (byte)(97 + value);
  }
}

EXPORT(runs) unsigned runs(unsigned count) {
  unsigned size = 0;
  for (unsigned i = 0; i < count;) {
    unsigned run = 1;
    while (i + run < count && run < 255 && plain[i + run] == plain[i]) run++;
    packed[size++] = (byte)run, packed[size++] = plain[i];
    i += run;
  }
  return packed_size = size;
}

EXPORT(unrun) unsigned unrun(unsigned to) {
  for (unsigned i = 0; i < packed_size; i += 2)
    for (byte k = packed[i]; k > 0; k--) again[to++] = packed[i + 1];
  return to;
}

EXPORT(equal) int equal(unsigned count) {
  for (unsigned i = 0; i < count; i++)
    if (plain[i] != again[i]) return 0;
  return 1;
}

// A byte, or how far back and how long: the longest of the last eight places.
EXPORT(back) unsigned back(unsigned count) {
  unsigned size = 0;
  for (unsigned i = 0; i < count;) {
    unsigned longest = 0, far = 0;
    for (unsigned from = i > 8 ? i - 8 : 0; from < i; from++) {
      unsigned k = 0;
      while (k < 15 && i + k < count && plain[from + k] == plain[i + k]) k++;
      if (k > longest) longest = k, far = i - from;
    }
    if (longest > 2) {
      packed[size++] = 255, packed[size++] = (byte)((far - 1) << 4 | longest);
      i += longest;
    } else packed[size++] = plain[i++];
  }
  return packed_size = size;
}

EXPORT(unback) unsigned unback(unsigned to) {
  for (unsigned i = 0; i < packed_size; i++) {
    if (packed[i] != 255) {
      again[to++] = packed[i];
      continue;
    }
    byte pair = packed[++i];
    for (unsigned k = pair & 15, from = to - (pair >> 4) - 1; k > 0; k--) again[to++] = again[from++];
  }
  return to;
}

EXPORT(front) unsigned front(unsigned count) {
  byte order[8];
  unsigned sum = 0;
  for (int i = 0; i < 8; i++) order[i] = (byte)(97 + i);
  for (unsigned i = 0; i < count; i++) {
    unsigned k = 0;
    while (order[k] != plain[i]) k++;
    sum += k;
    for (; k > 0; k--) order[k] = order[k - 1];
    order[0] = plain[i];
  }
  return sum;
}

// The bits that Huffman's code takes, by joining the two rarest again and again.
EXPORT(lengths) unsigned lengths(unsigned count) {
  unsigned weights[8] = {0}, left = 0, sum = 0;
  for (unsigned i = 0; i < count; i++) weights[plain[i] % 8]++;
  for (unsigned i = 0; i < 8; i++)
    if (weights[i]) weights[left++] = weights[i];
  for (; left > 1; left--) {
    for (unsigned last = left - 1; last + 2 >= left; last--)
      for (unsigned i = 0; i < last; i++)
        if (weights[i] < weights[last]) {
          unsigned kept = weights[i];
          weights[i] = weights[last], weights[last] = kept;
        }
    weights[left - 2] += weights[left - 1];
    sum += weights[left - 2];
  }
  return sum;
}

EXPORT(delta) unsigned delta(unsigned count) {
  byte before = 0;
  unsigned zeros = 0;
  for (unsigned i = 0; i < count; i++) {
    byte value = plain[i];
    packed[i] = (byte)(value - before);
    zeros += packed[i] == 0;
    before = value;
  }
  return zeros;
}

// Numbers in groups of seven bits, written and read again.
EXPORT(varint) unsigned varint(unsigned count) {
  unsigned size = 0, sum = 0;
  random_seed(77);
  for (unsigned i = 0; i < count; i++) {
    unsigned value = random_next() >> random_below(32);
    for (; value > 127; value >>= 7) packed[size++] = (byte)(value | 128);
    packed[size++] = (byte)value;
  }
  for (unsigned i = 0; i < size;) {
    unsigned value = 0, shift = 0;
    do value |= (packed[i] & 127u) << shift, shift += 7;
    while (packed[i++] & 128);
    sum ^= value;
  }
  return sum;
}
