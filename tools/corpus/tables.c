// A table of names with numbers by hashing, one of numbers with chains, sets as bits, and a store that forgets.
#include "pack.h"

// call count_words
// call number_of 3
// call number_of 6
// call remove 3
// call number_of 3
// call fill 12 7
// call has 77
// call chains
// call unite 4 6
// call cached 12
// call number_of 20
// call fill 40 3
// call unite 20 5
// call chains
// call cached 60

typedef struct {
  const char *name;
  int count;
} entry;
static entry entries[32];
static const char gone[1];
static const char story[] = "the cat and the dog saw the bird";
static const char *const words[] = {"the", "and", "cat", "dog", "bird", "sleep", "fish", "run"};
static char names[160];

static int same(const char *a, const char *b) {
  while (*a && *a == *b) a++, b++;
  return *a == *b;
}

static unsigned hash(const char *of) {
  unsigned sum = 0;
  for (; *of; of++) sum = sum * 31 + (byte)*of;
  return sum % 32;
}

static entry *place_of(const char *name) {
  entry *free = 0;
  for (unsigned at = hash(name), left = 32; left > 0; at = (at + 1) % 32, left--) {
    entry *one = &entries[at];
    if (!one->name) return free ? free : one;
    if (one->name == gone) free = free ? free : one;
    else if (same(one->name, name)) return one;
  }
  REQUIRE(free);
  return free;
}

EXPORT(count_words) int count_words(void) {
  char *to = names, *begin = names;
  int different = 0;
  memset(entries, 0, sizeof entries);
  for (const char *at = story;; at++) {
    if (*at != ' ' && *at) {
      *to++ = *at;
      continue;
    }
    *to++ = 0;
    entry *one = place_of(begin);
    if (!one->name) one->name = begin, one->count = 0, different++;
    one->count++;
    begin = to;
    if (!*at) return different;
  }
}

EXPORT(number_of) int number_of(unsigned word) {
  REQUIRE(word < sizeof words / sizeof *words);
  entry *one = place_of(words[word]);
  return one->name && one->name != gone ? one->count : -1;
}

EXPORT(remove) int removed(unsigned word) {
  REQUIRE(word < sizeof words / sizeof *words);
  entry *one = place_of(words[word]);
  if (!one->name || one->name == gone) return 0;
  one->name = gone;
  return 1;
}

static short heads[16], next[64], keys[64];
static int used;

EXPORT(has) int has(int key) {
  for (int at = heads[(unsigned)key % 16]; at; at = next[at])
    if (keys[at] == key) return at;
  return 0;
}

EXPORT(fill) int fill(int count, unsigned seed) {
  REQUIRE(count < 64);
  used = 0;
  random_seed(seed);
  for (int i = 0; i < 16; i++) heads[i] = 0;
  while (count-- > 0) {
    int key = (int)random_below(100);
    if (has(key)) continue;
    keys[++used] = (short)key;
    next[used] = heads[key % 16], heads[key % 16] = (short)used;
  }
  return used;
}

EXPORT(chains) int chains(void) {
  int longest = 0;
  for (int i = 0; i < 16; i++) {
    int count = 0;
    for (int at = heads[i]; at; at = next[at]) count++;
    if (count > longest) longest = count;
  }
  return longest;
}

// Two sets of numbers below 128: how many are in both, in one or the other, and in one alone.
EXPORT(unite) int unite(int count, unsigned seed) {
  unsigned a[4] = {0}, b[4] = {0};
  int both = 0, any = 0, one = 0;
  random_seed(seed);
  for (int i = 0; i < count; i++) {
    unsigned x = random_below(128), y = random_below(128);
    a[x / 32] |= 1u << x % 32;
    b[y / 32] |= 1u << y % 32;
  }
  for (int i = 0; i < 4; i++) {
    both += __builtin_popcount(a[i] & b[i]);
    any += __builtin_popcount(a[i] | b[i]);
    one += __builtin_popcount(a[i] ^ b[i]);
  }
  return both * 10000 + any * 100 + one;
}

// How often one of the last four was asked for.
EXPORT(cached) int cached(int asked) {
  int kept[4] = {-1, -1, -1, -1}, hits = 0;
  for (int i = 0; i < asked; i++) {
    int key = i * i % 7, k = 0;
    while (k < 3 && kept[k] != key) k++;
    hits += kept[k] == key;
    for (; k > 0; k--) kept[k] = kept[k - 1];
    kept[0] = key;
  }
  return hits;
}
