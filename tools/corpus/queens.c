// Searches that go back: queens, permutations, subsets with a sum, a knight's way, hanoi, magic triples.
#include "pack.h"

// call queens 4
// call by_bits 4
// call permutations 4
// call next 5 8
// call subsets 11
// call knight 3
// call hanoi 4
// call choose 12 5
// call partitions 6
// call queens 20
// call by_bits 5
// call queens 5
// call partitions 10
// call next 6 40
// call knight 5

static signed char columns[16];
static byte order[8];

static int is_safe(int row, int column) {
  for (int i = 0; i < row; i++) {
    int apart = columns[i] - column;
    if (apart == 0 || apart == row - i || apart == i - row) return 0;
  }
  return 1;
}

static int place(int row, int size) {
  int count = 0;
  if (row == size) return 1;
  for (int column = 0; column < size; column++) {
    if (!is_safe(row, column)) continue;
    columns[row] = (signed char)column;
    count += place(row + 1, size);
  }
  return count;
}

EXPORT(queens) int queens(int size) {
  REQUIRE(size <= 16);
  return place(0, size);
}

static int placed(unsigned all, unsigned down, unsigned left, unsigned right) {
  int count = 0;
  if (down == all) return 1;
  for (unsigned free = all & ~(down | left | right); free; free &= free - 1) {
    unsigned bit = free & -free;
    count += placed(all, down | bit, (left | bit) << 1, (right | bit) >> 1);
  }
  return count;
}

EXPORT(by_bits) int by_bits(int size) { return placed((1u << size) - 1, 0, 0, 0); }

static void swap(byte *a, byte *b) {
  byte kept = *a;
  *a = *b;
  *b = kept;
}

// Those whose neighbours differ by more than one, by Heap's exchanges.
static int exchanged(int size, int count) {
  int found = 0;
  if (size == 1) {
    for (int i = 1; i < count; i++) {
      int apart = order[i] - order[i - 1];
      if (apart * apart == 1) return 0;
    }
    return 1;
  }
  for (int i = 0; i < size; i++) {
    found += exchanged(size - 1, count);
    swap(&order[size % 2 ? 0 : i], &order[size - 1]);
  }
  return found;
}

EXPORT(permutations) int permutations(int count) {
  REQUIRE(count <= 8);
  for (int i = 0; i < count; i++) order[i] = (byte)i;
  return exchanged(count, count);
}

// The permutation so many behind the first one, in the order of a lexicon.
EXPORT(next) int next(int count, int steps) {
  int number = 0;
  for (int i = 0; i < count; i++) order[i] = (byte)(i + 1);
  while (steps-- > 0) {
    int i = count - 2, j = count - 1;
    while (i >= 0 && order[i] > order[i + 1]) i--;
    if (i < 0) return 0;
    while (order[j] < order[i]) j--;
    swap(&order[i], &order[j]);
    for (int low = i + 1, high = count - 1; low < high; low++, high--) swap(&order[low], &order[high]);
  }
  for (int i = 0; i < count; i++) number = 10 * number + order[i];
  return number;
}

EXPORT(subsets) int subsets(int wanted) {
  static const byte weights[5] = {3, 5, 8, 2, 4};
  int count = 0;
  for (unsigned set = 0; set < 32; set++) {
    int sum = 0;
    for (int i = 0; i < 5; i++)
      if (set >> i & 1) sum += weights[i];
    count += sum == wanted;
  }
  return count;
}

// The fewest moves from a corner to each field, and their sum.
EXPORT(knight) int knight(int size) {
  static const signed char moves[8][2] = {{1, 2}, {2, 1}, {-1, 2}, {-2, 1}, {1, -2}, {2, -1}, {-1, -2}, {-2, -1}};
  signed char far[36];
  byte queue[36];
  int first = 0, last = 1, sum = 0;
  REQUIRE(size <= 6);
  for (int i = 0; i < size * size; i++) far[i] = -1;
  queue[0] = 0, far[0] = 0;
  while (first < last) {
    int at = queue[first++], x = at % size, y = at / size;
    sum += far[at];
    for (int i = 0; i < 8; i++) {
      int u = x + moves[i][0], v = y + moves[i][1];
      if (u < 0 || v < 0 || u >= size || v >= size || far[v * size + u] >= 0) continue;
      far[v * size + u] = (signed char)(far[at] + 1);
      queue[last++] = (byte)(v * size + u);
    }
  }
  return sum;
}

static unsigned pegs[3];

static int moved(int count, int from, int to) {
  if (count == 0) return 0;
  int over = moved(count - 1, from, 3 - from - to);
  pegs[from] ^= 1u << count, pegs[to] ^= 1u << count;
  return over + 1 + moved(count - 1, 3 - from - to, to);
}

EXPORT(hanoi) int hanoi(int count) { return moved(count, 0, 2); }

EXPORT(choose) int choose(int n, int k) {
  if (k == 0 || k == n) return 1;
  return n > 6 ? choose(n - 1, k - 1) % 1000 + 1 : choose(n - 1, k - 1) + choose(n - 1, k);
}

static int parted(int n, int most) {
  int count = n == 0;
  for (int part = most < n ? most : n; part > 0; part--) count += parted(n - part, part);
  return count;
}

EXPORT(partitions) int partitions(int n) { return parted(n, n); }
