// Tables that are filled from small to large: distances of words, knapsacks, coins, common parts, ways, chains.
#include "pack.h"

// call distance 0 1
// call knapsack 6
// call coins 12
// call common 0 4
// call rising 8 5
// call ways 6
// call chain 3
// call palindromes 4
// call catalan 6
// call stairs 20
// call best_sum 12
// call distance 0 9
// call common 2 3
// call knapsack 20
// call coins 37
// call rising 14 5
// call distance 2 3
// call chain 6

static const char *const words[] = {"kitten", "sitting", "saturday", "sundays", "banana"};

static const char *word_at(unsigned i) {
  REQUIRE(i < sizeof words / sizeof *words);
  return words[i];
}

static int least(int a, int b) { return a < b ? a : b; }
static int most(int a, int b) { return a > b ? a : b; }

EXPORT(distance) int distance(unsigned i, unsigned j) {
  const char *a = word_at(i), *b = word_at(j);
  int row[16], columns = 0;
  for (; b[columns]; columns++) row[columns] = columns;
  row[columns] = columns;
  for (int y = 1; *a; a++, y++) {
    int corner = row[0];
    row[0] = y;
    for (int x = 1; x <= columns; x++) {
      int above = row[x];
      row[x] = least(least(above, row[x - 1]) + 1, corner + (*a != b[x - 1]));
      corner = above;
    }
  }
  return row[columns];
}

EXPORT(knapsack) int knapsack(int room) {
  static const byte weights[6] = {3, 4, 5, 9, 2, 7}, values[6] = {3, 4, 4, 10, 1, 8};
  int table[64] = {0};
  REQUIRE(room < 64);
  for (int i = 0; i < 6; i++)
    for (int left = room; left >= weights[i]; left--)
      table[left] = most(table[left], table[left - weights[i]] + values[i]);
  return table[room];
}

EXPORT(coins) int coins(int sum) {
  static const byte kinds[5] = {1, 2, 5, 10, 20};
  int ways[64] = {1};
  REQUIRE(sum < 64);
  for (int i = 0; i < 5; i++)
    for (int left = kinds[i]; left <= sum; left++) ways[left] += ways[left - kinds[i]];
  return ways[sum];
}

static byte table[12][12];

EXPORT(common) int common(unsigned i, unsigned j) {
  const char *a = word_at(i), *b = word_at(j);
  int rows = 0, columns = 0;
  for (; a[rows]; rows++)
    for (columns = 0; b[columns]; columns++) {
      byte above = rows ? table[rows - 1][columns] : 0, before = columns ? table[rows][columns - 1] : 0;
      byte corner = rows && columns ? table[rows - 1][columns - 1] : 0;
      table[rows][columns] = a[rows] == b[columns] ? (byte)(corner + 1) : above > before ? above : before;
    }
  return table[rows - 1][columns - 1];
}

// The longest part of a list that rises.
EXPORT(rising) int rising(int count, unsigned seed) {
  int numbers[24], lengths[24], longest = 0;
  REQUIRE(count <= 24);
  random_seed(seed);
  for (int i = 0; i < count; i++) {
    numbers[i] = (int)random_below(100), lengths[i] = 1;
    for (int j = 0; j < i; j++)
      if (numbers[j] < numbers[i]) lengths[i] = most(lengths[i], lengths[j] + 1);
    longest = most(longest, lengths[i]);
  }
  return longest;
}

EXPORT(ways) int ways(int side) {
  int counts[8][8];
  REQUIRE(side <= 8);
  for (int y = 0; y < side; y++)
    for (int x = 0; x < side; x++)
      counts[y][x] = x * y % 5 == 4 ? 0 : x && y ? counts[y - 1][x] + counts[y][x - 1] : 1;
  return counts[side - 1][side - 1];
}

EXPORT(chain) int chain(int count) {
  static const byte sizes[8] = {10, 3, 12, 5, 50, 6, 8, 2};
  int cost[8][8] = {{0}};
  REQUIRE(count < 8);
  for (int length = 2; length <= count; length++)
    for (int i = 0; i + length <= count; i++) {
      int j = i + length - 1;
      cost[i][j] = 1 << 30;
      for (int k = i; k < j; k++)
        cost[i][j] = least(cost[i][j], cost[i][k] + cost[k + 1][j] + sizes[i] * sizes[k + 1] * sizes[j + 1]);
    }
  return cost[0][count - 1];
}

EXPORT(palindromes) int palindromes(unsigned i) {
  const char *word = word_at(i);
  int count = 0;
  for (int middle = 0; word[middle]; middle++)
    for (int even = 0; even < 2; even++)
      for (int low = middle, high = middle + even; low >= 0 && word[high] && word[low] == word[high]; low--, high++)
        count++;
  return count;
}

EXPORT(catalan) int catalan(int n) {
  int found[20] = {1};
  REQUIRE(n < 20);
  for (int i = 1; i <= n; i++)
    for (int j = 0; j < i; j++) found[i] += found[j] * found[i - 1 - j];
  return found[n];
}

EXPORT(stairs) number stairs(int n) {
  number a = 1, b = 1, c = 2;
  for (; n > 0; n--) {
    number next = a + b + c;
    a = b, b = c, c = next;
  }
  return a;
}

EXPORT(best_sum) int best_sum(int count) {
  int best = 0, here = 0;
  random_seed(8);
  for (int i = 0; i < count; i++) {
    here = most(0, here + (int)random_below(21) - 10);
    best = most(best, here);
  }
  return best;
}
