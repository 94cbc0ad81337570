// Cells on a torus: the game of life by bytes and by rows of bits, an ant, and a line of cells by a rule's number.
#include "pack.h"

// call glider 8
// call generations 1 2 4
// call alive
// call rows 8
// call bits 1
// call rule 30 3
// call ant 40
// call fire 11
// call alive
// call glider 12
// call generations 2 4 5
// call rows 12
// call ant 200
// call bits 3

#define MOST 16
static byte cells[MOST][MOST], others[MOST][MOST];
static unsigned lines[MOST];
static unsigned side = MOST;

EXPORT(glider) void glider(unsigned size) {
  REQUIRE(size <= MOST && size > 4);
  side = size;
  memset(cells, 0, sizeof cells);
  cells[0][1] = cells[1][2] = cells[2][0] = cells[2][1] = cells[2][2] = 1;
  cells[6][6] = cells[6][7] = cells[6][8] = 1;
}

EXPORT(alive) unsigned alive(void) {
  unsigned count = 0;
  for (unsigned y = 0; y < side; y++)
    for (unsigned x = 0; x < side; x++) count += cells[y][x];
  return count;
}

static int neighbours(unsigned x, unsigned y) {
  int count = 0;
  for (unsigned v = 0; v < 3; v++)
    for (unsigned u = 0; u < 3; u++)
      if (u != 1 || v != 1) count += cells[(y + v + side - 1) % side][(x + u + side - 1) % side];
  return count;
}

// Of a part of the board alone, so that a call stays short.
EXPORT(generations) void generations(int count, unsigned height, unsigned width) {
  while (count-- > 0) {
    for (unsigned y = 0; y < height; y++)
      for (unsigned x = 0; x < width; x++) {
        int near = neighbours(x, y);
        others[y][x] = near == 3 || (near == 2 && cells[y][x]);
      }
    for (unsigned y = 0; y < height; y++) memcpy(cells[y], others[y], width);
  }
}

EXPORT(rows) unsigned rows(unsigned size) {
  unsigned sum = 0;
  for (unsigned y = 0; y < size; y++) {
    unsigned line = 0;
    for (unsigned x = 0; x < size; x++) line |= (unsigned)cells[y][x] << x;
    lines[y] = line;
    sum ^= line << y;
  }
  return sum;
}

static unsigned turned(unsigned line, unsigned by) { return (line << by | line >> (side - by)) & ((1u << side) - 1); }

// All cells of a row at once: three bits of a sum in three numbers.
EXPORT(bits) unsigned bits(int count) {
  unsigned next[MOST], sum = 0;
  while (count-- > 0) {
    for (unsigned y = 0; y < side; y++) {
      unsigned ones = 0, twos = 0, fours = 0;
      for (unsigned k = 0; k < 9; k++) {
        if (k == 4) continue;
        unsigned line = lines[(y + k / 3 + side - 1) % side];
        if (k % 3 != 1) line = turned(line, k % 3 == 0 ? 1 : side - 1);
        unsigned carry = ones & line;
        ones ^= line;
        fours |= twos & carry;
        twos ^= carry;
      }
      next[y] = twos & ~fours & (ones | lines[y]);
    }
    for (unsigned y = 0; y < side; y++) lines[y] = next[y];
  }
  for (unsigned y = 0; y < side; y++) sum += (unsigned)__builtin_popcount(lines[y]);
  return sum;
}

EXPORT(rule) unsigned rule(unsigned number, int count) {
  unsigned line = 1u << 16;
  for (; count > 0; count--) {
    unsigned next = 0;
    for (int i = 1; i < 31; i++) next |= (number >> (line >> (i - 1) & 7) & 1) << i;
    line = next;
  }
  return line;
}

EXPORT(ant) unsigned ant(int steps) {
  unsigned x = 5, y = 5;
  int direction = 0;
  while (steps-- > 0) {
    direction = (direction + (cells[y][x] ? 1 : 3)) % 4;
    cells[y][x] ^= 1;
    switch (direction) {
      case 0: y = y ? y - 1 : side - 1; break;
      case 1: x = x + 1 < side ? x + 1 : 0; break;
      case 2: y = y + 1 < side ? y + 1 : 0; break;
      default: x = x ? x - 1 : side - 1;
    }
  }
  return x * 100 + y;
}

// A wood that burns from a cell, by a list of what burns.
EXPORT(fire) int fire(unsigned seed) {
  byte list[MOST * MOST];
  int count = 1, burnt = 0;
  random_seed(seed);
  for (unsigned i = 0; i < side * side; i++) cells[i / side][i % side] = random_next() % 10 < 6;
  list[0] = 5 * MOST + 5;
  while (count > 0) {
    unsigned at = list[--count], x = at % MOST, y = at / MOST;
    if (cells[y][x] != 1) continue;
    cells[y][x] = 0, burnt++;
    if (x > 0) list[count++] = (byte)(at - 1);
    if (x + 1 < side) list[count++] = (byte)(at + 1);
    if (y > 0) list[count++] = (byte)(at - MOST);
    if (y + 1 < side) list[count++] = (byte)(at + MOST);
  }
  return burnt;
}
