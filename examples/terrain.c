// Hills from a seed, for a map: 64 by 64 heights from 0 to 255, which fit together at the edges. `terrain.sh` compiles
// it, and docs/use/GALLERY.md shows it.

#include "pack.h"

#define SIDE 64

// A byte for each place, row by row.
static byte heights[SIDE * SIDE];

static unsigned chance;

EXPORT(address) byte *address(void) { return heights; }

// A number from -most to most by chance. Products of 32 bits are cheaper in a pack than shifts and exclusive ors.
static int by_chance(int most) {
  chance = chance * 1664525 + 1013904223;
  return (int)(chance / 65536 % (unsigned)(2 * most + 1)) - most;
}

static unsigned wrapped(unsigned place) { return place >= SIDE ? place - SIDE : place; }

static int height(unsigned x, unsigned y) { return heights[wrapped(y) * SIDE + wrapped(x)]; }

// A place becomes what the four round it are in the middle, and a little more or less.
static void raise(unsigned x, unsigned y, int sum, int most) {
  int value = sum / 4 + by_chance(most);
  heights[y * SIDE + x] = (byte)(value < 0 ? 0 : value > 255 ? 255 : value);
}

// The places in the middle of squares of this side, and then those in the middle of the sides.
static void refine(unsigned side, int most) {
  unsigned half = side / 2;
  for (unsigned y = 0; y < SIDE; y += side)
    for (unsigned x = 0; x < SIDE; x += side)
      raise(x + half, y + half, height(x, y) + height(x + side, y) + height(x, y + side) + height(x + side, y + side),
            most);
  for (unsigned y = 0; y < SIDE; y += half)
    for (unsigned x = y % side ? 0 : half; x < SIDE; x += side)
      raise(x, y, height(x + half, y) + height(x + SIDE - half, y) + height(x, y + half) + height(x, y + SIDE - half),
            most);
}

EXPORT(grow) void grow(unsigned seed) {
  chance = seed;
  int most = 90;
  heights[0] = 110;
  for (unsigned side = SIDE; side > 1; side /= 2) {
    refine(side, most);
    most = most * 3 / 5;
  }
}
