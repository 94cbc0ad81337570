// Conway's game of life on a field of 44 by 28 cells, for a wall that moves in a map. `life.sh` compiles it, and
// docs/use/GALLERY.md shows it.

#include "pack.h"

#define WIDTH 44
#define HEIGHT 28
#define ROW (WIDTH + 2)

// A word for each cell, 1 where it lives. The cells round the field never live.
static int cells[(HEIGHT + 2) * ROW];

// The row above as it was, since a generation is worked out in its place.
static int above[ROW];

EXPORT(address) int *address(void) { return &cells[ROW + 1]; }

EXPORT(set) void set(unsigned x, unsigned y, int lives) {
  REQUIRE(x < WIDTH && y < HEIGHT);
  cells[(y + 1) * ROW + x + 1] = lives != 0;
}

static void next_row(int *row) {
  int left = 0, here = above[1] + row[1] + row[1 + ROW];
  for (unsigned x = 1; x <= WIDTH; x++) {
    int right = above[x + 1] + row[x + 1] + row[x + 1 + ROW], lives = row[x], count = left + here + right;
    int will_live = count == 3 ? 1 : count == 4 ? lives : 0;
    above[x] = lives;
    if (will_live != lives) row[x] = will_live;
    left = here, here = right;
  }
}

// So many generations.
EXPORT(step) void step(unsigned generations) {
  for (; generations > 0; generations--) {
    for (unsigned x = 0; x < ROW; x++) above[x] = 0;
    for (unsigned y = 1; y <= HEIGHT; y++) next_row(&cells[y * ROW]);
  }
}

// Bill Gosper's gun, which sends a glider to the south-east every 30 generations, on a field that is empty but for it.
static const char gun_rows[] =
    "........................O...........\n"
    "......................O.O...........\n"
    "............OO......OO............OO\n"
    "...........O...O....OO............OO\n"
    "OO........O.....O...OO..............\n"
    "OO........O...O.OO....O.O...........\n"
    "..........O.....O.......O...........\n"
    "...........O...O....................\n"
    "............OO......................\n";

EXPORT(gun) void gun(void) {
  for (unsigned at = 0; at < (HEIGHT + 2) * ROW; at++) cells[at] = 0;
  unsigned x = 1, y = 1;
  for (const char *at = gun_rows; *at; at++) {
    if (*at == '\n') {
      x = 1, y++;
    } else {
      set(x++, y, *at == 'O');
    }
  }
}
