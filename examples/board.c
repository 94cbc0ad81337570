// A scoreboard of players: points by dice, kept in order, and written as lines of a text. `board.sh` compiles it.

#define TEXT_SIZE 1024
#include "pack.h"

#define PLAYERS 5

static const char *const names[PLAYERS] = {"alex", "efe", "kai", "noor", "steve"};
static int points[PLAYERS];
static byte order[PLAYERS];

// All begin with no points, and the dice with this number.
EXPORT(begin) void begin(unsigned seed) {
  random_seed(seed);
  for (unsigned player = 0; player < PLAYERS; player++) points[player] = 0, order[player] = (byte)player;
}

// A player rolls two dice, and loses what a double shows; answers the points then.
EXPORT(roll) int roll(unsigned player) {
  REQUIRE(player < PLAYERS);
  int one = (int)random_below(6) + 1, other = (int)random_below(6) + 1;
  points[player] += one == other ? -one : one + other;
  return points[player];
}

// Writes a line for each player, who has most first; answers the length of the text.
EXPORT(show) unsigned show(void) {
  for (unsigned at = 1; at < PLAYERS; at++)
    for (unsigned k = at; k > 0 && points[order[k - 1]] < points[order[k]]; k--) {
      byte player = order[k];
      order[k] = order[k - 1], order[k - 1] = player;
    }
  text_length = 0;
  for (unsigned at = 0; at < PLAYERS; at++) {
    put_int(points[order[at]]), put(' '), put_text(names[order[at]]), put('\n');
  }
  return text_size();
}
