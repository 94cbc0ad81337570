// Tic-tac-toe and nim, played out to the end: the best move by search, with bounds and without.
#include "pack.h"

// call set 123400456
// call best 1
// call evaluate 1
// call set 123400450
// call best 1
// call nim 3 4 5
// call connect 4
// call play 9
// call evaluate 3
// call set 123000450
// call best -1
// call searched

static signed char board[9];
static int positions;
static const byte lines[8][3] = {{0, 1, 2}, {3, 4, 5}, {6, 7, 8}, {0, 3, 6},
                                 {1, 4, 7}, {2, 5, 8}, {0, 4, 8}, {2, 4, 6}};

// Digits of a number: 1 and 2 are the players' marks, and what is above takes none.
EXPORT(set) void set(unsigned digits) {
  for (int i = 8; i >= 0; i--, digits /= 10) {
    unsigned digit = digits % 10;
    board[i] = (signed char)(digit == 1 ? 1 : digit == 2 ? -1 : digit > 2 ? (int)(digit % 2) * 2 - 1 : 0);
  }
}

static int winner(void) {
  for (int i = 0; i < 8; i++) {
    int sum = board[lines[i][0]] + board[lines[i][1]] + board[lines[i][2]];
    if (sum == 3) return 1;
    if (sum == -3) return -1;
  }
  return 0;
}

static int search(int player, int low, int high) {
  int won = winner(), left = 0;
  positions++;
  if (won) return won * player;
  for (int i = 0; i < 9 && low < high; i++) {
    if (board[i]) continue;
    left = 1;
    board[i] = (signed char)player;
    int value = -search(-player, -high, -low);
    board[i] = 0;
    if (value > low) low = value;
  }
  return left ? low : 0;
}

EXPORT(best) int best(int player) {
  int found = -1, most = -2;
  positions = 0;
  for (int i = 0; i < 9; i++) {
    if (board[i]) continue;
    board[i] = (signed char)player;
    int value = -search(-player, -1, 1);
    board[i] = 0;
    if (value > most) most = value, found = i;
  }
  return found;
}

EXPORT(searched) int searched(void) { return positions; }

EXPORT(evaluate) int evaluate(int player) {
  REQUIRE(player == 1 || player == -1);
  int sum = 0;
  for (int i = 0; i < 8; i++) {
    int mine = 0, theirs = 0;
    for (int k = 0; k < 3; k++) {
      mine += board[lines[i][k]] == player;
      theirs += board[lines[i][k]] == -player;
    }
    sum += theirs ? 0 : mine * mine;
    sum -= mine ? 0 : theirs * theirs;
  }
  return sum;
}

// The move that leaves a sum of nim of 0: the heap in the tens, and what is taken.
EXPORT(nim) int nim(int a, int b, int c) {
  int heaps[3] = {a, b, c}, sum = a ^ b ^ c;
  for (int i = 0; i < 3; i++)
    if ((heaps[i] ^ sum) < heaps[i]) return 10 * i + heaps[i] - (heaps[i] ^ sum);
  return -1;
}

// Four in a row by bits of 64: stones that fall into columns, until someone has won.
static int has_four(number stones) {
  for (int by = 1; by <= 8; by += by == 1 ? 5 : 1) {
    number pairs = stones & stones >> by;
    if (pairs & pairs >> 2 * by) return 1;
  }
  return 0;
}

EXPORT(connect) int connect(unsigned seed) {
  number players[2] = {0, 0};
  byte heights[7] = {0};
  random_seed(seed);
  for (int move = 0; move < 42; move++) {
    unsigned column = random_below(7);
    while (heights[column] == 6) column = (column + 1) % 7;
    players[move % 2] |= 1ull << (column * 7 + heights[column]++);
    if (has_four(players[move % 2])) return move;
  }
  return 42;
}

EXPORT(play) int play(unsigned seed) {
  int player = 1, left = 9;
  random_seed(seed);
  set(0);
  while (left-- > 4 && !winner()) {
    unsigned place = random_below(9);
    while (board[place]) place = (place + 1) % 9;
    board[place] = (signed char)player;
    player = -player;
  }
  return best(player) * 10 + evaluate(player);
}
