// Two machines: one with registers and words of 32 bits, and one of eight signs that works on a tape.
#define TEXT_SIZE 64
#include "pack.h"

// call load 0
// call run 80
// call register 1
// call load 1
// call run 80
// call register 2
// call load 2
// call run 60
// call tape 200
// call text_size
// call load 3
// call run 10
// call load 0
// call run 200
// call register 1
// call load 2
// call run 200
// call tape 400

enum { STOP, SET, ADD, SUB, MUL, DIV, COPY, JUMP, UNLESS, LESS, LOAD, STORE };
#define OP(code, x, y, z) ((unsigned)(code) << 24 | (x) << 16 | (y) << 8 | (z))

static const unsigned programs[][16] = {
    // the sum of the numbers from 1 to 8
    {OP(SET, 0, 0, 8), OP(SET, 1, 0, 0), OP(SET, 3, 0, 1), OP(UNLESS, 0, 0, 8), OP(ADD, 1, 1, 0), OP(SUB, 0, 0, 3),
     OP(JUMP, 0, 0, 3), OP(STOP, 0, 0, 0), OP(STOP, 0, 0, 0)},
    // 5 factorial, and so many digits
    {OP(SET, 0, 0, 5), OP(SET, 1, 0, 1), OP(SET, 3, 0, 1), OP(UNLESS, 0, 0, 7), OP(MUL, 1, 1, 0), OP(SUB, 0, 0, 3),
     OP(JUMP, 0, 0, 3), OP(SET, 4, 0, 10), OP(SET, 2, 0, 0), OP(UNLESS, 1, 0, 13), OP(DIV, 1, 1, 4), OP(ADD, 2, 2, 3),
     OP(JUMP, 0, 0, 9), OP(STOP, 0, 0, 0)},
    // a table of squares, and how many of them are less than 20
    {OP(SET, 0, 0, 0), OP(SET, 3, 0, 1), OP(SET, 4, 0, 6), OP(SET, 6, 0, 20), OP(LESS, 5, 0, 4), OP(UNLESS, 5, 0, 14),
     OP(MUL, 1, 0, 0), OP(STORE, 1, 0, 0), OP(LOAD, 7, 0, 0), OP(LESS, 7, 7, 6), OP(ADD, 2, 2, 7), OP(ADD, 0, 0, 3),
     OP(JUMP, 0, 0, 4), OP(STOP, 0, 0, 0), OP(STOP, 0, 0, 0)},
    {OP(SET, 0, 0, 5), OP(DIV, 1, 0, 7), OP(STOP, 0, 0, 0)}};

static const unsigned *program;
static unsigned at, registers[8], words[32];

EXPORT(load) void load(unsigned i) {
  REQUIRE(i < sizeof programs / sizeof *programs);
  program = programs[i], at = 0;
  for (int k = 0; k < 8; k++) registers[k] = 0;
}

EXPORT(register) unsigned register_at(unsigned i) { return registers[i % 8]; }

// Runs at most so many instructions, and gives how many are left.
EXPORT(run) int run(int fuel) {
  for (; fuel > 0; fuel--) {
    unsigned word = program[at++];
    unsigned x = word >> 16 & 255, y = word >> 8 & 255, z = word & 255, *to = &registers[x];
    switch (word >> 24) {
      case STOP: return fuel;
      case SET: *to = z; break;
      case ADD: *to = registers[y] + registers[z]; break;
      case SUB: *to = registers[y] - registers[z]; break;
      case MUL: *to = registers[y] * registers[z]; break;
      case DIV: *to = registers[y] / registers[z]; break;
      case COPY: *to = registers[y]; break;
      case JUMP: at = z; break;
      case UNLESS: if (!*to) at = z; break;
      case LESS: *to = registers[y] < registers[z]; break;
      case LOAD: *to = words[registers[y] % 32]; break;
      case STORE: words[registers[y] % 32] = *to; break;
      default: TRAP();
    }
  }
  return 0;
}

// Multiplies 3 by 11 on the tape, and writes what comes of it as a sign.
EXPORT(tape) int tape(int fuel) {
  static const char code[] = "+++[>+++++++++++<-]>+.-.";
  byte cells[16] = {0};
  unsigned cell = 0;
  text_length = 0;
  for (unsigned place = 0; code[place] && fuel > 0; place++, fuel--) {
    int depth = 0;
    switch (code[place]) {
      case '>': cell = (cell + 1) % 16; break;
      case '<': cell = (cell + 15) % 16; break;
      case '+': cells[cell]++; break;
      case '-': cells[cell]--; break;
      case '.': put((char)cells[cell]); break;
      case '[':
        if (!cells[cell])
          do depth += (code[place] == '[') - (code[place] == ']');
          while (depth && code[++place]);
        break;
      case ']':
        if (cells[cell])
          do depth += (code[place] == ']') - (code[place] == '[');
          while (depth && place-- > 0);
    }
  }
  return fuel;
}
