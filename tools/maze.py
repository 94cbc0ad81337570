#!/usr/bin/env python3
"""Works out the mazes of examples/maze.rs, apart from it, and draws them.

  tools/maze.py SEED [--rows]

It restates what `carve` says there: 15 by 15 rooms, one entered after another at random, back where there is no new one
beside. With --rows it prints the rows as the numbers that the memory has, and else a picture, `#` for a wall.
"""
import sys

sys.dont_write_bytecode = True

from commands import Words, ended

ROOMS = 15
BLOCKS = 2 * ROOMS + 1
EAST, SOUTH, WEST, NORTH = (1, 0), (0, 1), (-1, 0), (0, -1)


def directions(seed):
    """Numbers of xorshift, each of which serves for 16 directions, from its highest two bits on."""
    number = seed % 2**32 or 1
    while True:
        number ^= number << 13 & 0xFFFFFFFF
        number ^= number >> 17
        number ^= number << 5 & 0xFFFFFFFF
        for place in range(30, -1, -2):
            yield number >> place & 3


def carve(seed):
    """The blocks that are no walls."""
    rooms = {(x, y) for x in range(ROOMS) for y in range(ROOMS)}
    chance, way, blocks = directions(seed), [(0, 0)], {(1, 0), (BLOCKS - 2, BLOCKS - 1), (1, 1)}
    rooms.remove((0, 0))
    while way:
        x, y = way[-1]
        first = next(chance)
        turns = [EAST, SOUTH, WEST, NORTH] * 2
        new = [(dx, dy) for dx, dy in turns[first:first + 4] if (x + dx, y + dy) in rooms]
        if not new:
            way.pop()
            continue
        dx, dy = new[0]
        blocks |= {(2 * x + 1 + dx, 2 * y + 1 + dy), (2 * x + 1 + 2 * dx, 2 * y + 1 + 2 * dy)}
        rooms.remove((x + dx, y + dy))
        way.append((x + dx, y + dy))
    return blocks


def main():
    asked = Words(__doc__)
    asked.add_argument("seed", type=int, metavar="SEED")
    asked.add_argument("--rows", action="store_true", help="each row as a number, in place of the drawing")
    args = asked.parse_args()
    blocks, is_rows = carve(args.seed), args.rows
    for y in range(BLOCKS):
        row = [(x, y) not in blocks for x in range(BLOCKS)]
        print(sum(2**x for x in range(BLOCKS) if row[x]) if is_rows else "".join(".#"[wall] for wall in row))
    return 0


if __name__ == "__main__":
    sys.exit(ended(main))
