#!/usr/bin/env python3
"""Draws the pictures of docs/use/GALLERY.md from what programs of examples/ leave in the memory.

  tools/gallery.py [--program PATH] [--check] [maze|life|terrain ..]

Each program is played by `exec`, over a script in which `dump` shows the memory where a picture is taken. The pictures
are docs/use/gallery/NAME.png. With --check none is written: what comes is compared with the picture that is there,
point by point, and the status is 1 where one differs. The program is ./dpwasm of the repository, or that of --program.
"""
import os
import re
import struct
import sys
import tempfile
import zlib

sys.dont_write_bytecode = True

from commands import ROOT, Failed, Words, ended, output_of

BEGIN, ALL = "ticks 4 65536", "tick 2147483647"
MAGIC = b"\x89PNG\r\n\x1a\n"


# Pictures: rows of numbers of colours

class Picture:
    def __init__(self, width, height, colours):
        self.width, self.height, self.colours = width, height, colours
        self.rows = [bytearray(width) for _ in range(height)]

    def box(self, x, y, width, height, colour):
        for row in self.rows[y:y + height]:
            row[x:x + width] = bytes([colour]) * width

    def png(self):
        def chunk(kind, data):
            return struct.pack(">I", len(data)) + kind + data + struct.pack(">I", zlib.crc32(kind + data))

        head = struct.pack(">IIBBBBB", self.width, self.height, 8, 3, 0, 0, 0)
        points = zlib.compress(b"".join(b"\0" + row for row in self.rows), 9)
        return (MAGIC + chunk(b"IHDR", head) + chunk(b"PLTE", bytes(sum(self.colours, ()))) + chunk(b"IDAT", points)
                + chunk(b"IEND", b""))


def shown_by(png):
    """What a file of this form shows, however it was compressed."""
    at, parts = len(MAGIC), []
    while at < len(png):
        length = struct.unpack(">I", png[at:at + 4])[0]
        parts.append((png[at + 4:at + 8], png[at + 8:at + 8 + length]))
        at += 12 + length
    return [(kind, zlib.decompress(data) if kind == b"IDAT" else data) for kind, data in parts]


def between(stops, count):
    """So many colours that go evenly from each of these to the next."""
    found = []
    for number in range(count):
        place = number * (len(stops) - 1) / (count - 1)
        at = min(int(place), len(stops) - 2)
        found.append(tuple(round(a + (b - a) * (place - at)) for a, b in zip(stops[at], stops[at + 1])))
    return found


# Memories

def memories(program, name, lines):
    """The bytes that each `dump` of a script shows, by their addresses."""
    with tempfile.TemporaryDirectory() as folder:
        with open(f"{folder}/script", "w", encoding="utf-8") as file:
            file.write("".join(f"{line}\n" for line in lines))
        words = ["exec", f"{ROOT}/examples/{name}.wasm", f"{folder}/pack", "wk", f"{folder}/script"]
        told = output_of([*program, *words]).split("end\n")
    if len(told) != lines.count("dump") + 1:
        raise Failed(f"{program[0]} shows no memory")
    rows = [re.findall(r"^([0-9a-f]{8}) ([0-9a-f]{32})$", one, re.M) for one in told[:-1]]
    return [{int(at, 16) + k: byte for at, row in one for k, byte in enumerate(bytes.fromhex(row))} for one in rows]


def words_of(memory, address, count):
    return [sum(memory.get(address + 4 * at + k, 0) << 8 * k for k in range(4)) for at in range(count)]


# The maze, as blocks that are seen from the south-east

MAZE, BLOCKS = 4436, 31
HALF, QUARTER, TALL = 8, 4, 9
GROUND, TOP, LEFT, RIGHT, SHADES = 1, 5, 9, 13, 4


def shade(x, y):
    """One of the shades of a block, by where it is."""
    return (x * 7919 + y * 104729 + x * y * 31) // 7 % SHADES


def diamond(picture, x, y, colour):
    """The upper side of a block, round this point."""
    for dy in range(-QUARTER, QUARTER):
        reach = HALF - 2 * min(abs(dy), abs(dy + 1)) - 1
        picture.box(x - reach, y + dy, 2 * reach, 1, colour)


def block(picture, x, y, number):
    """A block of stone on the ground round this point."""
    for dx in range(-HALF, HALF):
        low = y + (HALF - min(abs(dx), abs(dx + 1))) // 2
        picture.box(x + dx, low - TALL, 1, TALL, (LEFT if dx < 0 else RIGHT) + number)
    diamond(picture, x, y - TALL, TOP + number)


def maze(program):
    memory = memories(program, "maze", [BEGIN, "call carve 2026", ALL, "dump"])[-1]
    rows = words_of(memory, MAZE, BLOCKS)
    colours = [(255, 255, 255), *between([(116, 158, 72), (92, 132, 56)], SHADES),
               *between([(178, 178, 178), (150, 150, 150)], SHADES),
               *between([(122, 122, 122), (106, 106, 106)], SHADES), *between([(88, 88, 88), (74, 74, 74)], SHADES)]
    picture = Picture((2 * BLOCKS + 2) * HALF, (2 * BLOCKS + 2) * QUARTER + 2 * TALL, colours)
    for y, row in enumerate(rows):
        for x in range(BLOCKS):
            place = (BLOCKS + 1 + x - y) * HALF, 2 * TALL + (x + y + 1) * QUARTER
            if row >> x & 1:
                block(picture, *place, shade(x, y))
            else:
                diamond(picture, *place, GROUND + shade(x, y))
    return picture


# The game of life, at six times

LIFE, WIDTH, HEIGHT, ROW = 4620, 44, 28, 46
TIMES, STEP, COLUMNS, CELL, GAP = 6, 12, 3, 5, 8


def life(program):
    lines = [BEGIN, "call gun", ALL, "dump"] + [f"call step {STEP}", ALL, "dump"] * (TIMES - 1)
    fields = [words_of(memory, LIFE, HEIGHT * ROW) for memory in memories(program, "life", lines)]
    wide, high = WIDTH * CELL + GAP, HEIGHT * CELL + GAP
    picture = Picture(COLUMNS * wide + GAP, TIMES // COLUMNS * high + GAP,
                      [(255, 255, 255), (24, 28, 36), (58, 66, 80), (250, 196, 60)])
    lived = set()
    for time, field in enumerate(fields):
        left, top = GAP + time % COLUMNS * wide, GAP + time // COLUMNS * high
        picture.box(left, top, wide - GAP, high - GAP, 1)
        lives = {at for at in range(HEIGHT * ROW) if field[at]}
        for at in lived | lives:
            x, y = left + at % ROW * CELL, top + at // ROW * CELL
            picture.box(x, y, CELL - 1, CELL - 1, 3 if at in lives else 2)
        lived |= lives
    return picture


# The memory of the hills, a square for each byte, and the scale beside it

TERRAIN, SIDE, SQUARE, SCALE = 4096, 64, 6, 16
HEAT = [(8, 8, 40), (70, 16, 110), (170, 40, 100), (230, 90, 50), (250, 180, 50), (255, 250, 210)]


def terrain(program):
    memory = memories(program, "terrain", [BEGIN, "call grow 2026", ALL, "dump"])[-1]
    # the scale's last colour is that of the paper
    picture = Picture(SIDE * SQUARE + 2 * SCALE, SIDE * SQUARE, [*between(HEAT, 255), (255, 255, 255)])
    picture.box(0, 0, picture.width, picture.height, 255)
    for at in range(SIDE * SIDE):
        picture.box(at % SIDE * SQUARE, at // SIDE * SQUARE, SQUARE, SQUARE, min(254, memory.get(TERRAIN + at, 0)))
    for y in range(picture.height):
        picture.box(picture.width - SCALE, y, SCALE, 1, 254 - y * 254 // (picture.height - 1))
    return picture


PICTURES = {"maze": maze, "life": life, "terrain": terrain}


def main():
    asked = Words(__doc__)
    asked.add_program()
    asked.add_argument("--check", action="store_true", help="compares, and writes none")
    asked.add_argument("names", nargs="*", metavar="|".join(PICTURES))
    args = asked.parse_args()
    if not {*args.names} <= {*PICTURES}:
        asked.error(f"the pictures are {', '.join(PICTURES)}")
    bad = 0
    for name in args.names or PICTURES:
        path = f"{ROOT}/docs/use/gallery/{name}.png"
        png = PICTURES[name](args.program).png()
        if args.check:
            with open(path, "rb") as file:
                is_same = shown_by(file.read()) == shown_by(png)
            bad += not is_same
            print(f"{name}: {'as it is drawn' if is_same else 'drawn otherwise'}")
        else:
            os.makedirs(os.path.dirname(path), exist_ok=True)
            with open(path, "wb") as file:
                file.write(png)
            print(f"{name}: {len(png)} bytes")
    return 1 if bad else 0


if __name__ == "__main__":
    sys.exit(ended(main))
