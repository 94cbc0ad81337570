#!/usr/bin/env python3
"""Checks what tools/profile.py tells of some examples.

  tools/profile_check.py [--program PATH] [NAME ..]

NAME is an example with a script, as `words`; without one, some are taken. Of each, all ticks that were run are in the
table once: a function's own, or those in which none was at work. No function has more of its own than whole. In the
picture each box stands on another one and within it, and all boxes of a function have the ticks that the table tells.
The status is 1 where something isn't so. The program is ./dpwasm of the repository, or that of --program.
"""
import os
import re
import sys
import tempfile

sys.dont_write_bytecode = True

from commands import ROOT, Words, ended, output_of

NAMES = ["ackermann", "fib", "nested", "words"]
ROW = re.compile(r" *(\d+) +(\d+) +(\d+\.\d)  (.+)")
OTHER = re.compile(r" *(\d+) +\((.+)\)")
TOTAL = re.compile(r" *(\d+) +ticks")
BOX = re.compile(r'<g><title>(.+): (\d+) of (\d+) ticks \(.+ %\), (\d+) its own</title>\n'
                 r'<rect x="([\d.]+)" y="(\d+)" width="([\d.]+)"')
# Boxes are told to a tenth of a point.
CLOSE = 0.2


def wrong_of(table, picture):
    """What isn't so of a table and its picture."""
    lines = table.splitlines()[1:]
    rows = [found.groups() for found in map(ROW.fullmatch, lines) if found]
    others = [int(found[1]) for found in map(OTHER.fullmatch, lines) if found]
    own, whole = [int(row[0]) for row in rows], [int(row[1]) for row in rows]
    total = TOTAL.fullmatch(lines[-1])
    if total is None or sum(own) + sum(others) != int(total[1]):
        yield f"{sum(own) + sum(others)} ticks are told, in {lines[-1].split()}"
    yield from (f"{row[3]} has more of its own than whole" for row in rows if int(row[0]) > int(row[1]))
    boxes = [(name, int(count), int(ticks), int(mine), float(x), int(y), float(width))
             for name, count, ticks, mine, x, y, width in BOX.findall(picture)]
    lowest = max((box[5] for box in boxes), default=0)
    if sum(box[3] for box in boxes if box[5] != lowest) != sum(own):
        yield "the boxes' own ticks aren't those of the table"
    for name, a, b in zip((row[3] for row in rows), own, whole):
        told = [box for box in boxes if box[0] == name and box[5] != lowest]
        if sum(box[3] for box in told) != a or sum(box[1] for box in told) < b:
            yield f"the boxes of {name} tell other ticks"
    for box in boxes:
        below = [it for it in boxes if it[5] > box[5] and it[4] <= box[4] + CLOSE
                 and box[4] + box[6] <= it[4] + it[6] + CLOSE]
        if box[5] != lowest and not below:
            yield f"a box of {box[0]} stands on none"


def main():
    asked = Words(__doc__)
    asked.add_program()
    asked.add_argument("names", nargs="*", metavar="NAME")
    args = asked.parse_args()
    bad = 0
    for name in args.names or NAMES:
        module, script = f"{ROOT}/examples/{name}.wasm", f"{ROOT}/examples/{name}.txt"
        if not os.path.exists(module) or not os.path.exists(script):
            asked.error(f"{name} is no example with a script")
        with tempfile.TemporaryDirectory() as folder:
            words = ["--svg", f"{folder}/picture.svg", "--program", " ".join(args.program), module, script]
            table = output_of([f"{ROOT}/tools/profile.py", *words])
            with open(f"{folder}/picture.svg", encoding="utf-8") as file:
                wrong = list(wrong_of(table, file.read()))
        bad += bool(wrong)
        print("\n".join([f"{name}: {len(wrong)} wrong", *wrong]))
    return 1 if bad else 0


if __name__ == "__main__":
    sys.exit(ended(main))
