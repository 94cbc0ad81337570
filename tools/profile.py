#!/usr/bin/env python3
"""Shows where a program spends its ticks.

  tools/profile.py [--samples N] [--svg PATH] [--program PATH] FILE SCRIPT

FILE is a module, SCRIPT a script of calls and ticks. It is played by `inspect` with shorter ticks, as many as make
about N samples (1,000), and behind each of them `where` tells which functions are at work. What the script shows isn't
printed. A line for each function tells

    own      behind how many ticks the function itself was at work
    whole    behind how many it was, or one that it had called
    share    the former, in percent of all ticks behind which a function was at work

and the lines below them behind how many ticks the pack was made ready, a call began, and nothing was to do. These and
all of `own` add up to the ticks that were run. PATH, profile.svg where none is named, becomes a picture of the same: a
box for each function on top of the one that called it, as wide as it was at work. Functions have the names of the
module's section `name`, or of its exports, or their indices. The budgets of the ticks differ by up to a half, so that
no loop is met at one place alone. The program is ./dpwasm of the repository, or that of --program.
"""
import collections
import os
import re
import sys
import tempfile
import zlib
from xml.sax.saxutils import escape

sys.dont_write_bytecode = True

from commands import Failed, Words, ended, output_of
from reference.module import Reader, Unknown, read_module

LEAST_BUDGET, MOST_BUDGET = 512, 2147483647
SAMPLES, MOST_SAMPLES, MOST_TICKS = 1000, 20000, 50000
STARTING, BEGINNING, RESTING = "made ready", "a call begins", "nothing to do"
TICKS = re.compile(r"tick (\d+)|ticks (\d+) (\d+)")
TOTAL = re.compile(r"ticks (\d+) commands (\d+)")


# Scripts

def parts_of(script):
    """The lines of a script that do something, each text or a number of ticks and their budget."""
    parts = []
    for line in script.splitlines():
        ticks = TICKS.fullmatch(line)
        if ticks:
            once, count, budget = ticks.groups()
            parts.append((int(count or 1), int(once or budget)))
        elif line.startswith(("call ", "other ", "reload ")):
            parts.append(line)
    return parts


def budgets(budget, count):
    """So many budgets round this one, which differ by up to a half of it."""
    return [max(LEAST_BUDGET, budget // 2 + budget * (7919 * at % 1000) // 1000) for at in range(count)]


def lines_of(parts):
    """A script in which `where` is behind each tick; a part is a line or a list of budgets."""
    lines = []
    for part in parts:
        lines += [part] if isinstance(part, str) else [it for one in part for it in (f"tick {one}", "where")]
    return "".join(f"{line}\n" for line in lines)


class Played:
    """What a program tells of a module and a script: the places behind its ticks, their number, and the weight."""

    def __init__(self, program, module, parts):
        with tempfile.TemporaryDirectory() as folder:
            with open(f"{folder}/script", "w", encoding="utf-8") as file:
                file.write(lines_of(parts))
            told = output_of([*program, "inspect", module, f"{folder}/pack", "wk", f"{folder}/script"]).splitlines()
        total = TOTAL.fullmatch(told[-1]) if told else None
        if total is None:
            raise Failed(f"{program[0]} tells no ticks")
        self.ticks, self.weight = int(total[1]), int(total[2])
        self.places = list(places_of(told[:-1]))
        if len(self.places) != self.ticks:
            raise Failed(f"{program[0]} tells {len(self.places)} places behind {self.ticks} ticks")


def places_of(lines):
    """What each `where` told: the functions that are at work, the outermost first, or why there are none."""
    functions = []
    for line in lines:
        words = line.split(" ")
        if words[0] == "frame":
            functions.append(int(words[3]))
        elif words[0] == "left":
            yield tuple(functions) or BEGINNING
            functions = []
        elif words[0] == "start":
            yield STARTING
        elif words[0] in ("new", "done", "trap", "dead"):
            yield RESTING
        elif words[0] not in ("local", "operand", "next", "busy"):
            raise Failed(f"no place is told by: {line}")


def is_at_work(place):
    return place != RESTING


def count_of(parts):
    """How many ticks parts have."""
    return sum(len(part) for part in parts if not isinstance(part, str))


def cut_by(parts, places):
    """The places behind the ticks of each part."""
    at = 0
    for part in parts:
        count = 0 if isinstance(part, str) else len(part)
        yield part, places[at:at + count]
        at += count


def sampled(program, module, script, samples):
    """The script with ticks that make about so many samples, played."""
    parts = [part if isinstance(part, str) else [part[1]] * part[0] for part in parts_of(script)]
    if count_of(parts) > MOST_TICKS:
        raise Failed(f"the script has more than {MOST_TICKS} ticks")
    whole = Played(program, module, parts)
    budget = min(max(LEAST_BUDGET, whole.weight // samples), MOST_BUDGET // 2)
    wanted = []
    for part, places in cut_by(parts, whole.places):
        busy = sum(map(is_at_work, places))
        rests = places and not is_at_work(places[-1])
        wanted.append(part if isinstance(part, str) else (min(part[0] * (busy + 1), whole.weight), rests))
    return finer(program, module, wanted, budget)


def finer(program, module, wanted, budget):
    """Plays parts with ticks of about this budget; each is a line, or a weight and whether the pack rests behind it."""
    share = 1
    while True:
        parts = [it if isinstance(it, str) else budgets(budget, it[0] * share // budget + 2) for it in wanted]
        if count_of(parts) > MOST_TICKS:
            raise Failed("the script takes too many ticks; ask for fewer --samples")
        played = Played(program, module, parts)
        ends = [places[-1:] for _, places in cut_by(parts, played.places)]
        if all(isinstance(it, str) or not it[1] or not is_at_work(end[0]) for it, end in zip(wanted, ends)):
            return played
        share *= 2


# Names

def names_of(data):
    """The names of functions in a module's section `name`, by their indices."""
    reader, names = Reader(data), {}
    reader.at = 8
    while reader.at < len(data):
        kind, size = reader.byte(), reader.number()
        end = reader.at + size
        if kind == 0 and reader.name() == "name":
            names.update(names_in(reader, end))
        reader.at = end
    return names


def names_in(reader, end):
    """The part of the section that is of functions."""
    while reader.at < end:
        which, size = reader.byte(), reader.number()
        behind = reader.at + size
        if which == 1:
            return [(reader.number(), reader.name()) for _ in range(reader.number())]
        reader.at = behind
    return []


def named(data):
    """What the functions of a module are called."""
    exports = {export.index: export.name for export in reversed(read_module(data).exported())}
    names = {**exports, **names_of(data)}
    return lambda function: names.get(function, f"function {function}")


# The table

def table(places, name):
    """The lines of the table, the function with the most ticks of its own first."""
    own, whole, others = collections.Counter(), collections.Counter(), collections.Counter()
    for place in places:
        if isinstance(place, str):
            others[place] += 1
            continue
        own[place[-1]] += 1
        whole.update(set(place))
    at_work = sum(own.values())
    rows = [(own[it], whole[it], f"{100 * own[it] / at_work:.1f}", name(it)) for it in whole]
    rows.sort(key=lambda row: (-row[0], -row[1], row[3]))
    yield f"{'own':>8}{'whole':>8}{'share':>8}  function"
    yield from (f"{a:>8}{b:>8}{c:>8}  {d}" for a, b, c, d in rows)
    yield from (f"{others[it]:>8}{'':>16}  ({it})" for it in (STARTING, BEGINNING, RESTING))
    yield f"{sum(own.values()) + sum(others.values()):>8}{'':>16}  ticks"


# The picture

WIDTH, HEIGHT, EDGE, LETTER, LEAST = 1200, 18, 10, 7, 0.2


class Box:
    """A function with those that called it below, and the ones that it called above."""

    def __init__(self):
        self.own, self.above = 0, {}

    def whole(self):
        return self.own + sum(it.whole() for it in self.above.values())

    def depth(self):
        return 1 + max((it.depth() for it in self.above.values()), default=0)


def boxes_of(places):
    root = Box()
    for place in places:
        if not isinstance(place, str):
            box = root
            for function in place:
                box = box.above.setdefault(function, Box())
            box.own += 1
    return root


def colour(name):
    """A warm one, the same for the same name."""
    number = zlib.crc32(name.encode())
    return f"rgb({205 + number % 50},{80 + number // 50 % 130},{number // 6500 % 55})"


def drawn(label, box, left, low, scale, ticks):
    """A box with its name, which a pointer shows whole."""
    width, count = box.whole() * scale, box.whole()
    title = f"{label}: {count} of {ticks} ticks ({100 * count / ticks:.1f} %), {box.own} its own"
    letters = int((width - 6) / LETTER)
    shown = label if len(label) <= letters else label[:letters - 2] + ".." if letters > 3 else ""
    yield f'<g><title>{escape(title)}</title>'
    size = f'width="{max(width, LEAST):.1f}" height="{HEIGHT - 1}"'
    yield f'<rect x="{left:.1f}" y="{low}" {size} fill="{colour(label)}"/>'
    if shown:
        yield f'<text x="{left + 3:.1f}" y="{low + HEIGHT - 5}">{escape(shown)}</text>'
    yield "</g>"


def picture(places, name, title):
    """The lines of a picture: the outermost functions below, and those that they called above them."""
    root = boxes_of(places)
    ticks, depth = root.whole(), root.depth()
    height = (depth + 2) * HEIGHT + 2 * EDGE
    scale = (WIDTH - 2 * EDGE) / max(ticks, 1)
    yield (f'<svg xmlns="http://www.w3.org/2000/svg" width="{WIDTH}" height="{height}" '
           f'viewBox="0 0 {WIDTH} {height}" font-family="monospace" font-size="12">')
    yield f'<rect width="{WIDTH}" height="{height}" fill="#fdf6ec"/>'
    yield f'<text x="{WIDTH / 2}" y="{EDGE + 12}" text-anchor="middle" font-size="14">{escape(title)}</text>'
    waiting = [("all", root, float(EDGE), height - EDGE - HEIGHT)] if ticks else []
    while waiting:
        label, box, left, low = waiting.pop()
        yield from drawn(label, box, left, low, scale, ticks)
        for function, above in sorted(box.above.items(), key=lambda it: name(it[0])):
            waiting.append((name(function), above, left, low - HEIGHT))
            left += above.whole() * scale
    yield "</svg>"


def main():
    asked = Words(__doc__)
    asked.add_program()
    asked.add_argument("--samples", type=int, default=SAMPLES, metavar="N")
    asked.add_argument("--svg", default="profile.svg", metavar="PATH")
    asked.add_argument("module", metavar="FILE")
    asked.add_argument("script", metavar="SCRIPT")
    args = asked.parse_args()
    if not 1 <= args.samples <= MOST_SAMPLES:
        asked.error(f"--samples is from 1 to {MOST_SAMPLES}")
    with open(args.module, "rb") as file:
        data = file.read()
    with open(args.script, encoding="utf-8") as file:
        script = file.read()
    try:
        name = named(data)
    except (Unknown, IndexError, KeyError, UnicodeDecodeError):
        raise Failed(f"{args.module}: no module that this tool reads") from None
    played = sampled(args.program, args.module, script, args.samples)
    print("\n".join(table(played.places, name)))
    with open(args.svg, "w", encoding="utf-8") as file:
        file.write("".join(f"{line}\n" for line in picture(played.places, name, os.path.basename(args.module))))
    return 0


if __name__ == "__main__":
    sys.exit(ended(main))
