#!/usr/bin/env python3
"""Measures what compiled programs cost, and whether their answers are right.

  tools/measure.py [--program PATH] [--steps N] [--seconds N] [--match TEXT] [PLACE ..]

PLACE is a module NAME.wasm with NAME.calls beside it, or a folder with such modules; without one it is
tools/corpus/built, which tools/corpus.py writes. A line of NAME.calls is a number of steps of the reduction, a call and
how it ends, with tabs between; the calls are made in this order on one pack, up to the first of more than N steps
(20,000). Of each module a line has

    right       how many of the calls ended as they have to, at all three kinds of ticks
    steps       of these calls
    a step      the weight of the commands that were run for each step, where each call is done in one tick
    at 512      the steps for each tick of 512
    at 2048     the steps for each tick of 2,048
    files, KB   of the pack
    seconds     that the compiler took

and a table behind them the least, the median and the most. --match takes only modules whose names have this text. A run
of the program may take as many seconds as --seconds says (300). The program is ./dpwasm of the repository, or that of
--program. The status is 1 where an answer isn't right.
"""
import glob
import os
import re
import statistics
import sys
import tempfile
import time

sys.dont_write_bytecode = True

from commands import ROOT, Failed, Words, ended, output_of

BUILT = f"{ROOT}/tools/corpus/built"
WHOLE, BUDGETS = 2147483647, [512, 2048]
MOST_STEPS, SECONDS = 20000, 300
# A pack makes itself ready in these.
BEGINNING = "ticks 200 65536\n"
CALL = re.compile(r"(\d+)\t([^\t]+)\t((?:done|trap)(?: [^\t]+)?)")
LEVEL = re.compile(r"\.O[0-9sz]$")
TOTAL = re.compile(r"ticks (\d+) commands (\d+)")
COLUMNS = ["a step", "at 512", "at 2048", "files", "KB", "seconds"]


class Measured:
    """What one module gave: how many calls were right, their number and steps, and a number for each column."""

    def __init__(self, name, calls):
        self.name, self.calls = name, calls
        self.steps = sum(steps for steps, _, _ in calls)
        self.right, self.numbers, self.spent = len(calls), [], 0

    def line(self):
        told = [f"{it:.2f}" if isinstance(it, float) else str(it) for it in self.numbers]
        return row([self.name, f"{self.right}/{len(self.calls)}", str(self.steps), *told])


def row(cells):
    return f"{cells[0]:<20}" + "".join(f"{it:>9}" for it in cells[1:])


def calls_of(path, most):
    """The calls beside a module, up to the first one that is too long."""
    beside = f"{os.path.splitext(path)[0]}.calls"
    found = []
    with open(beside, encoding="utf-8") as file:
        for number, line in enumerate(file, 1):
            parts = CALL.fullmatch(line.rstrip("\n"))
            if parts is None:
                raise Failed(f"{beside}:{number}: no steps, call and end with tabs between")
            if int(parts[1]) > most:
                break
            found.append((int(parts[1]), parts[2], parts[3]))
    return found


class Pack:
    """A pack in a folder, over which scripts are played."""

    def __init__(self, program, path, folder, seconds):
        self.program, self.folder, self.seconds = program, folder, seconds
        begun = time.monotonic()
        output_of([*program, "compile", path, f"{folder}/pack", "wk"], seconds)
        self.took = time.monotonic() - begun

    def sizes(self):
        found = os.walk(f"{self.folder}/pack")
        return [os.path.getsize(os.path.join(at, name)) for at, _, names in found for name in names]

    def play(self, script):
        """What a script prints, and the weight of the commands behind it."""
        with open(f"{self.folder}/script", "w", encoding="utf-8") as file:
            file.write(BEGINNING + script)
        *lines, last = output_of([*self.program, "run", f"{self.folder}/pack", f"{self.folder}/script"],
                                 self.seconds).splitlines()
        return lines, int(TOTAL.fullmatch(last)[2])

    def whole(self, calls):
        """How the calls end, each in one tick, and the weight of all of them."""
        lines, weight = self.play("".join(f"call {call}\ntick {WHOLE}\nshow\n" for _, call, _ in calls))
        return lines, weight - self.play("")[1]

    def ticks(self, calls, budget):
        """How the calls end at ticks of this budget, and how many of these they take: at most one for each step, and
        a few more."""
        most = [steps + 20 for steps, _, _ in calls]
        lines, _ = self.play("".join(f"call {call}\n" + f"tick {budget}\nshow\n" * count
                                     for (_, call, _), count in zip(calls, most)))
        ends, needed = [], 0
        for count in most:
            shown, lines = lines[:count], lines[count:]
            at = next((at for at, line in enumerate(shown) if line != "running"), count - 1)
            ends.append(shown[at])
            needed += at + 1
        return ends, needed


def measured(program, path, args):
    found = Measured(os.path.splitext(os.path.basename(path))[0], calls_of(path, args.steps))
    if not found.calls:
        return found
    with tempfile.TemporaryDirectory() as folder:
        pack = Pack(program, path, folder, args.seconds)
        all_ends, (ends, found.spent) = [], pack.whole(found.calls)
        all_ends.append(ends)
        found.numbers.append(found.spent / found.steps)
        for budget in BUDGETS:
            ends, needed = pack.ticks(found.calls, budget)
            all_ends.append(ends)
            found.numbers.append(found.steps / needed)
        sizes = pack.sizes()
        found.numbers += [len(sizes), sum(sizes) // 1024, pack.took]
    wanted = [end for _, _, end in found.calls]
    found.right = sum(all(end == it for it in got) for end, *got in zip(wanted, *all_ends))
    return found


def summary(all_of):
    """The lines of the table behind: of each column the least, the median and the most."""
    columns = list(zip(*(it.numbers for it in all_of)))
    lines = [row(["", "", "", *COLUMNS])]
    for name, act in (("least", min), ("median", statistics.median), ("most", max)):
        lines.append(row([name, "", "", *(f"{act(column):.2f}" for column in columns)]))
    for level in sorted({it.name.rpartition(".")[2] for it in all_of if LEVEL.search(it.name)}):
        of_level = [it.numbers for it in all_of if it.name.rpartition(".")[2] == level]
        told = [f"{statistics.median(column):.2f}" for column in zip(*of_level)]
        lines.append(row([f"median of {level}", str(len(of_level)), "", *told]))
    steps = sum(it.steps for it in all_of)
    whole = sum(it.spent for it in all_of) / steps
    return [*lines, f"{len(all_of)} modules, {steps} steps, {whole:.2f} a step over all"]


def modules_of(places, text, asked):
    found = []
    for place in places:
        paths = sorted(glob.glob(f"{glob.escape(place)}/*.wasm")) if os.path.isdir(place) else [place]
        if os.path.isdir(place):
            paths = [path for path in paths if os.path.exists(f"{os.path.splitext(path)[0]}.calls")]
        for path in paths:
            for it in (path, f"{os.path.splitext(path)[0]}.calls"):
                if not os.path.isfile(it):
                    asked.error(f"no such file: {it}")
        found += [os.path.abspath(path) for path in paths if text in os.path.basename(path)]
    if not found:
        asked.error(f"no module with calls in {' '.join(places)}")
    return found


def main():
    asked = Words(__doc__)
    asked.add_program()
    asked.add_argument("--steps", type=int, default=MOST_STEPS)
    asked.add_argument("--seconds", type=int, default=SECONDS)
    asked.add_argument("--match", default="", metavar="TEXT")
    asked.add_argument("places", nargs="*", metavar="PLACE")
    args = asked.parse_args()
    all_of, bad = [], 0
    paths = modules_of(args.places or [BUILT], args.match, asked)
    print(row(["", "right", "steps", *COLUMNS]), flush=True)
    for path in paths:
        try:
            found = measured(args.program, path, args)
        except Failed as error:
            bad += 1
            print(f"{os.path.splitext(os.path.basename(path))[0]:<20} {error}", flush=True)
            continue
        bad += found.right != len(found.calls)
        print(found.line() if found.numbers else f"{found.name:<20} no call of at most {args.steps} steps", flush=True)
        if found.numbers:
            all_of.append(found)
    if all_of:
        print("\n" + "\n".join(summary(all_of)))
    if bad:
        print(f"{bad} modules with answers that aren't right, or with none")
    return 1 if bad else 0


if __name__ == "__main__":
    sys.exit(ended(main))
