#!/usr/bin/env python3
"""Compares where `inspect` says that programs are with where the reduction comes.

  tools/places.py [--seed N] [--places N] [--program PATH] [NAME ..]

NAME is a program of tools/corpus; without one, 20 of them are taken. Of each, at a level of optimisation that the seed
chooses, calls are made on one pack, in ticks of budgets at random, and behind each tick `where` tells the place, until
there are N places of the program (50). The lines are compared with those of tools/reference/reduction.py, which makes
the same call step by step: each place has to be one of its configurations, none before that of the tick before. What
isn't so is told, and the status is then 1. The program is ./dpwasm of the repository, or that of --program.
"""
import os
import random
import sys
import tempfile

sys.dont_write_bytecode = True

from commands import Failed, Words, ended, output_of
from measure import BEGINNING, BUILT, WHOLE, calls_of
from reference.engine import BITS, TRAPS, Instance, Trap, masked, signed
from reference.module import read_module
from reference.reduction import Reduction

PROGRAMS, PLACES, MOST_STEPS = 20, 50, 20000
# Ticks of a call: some, and more where a program has few calls, some of which are over soon.
OF_CALL, OF_ALL = 12, 6


class Told:
    """A call, and what `where` told behind each tick of it: the lines of a place, or how the call ended."""

    def __init__(self, call):
        self.call, self.answers = call, []


def is_last(line):
    """Whether a line is the last one of what `where` prints."""
    return not line.startswith(("frame ", "local ", "operand ", "next "))


def answers_of(lines):
    answer = []
    for line in lines:
        answer.append(line)
        if is_last(line):
            yield answer
            answer = []


def played(program, path, calls, budgets):
    """What is told of calls in ticks of these budgets, each call done at the end."""
    script, told = [BEGINNING.rstrip("\n")], []
    for call, some in zip(calls, budgets):
        script += [f"call {call}", *(it for one in some for it in (f"tick {one}", "where")), f"tick {WHOLE}"]
        told.append(Told(call))
    with tempfile.TemporaryDirectory() as folder:
        with open(f"{folder}/script", "w", encoding="utf-8") as file:
            file.write("".join(f"{line}\n" for line in script))
        lines = output_of([*program, "inspect", path, f"{folder}/pack", "wk", f"{folder}/script"]).splitlines()
    answers = list(answers_of(lines[:-1]))
    if len(answers) != sum(map(len, budgets)):
        raise Failed(f"{program[0]} tells {len(answers)} places for {sum(map(len, budgets))}")
    for one, some in zip(told, budgets):
        one.answers, answers = answers[:len(some)], answers[len(some):]
    return told


def reduction_of(instance, call):
    name, *numbers = call.split(" ")
    index = next(export.index for export in instance.module.exported() if export.name == name)
    kinds = instance.module.functions[index].type.params
    return Reduction(instance, index, [masked(int(number), kind) for number, kind in zip(numbers, kinds)])


def ending(reduction):
    """How a call ends, as `show` prints it."""
    try:
        while reduction.step():
            pass
    except Trap as trap:
        return f"trap {TRAPS[trap.number]}"
    return " ".join(["done", *(str(signed(number, BITS[kind])) for kind, number in reduction.results)])


def comes_to(reduction, lines):
    """Whether the reduction comes to a configuration that shows these lines, this one or a later one."""
    frames = sum(line.startswith("frame ") for line in lines)
    try:
        while True:
            if len(reduction.frames) == frames and list(reduction.view().lines()) == lines:
                return True
            if not reduction.step():
                return False
    except Trap:
        return False


def missed(instance, told):
    """The number of the first place of a call to which the reduction doesn't come, if there is one."""
    reduction, count = reduction_of(instance, told.call), 0
    for number, answer in enumerate(told.answers):
        if answer[0].startswith(("done", "trap")):
            if [ending(reduction)] != answer:
                return number, count
            break
        if not comes_to(reduction, answer):
            return number, count
        count += 1
    else:
        ending(reduction)
    return None, count


def compared(program, path, places, chance):
    """How many places of a program were compared, and how many calls went wrong."""
    calls = [call for _, call, _ in calls_of(path, MOST_STEPS)]
    count = max(OF_CALL, OF_ALL * places // len(calls))
    budgets = [[512 + int(chance.expovariate(1 / 900)) for _ in range(count)] for _ in calls]
    with open(path, "rb") as file:
        instance = Instance(read_module(file.read()))
    found = bad = 0
    for told in played(program, path, calls, budgets):
        number, count = missed(instance, told)
        found += count
        if number is not None:
            bad += 1
            print(f"{os.path.basename(path)}, call {told.call}: place {number} is none of the reduction:")
            print("\n".join(f"    {line}" for line in told.answers[number]))
            break
        if found >= places:
            break
    return found, bad


def main():
    asked = Words(__doc__)
    asked.add_program()
    asked.add_argument("--seed", type=int, default=1, metavar="N")
    asked.add_argument("--places", type=int, default=PLACES, metavar="N")
    asked.add_argument("names", nargs="*", metavar="NAME")
    args = asked.parse_args()
    built = {}
    for name in sorted(os.listdir(BUILT)):
        if name.endswith(".wasm"):
            built.setdefault(name.partition(".")[0], []).append(f"{BUILT}/{name}")
    if not {*args.names} <= {*built}:
        asked.error(f"the programs are {', '.join(built)}")
    chance = random.Random(args.seed)
    names = args.names or sorted(chance.sample(sorted(built), PROGRAMS))
    found = bad = 0
    for name in names:
        some, wrong = compared(args.program, chance.choice(built[name]), args.places, chance)
        found, bad = found + some, bad + wrong
    print(f"{found} places of {len(names)} programs, {bad} calls with one that isn't the reduction's")
    return 1 if bad else 0


if __name__ == "__main__":
    sys.exit(ended(main))
