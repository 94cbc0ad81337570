#!/usr/bin/env python3
"""Plays the examples under random lawful schedules, and compares what they answer.

  tools/storm.py [--seeds N] [--first SEED] [--program PATH] [NAME ..]
  tools/storm.py --together [--seeds N] [--first SEED] [--program PATH] [NAME ..]

For each program that examples/answers.txt names (or those that are named here) and for each seed it makes a script:
calls with known answers, and round them ticks with budgets from 512 up, reloads, and commands of somebody else, in an
order that the seed alone determines. Each script is run once by `exec`; after each call its answer is shown when enough
ticks have come, and where the program has globals or a memory, these are shown too: what they hold then, and what is
answered by calls that depend on it, is worked out by tools/reference. A wrong line, another status than 0, or a line on
standard error is told with its script, and the status is then 1. The program is ./dpwasm of the repository, or that of
--program.

With --together two to five of the programs, or of the pack by hand in examples/counter, live in one world for each
seed, and `multi` plays calls of each, ticks, reloads and commands of somebody else. Each pack is then run alone, by `run`, under what falls to it: its own calls, its
share of each budget, and the commands of somebody else. What all print alone has to be what `multi` prints, line by
line, and the weights have to sum to its weight.
"""
import os
import random
import re
import sys
import tempfile

sys.dont_write_bytecode = True

from commands import ROOT, Words, completed, ended, output_of
from reference.engine import Instance
from reference.module import read_module

LEAST, MOST = 512, 2147483647
# Packs by hand, with calls of them.
BY_HAND = {"counter": [("add 5", None), ("add -70000", None), ("add 2147483647", None)]}
FOREIGN = [
    "scoreboard objectives add other dummy",
    "scoreboard players set #0 other 7",
    "scoreboard players add #t other 1",
    "scoreboard players operation #w other = #0 other",
    "scoreboard players reset #0 other",
    "data modify storage other:c n set value {i:0,j:0,k:0}",
    "data modify storage other:io state set value 4",
    "data modify storage other:io list append value 1",
    "data remove storage other:io state",
    "data get storage other:c n",
]


def answers():
    """The calls with their answers, by program: lines `PROGRAM EXPORT ARG .. -> ANSWER`, `*` where earlier calls
    matter."""
    found = {}
    with open(f"{ROOT}/examples/answers.txt", encoding="utf-8") as lines:
        for line in lines:
            if line.strip() and not line.startswith("#"):
                call, answer = line.rstrip("\n").split(" -> ")
                program, *words = call.split()
                found.setdefault(program, []).append((" ".join(words), answer))
    return found


def budget(chance):
    """A lawful budget; small ones are likely."""
    kind = chance.randrange(10)
    if kind < 4:
        return chance.randint(LEAST, 2 * LEAST)
    if kind < 8:
        return chance.randint(LEAST, 70000)
    return LEAST if kind == 8 else chance.choice([65536, 1000000, MOST])


def event(chance):
    kind = chance.randrange(8)
    if kind < 3:
        return f"tick {budget(chance)}"
    if kind < 4:
        return f"ticks {chance.randint(1, 9)} {budget(chance)}"
    if kind < 6:
        return f"reload {budget(chance)}"
    return f"other {chance.choice(FOREIGN)}"


def shown(instance, words, answer):
    """What is shown behind a call: the answer, and what globals and memory hold, where there are any."""
    if not instance.globals and not instance.memory:
        return [answer]
    name, *arguments = words.split(" ")
    found = instance.call(name, list(map(int, arguments)))
    if answer not in ("*", found):
        raise ValueError(f"{words}: {answer} in answers.txt, {found} by tools/reference")
    return [found, *instance.dump_lines(found)]


def schedule(name, module, calls, seed):
    """A script, and the lines that it has to show."""
    chance = random.Random(f"{name} {seed}")
    lines, wanted, instance = [], [], Instance(module)
    lines += [event(chance) for _ in range(chance.randrange(6))] + ["ticks 40 65536"]
    for words, answer in chance.sample(calls, min(len(calls), chance.randint(1, 3))):
        lines.append(f"call {words}")
        lines += [event(chance) for _ in range(chance.randrange(12))]
        # Enough for each call of answers.txt: a tick of 65,536 runs 128 pieces or more.
        lines += ["ticks 2000 65536"]
        lines += [event(chance) for _ in range(chance.randrange(4))]
        expected = shown(instance, words, answer)
        lines += ["show"] if len(expected) == 1 else ["show", "dump"]
        wanted += expected
    return lines, wanted


def play(program, name, lines):
    with tempfile.TemporaryDirectory() as folder:
        script = f"{folder}/script.txt"
        with open(script, "w", encoding="utf-8") as out:
            out.write("\n".join(lines) + "\n")
        words = [*program, "exec", f"{ROOT}/examples/{name}.wasm", f"{folder}/pack", "wk", script]
        return completed(words)


# Several programs in one world

def shared_event(chance, spaces, known):
    """Lines of a script for several packs, by their namespaces; a call is one of answers.txt, behind a `show`, which
    tells whether it prints `busy`."""
    kind, least = chance.randrange(12), LEAST * len(spaces)
    budget_of_all = chance.choice([least, chance.randint(least, 2 * least), chance.randint(least, 70000)])
    if kind < 4:
        return [f"tick {budget_of_all}"]
    if kind < 6:
        return [f"ticks {chance.randint(1, 9)} {budget_of_all}"]
    if kind < 7:
        return [f"reload {budget_of_all}"]
    if kind < 8:
        return [f"other {chance.choice(FOREIGN)}"]
    space, name = chance.choice(list(spaces.items()))
    if kind < 10:
        return [f"in {space} show", f"in {space} call {chance.choice(known[name])[0]}"]
    return [f"in {space} dump"]


def shares(budget_of_all, count, ticks, place):
    return budget_of_all // count + (budget_of_all % count if place == ticks % count else 0)


def alone(lines, spaces, space):
    """What falls to one of several packs."""
    place, ticks, found = list(spaces).index(space), 0, []
    for line in lines:
        key, *rest = line.split(" ")
        if key in ("tick", "ticks"):
            for _ in range(int(rest[0]) if key == "ticks" else 1):
                found.append(f"tick {shares(int(rest[-1]), len(spaces), ticks, place)}")
                ticks += 1
        elif key == "reload":
            found.append(f"reload {shares(int(rest[0]), len(spaces), ticks, place)}")
        elif key == "other":
            found.append(line)
        elif rest[0] == space:
            found.append(line.split(" ", 2)[2])
    return found


def together(lines, printed):
    """What `multi` has to print, by what each pack prints alone."""
    queues = {space: text.splitlines() for space, text in printed.items()}
    counts = [queue.pop().split(" ") for queue in queues.values()]
    wanted = []
    for line in lines:
        words = line.split(" ")
        if words[0] != "in":
            continue
        queue, length = queues[words[1]], 1
        if words[2] == "dump":
            length = queue.index("end") + 1
        elif words[2] == "call":
            length = int(wanted[-1] == "running")
        wanted += queue[:length]
        del queue[:length]
    return [*wanted, f"ticks {counts[0][1]} commands {sum(int(words[3]) for words in counts)}"]


def try_together(program, names, known, seed, folder):
    chance = random.Random(f"together {seed}")
    spaces = {f"p{place}": name for place, name in enumerate(chance.choices(names, k=chance.randint(2, 5)))}
    lines = ["ticks 9 65536"] * chance.randrange(3)
    for _ in range(chance.randint(4, 30)):
        lines += shared_event(chance, spaces, known)
    lines += [f"in {space} dump" for space in spaces]
    packs = [pack_of(program, name, space, folder) for space, name in spaces.items()]
    printed = {}
    for space, pack in zip(spaces, packs):
        printed[space] = run_script(program, ["run", pack, None], alone(lines, spaces, space), folder)
    got = run_script(program, ["multi", None, *packs], lines, folder)
    bad = [ran for ran in (got, *printed.values()) if ran.returncode or ran.stderr]
    wanted = [] if bad else together(lines, {space: ran.stdout for space, ran in printed.items()})
    shown_lines = got.stdout.splitlines()
    if not bad and shown_lines == wanted:
        return True
    place = next((place for place, pair in enumerate(zip(wanted, shown_lines)) if pair[0] != pair[1]), len(wanted))
    print(f"seed {seed}, {spaces}: status {got.returncode}, line {place + 1} shown {shown_lines[place:place + 1]}, "
          f"wanted {wanted[place:place + 1]}")
    print("".join(ran.stderr for ran in bad) + "\n".join("    " + line for line in lines))
    return False


def pack_of(program, name, space, folder):
    """The folder of an example's pack under a namespace, which is compiled once, or copied where it is one by hand."""
    at = f"{folder}/{space}/{name}"
    if os.path.exists(at):
        return at
    if name in BY_HAND:
        copy_renamed(f"{ROOT}/examples/{name}", at, name, space)
    else:
        output_of([*program, "compile", f"{ROOT}/examples/{name}.wasm", at, space])
    return at


def copy_renamed(folder, to, name, space):
    """A copy of a pack by hand with another namespace, which is a word of its own wherever it stands."""
    for at, _, files in os.walk(folder):
        for file in files:
            place = os.path.join(to, os.path.relpath(f"{at}/{file}", folder).replace(f"data/{name}/", f"data/{space}/"))
            os.makedirs(os.path.dirname(place), exist_ok=True)
            with open(f"{at}/{file}", encoding="utf-8") as read, open(place, "w", encoding="utf-8") as out:
                out.write(re.sub(rf"\b{name}\b", space, read.read()))


def run_script(program, words, lines, folder):
    with open(f"{folder}/script.txt", "w", encoding="utf-8") as out:
        out.write("\n".join(lines) + "\n")
    return completed([*program, *(f"{folder}/script.txt" if word is None else word for word in words)])


def storm_together(program, names, known, seeds):
    with tempfile.TemporaryDirectory() as folder:
        good = sum(try_together(program, names, known, seed, folder) for seed in seeds)
    print(f"{good} of {len(seeds)} schedules of several packs answered as each pack does alone")
    return 0 if good == len(seeds) else 1


def main():
    asked = Words(__doc__)
    asked.add_argument("--together", action="store_true")
    asked.add_argument("--seeds", type=int, default=200)
    asked.add_argument("--first", type=int, default=0)
    asked.add_program()
    asked.add_argument("names", nargs="*", metavar="NAME")
    args = asked.parse_args()
    # A call that goes 1,024 deep takes several frames of this interpreter for each of its own.
    sys.setrecursionlimit(100000)
    known, bad, count = answers(), 0, 0
    if args.together:
        known |= BY_HAND
    if not {*args.names} <= {*known}:
        asked.error(f"the names are {', '.join(sorted(known))}")
    names = args.names or sorted(known)
    if args.together:
        return storm_together(args.program, names, known, range(args.first, args.first + args.seeds))
    for name in names:
        with open(f"{ROOT}/examples/{name}.wasm", "rb") as file:
            module = read_module(file.read())
        for seed in range(args.first, args.first + args.seeds):
            lines, wanted = schedule(name, module, known[name], seed)
            run = play(args.program, name, lines)
            got = [line for line in run.stdout.splitlines() if not line.startswith("ticks ")]
            count += 1
            if run.returncode or run.stderr or got != wanted:
                bad += 1
                print(f"{name}, seed {seed}: status {run.returncode}, wanted {wanted}, shown {got}")
                print(run.stderr + "\n".join("    " + line for line in lines))
    print(f"{count - bad} of {count} schedules answered as they have to")
    return 1 if bad else 0


if __name__ == "__main__":
    sys.exit(ended(main))
