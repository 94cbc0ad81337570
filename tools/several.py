#!/usr/bin/env python3
"""Plays the packs of several folders in one world, as a server does, and tells what they left.

  tools/several.py [--rule N] [--ticks N] [--run FUNCTION] [--set STORAGE PATH VALUE] --get STORAGE PATH FOLDER ..

The packs are loaded in the order of the folders, and 40 ticks go by. Then VALUE is put at PATH of STORAGE, FUNCTION is
run, and so many ticks more go by. In each tick the function `tick` of each pack is run with the whole of the game rule
maxCommandChainLength, which is N. At the end the value at the other PATH is printed, and the ticks behind FUNCTION
after which it stood there first, and how much the commands of a tick weighed at most, by folder. The world and its
commands are those of tools/reference. A pack may name what is another's, which `multi` refuses.
"""
import json
import os
import sys

sys.dont_write_bytecode = True

from commands import Failed, Words, ended
from reference.world import LOAD_BUDGET, Pack, is_line

FIRST_TICKS = 40


def space_of(folder):
    """The namespace of a pack, by its tag `tick`."""
    with open(f"{folder}/data/minecraft/tags/functions/tick.json", encoding="utf-8") as file:
        return json.load(file)["values"][0].partition(":")[0]


def functions_below(folder, space):
    found, at = {}, f"{folder}/data/{space}/functions"
    for name in sorted(os.listdir(at)):
        with open(f"{at}/{name}", encoding="utf-8") as file:
            found[f"{space}:{name.partition('.')[0]}"] = file.read().rstrip("\n").split("\n")
    return found


class World:
    """Packs in one world, by their folders."""

    def __init__(self, folders, rule):
        self.spaces = {folder: space_of(folder) for folder in folders}
        functions = {}
        for folder, space in self.spaces.items():
            functions.update(functions_below(folder, space))
        wrong = [line for lines in functions.values() for line in lines if not is_line(line)]
        if wrong:
            raise Failed(f"no line of the command language: {wrong[0]}")
        self.pack, self.most = Pack(functions), dict.fromkeys(folders, 0)
        for space in self.spaces.values():
            self.pack.run(f"{space}:load", LOAD_BUDGET)
        self.pack.world.budget = rule

    def run(self, function):
        used = self.pack.used
        self.pack.run(function, self.pack.world.budget)
        return self.pack.used - used

    def tick(self):
        for folder, space in self.spaces.items():
            self.most[folder] = max(self.most[folder], self.run(f"{space}:tick"))


def main():
    asked = Words(__doc__)
    asked.add_argument("--rule", type=int, default=LOAD_BUDGET)
    asked.add_argument("--ticks", type=int, default=1000)
    asked.add_argument("--run", metavar="FUNCTION")
    asked.add_argument("--set", nargs=3, metavar=("STORAGE", "PATH", "VALUE"))
    asked.add_argument("--get", nargs=2, metavar=("STORAGE", "PATH"), required=True)
    asked.add_argument("folders", nargs="+", metavar="FOLDER")
    args = asked.parse_args()
    world, first = World(args.folders, args.rule), None
    for _ in range(FIRST_TICKS):
        world.tick()
    if args.set:
        world.pack.world.put(*args.set[:2], int(args.set[2]))
    if args.run:
        world.run(args.run)
    for tick in range(1, args.ticks + 1):
        world.tick()
        if first is None and world.pack.world.get(*args.get) is not None:
            first = tick
    print(f"{' '.join(args.get)}: {world.pack.world.get(*args.get)} after {first} ticks")
    for folder, most in world.most.items():
        print(f"{folder}: {most} at most")
    return 0 if first else 1


if __name__ == "__main__":
    sys.exit(ended(main))
