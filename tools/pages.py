#!/usr/bin/env python3
"""Runs what the pages for users show, and compares it with what comes.

  tools/pages.py [--program PATH] [PAGE ..]

PAGE is FROM_C.md, FROM_RUST.md, GALLERY.md, IN_A_WORLD.md, JOIN.md, PROFILE.md or SEVERAL.md of docs/use; without one,
all of them. Of a page's indented blocks

  - one whose first line begins with `$ ` has commands of a shell, each followed by what it prints, the lines of
    standard error among it; in such a line `*` stands for any characters, and a line `..` for any lines;
  - one behind a paragraph that is the name of a file in backquotes and a colon, or begins with that of one below
    `data`, is that file;
  - one whose first line begins with `/` has commands that are typed into the game, and behind `/data get` what the game
    answers. They are played in the world of tools/reference over the pack in the folder `out` and the functions of a
    pack `map`, both of which the page has made before; 40 ticks of 65,536 go by at each empty line and behind each
    block. All is played twice, with the ticks of `map` before those of `wk` and behind. `setblock` is noted down, and
    the blocks of stone have to be the walls that tools/maze.py draws.

Other blocks are passed over. The commands run in a folder for temporary files, with copies of `examples`, `tools` and
`docs`, and with the repository's `dpwasm`, or that of --program. A difference is told, and the status is then 1.
docs/use/FROM_C.md says which packages are needed, as does docs/use/FROM_RUST.md.
"""
import os
import re
import shlex
import shutil
import subprocess
import sys
import tempfile

sys.dont_write_bytecode = True

import maze
from commands import ROOT, Words, completed, ended
from reference.world import LOAD_BUDGET, Pack, is_line

PAGES = [f"docs/use/{name}.md" for name in ("FROM_C", "FROM_RUST", "GALLERY", "IN_A_WORLD", "JOIN", "PROFILE", "SEVERAL")]
CORNER, HEIGHT, SEED = 100, 64, 2026
TICKS, BUDGET = 40, 65536
MOST_SECONDS = 3600
BLOCK = re.compile(r"^(\$?)setblock (\S+ \S+ \S+) minecraft:(\w+)$")


# Pages

def blocks_of(text):
    """The indented blocks, each with the paragraph before it."""
    paragraph, blocks, is_open = [], [], False
    for line in [*text.split("\n"), ""]:
        is_code = line.startswith("    ") and (is_open or not paragraph or paragraph[-1] == "")
        if is_code and not is_open:
            blocks.append(("\n".join(paragraph).strip("\n").split("\n\n")[-1], []))
        if is_code:
            blocks[-1][1].append(line[4:])
        elif line == "" and is_open:
            blocks[-1][1].append("")
        else:
            paragraph = [] if is_open else paragraph
            paragraph.append(line)
        is_open = is_code or is_open and line == ""
    return [(before, [*strip(lines)]) for before, lines in blocks]


def strip(lines):
    while lines and not lines[-1]:
        lines = lines[:-1]
    return lines


def name_of(before):
    """The file that a block is by the paragraph before it, or None."""
    found = re.match(r"`((?:data/)?[\w/]+\.\w+)`", before)
    return found and found[1] if before.startswith("`data/") or before.endswith("`:") else None


def commands_of(lines):
    """The commands of a shell, each with the lines that it has to print."""
    found = []
    for line in lines:
        if line.startswith("$ "):
            found.append((line[2:], []))
        elif found and found[-1][0].endswith("\\") and not found[-1][1]:
            found[-1] = f"{found[-1][0]}\n{line}", []
        else:
            found[-1][1].append(line)
    return found


# Shell

def is_as(wanted, got):
    pattern = "".join("(?:.*\n)*" if line == ".." else ".*".join(map(re.escape, line.split("*"))) + "\n"
                      for line in wanted)
    return re.fullmatch(pattern, got) is not None


def run(command, folder):
    how = {"capture_output": False, "stdout": subprocess.PIPE, "stderr": subprocess.STDOUT, "stdin": subprocess.DEVNULL}
    return completed(["bash", "-c", command], MOST_SECONDS, cwd=folder, **how).stdout


def lay_out(folder, program):
    for name in ("examples", "tools", "docs"):
        shutil.copytree(f"{ROOT}/{name}", f"{folder}/{name}")
    with open(f"{folder}/dpwasm", "w", encoding="utf-8") as file:
        file.write(f'#!/bin/sh\nexec {shlex.join(program)} "$@"\n')
    os.chmod(f"{folder}/dpwasm", 0o700)


# The game

def functions_below(folder, space):
    """The functions of a pack in a folder, with their namespace."""
    found, at = {}, f"{folder}/data/{space}/functions"
    for name in os.listdir(at):
        with open(f"{at}/{name}", encoding="utf-8") as file:
            found[f"{space}:{name.partition('.')[0]}"] = file.read().rstrip("\n").split("\n")
    return found


def noted(line):
    """`setblock` as a line of the language, which notes the block down."""
    found = BLOCK.match(line)
    if found is None:
        return line
    x, y, z = found[2].split(" ")
    return f"{found[1]}data modify storage pages:blocks {found[3]} append value {{x:{x},y:{y},z:{z}}}"


class Game:
    """A world with the packs `wk` and `map`."""

    def __init__(self, folder, spaces):
        functions = {**functions_below(f"{folder}/out", "wk"), **functions_below(folder, "map")}
        self.spaces, self.most = spaces, 0
        self.pack = Pack({name: list(map(noted, lines)) for name, lines in functions.items()})
        wrong = [line for lines in self.pack.functions.values() for line in lines if not is_line(line)]
        if wrong:
            raise ValueError(f"no lines of the command language: {wrong}")
        self.load()
        self.tick(TICKS)

    def run(self, function):
        used = self.pack.used
        self.pack.run(function, BUDGET)
        return self.pack.used - used

    def load(self):
        for space in self.spaces:
            self.run(f"{space}:load")

    def tick(self, count):
        self.pack.world.budget = LOAD_BUDGET
        for _ in range(count):
            for space in self.spaces:
                used = self.run(f"{space}:tick")
                self.most = max(self.most, used if space == "map" else 0)

    def type(self, command):
        """What is typed, and what the game answers, for `/data get`."""
        if command == "reload":
            self.load()
            return None
        if not is_line(command) and not command.startswith("scoreboard objectives remove "):
            raise ValueError(f"no line of the command language: {command}")
        words = command.split(" ")
        if words[:2] == ["data", "get"]:
            value = self.pack.world.get(words[3], words[4])
            found = f"Storage {words[3]} has the following contents: {value}"
            return f"Found no elements matching {words[4]}" if value is None else found
        if words[:3] != ["scoreboard", "objectives", "remove"]:
            self.pack.functions["pages:typed"] = [command]
            self.pack.plain.pop("pages:typed", None)
            self.run("pages:typed")
        return None

    def stone(self):
        return {(block["x"], block["y"], block["z"]) for block in self.pack.world.get("pages:blocks", "stone") or []}


def play(game, lines):
    """Plays a block, and gives the lines that differ."""
    differing, answer = [], None
    for line in lines:
        if line == "":
            game.tick(TICKS)
        elif line.startswith("/"):
            answer = game.type(line[1:])
        elif line != answer:
            differing.append((line, answer))
    game.tick(TICKS)
    return differing


def walls(seed):
    ways = maze.carve(seed)
    places = ((x, y) for x in range(maze.BLOCKS) for y in range(maze.BLOCKS))
    return {(CORNER + x, HEIGHT, CORNER + y) for x, y in places if (x, y) not in ways}


def try_game(folder, typed, text):
    bad = 0
    for spaces in (["wk", "map"], ["map", "wk"]):
        game, drawn = Game(folder, spaces), 0
        for lines in typed:
            for wanted, got in play(game, lines):
                bad += 1
                print(f"    the page shows {wanted!r}, and the game answers {got!r}")
            if game.stone():
                drawn += 1
                if game.stone() != walls(SEED):
                    bad += 1
                    print("    other blocks of stone than the walls of the maze")
                game.pack.world.stores.pop("pages:blocks")
        count = sum(line.startswith("/") for lines in typed for line in lines)
        print(f"    {count} commands typed, the ticks of {spaces[0]} first; "
              f"a maze drawn {drawn} times; a tick of map weighs {game.most} at most")
        if drawn == 0 or f" weighs {game.most:,}" not in text:
            bad += 1
            print("    no maze was drawn, or the page says that this weighs something else")
    return bad


# All

def try_page(page, program):
    with open(f"{ROOT}/{page}", encoding="utf-8") as file:
        text = file.read()
    bad, count, typed = 0, 0, []
    with tempfile.TemporaryDirectory() as folder:
        lay_out(folder, program)
        for before, lines in blocks_of(text):
            name = name_of(before)
            if lines[0].startswith("$ "):
                for command, wanted in commands_of(lines):
                    got, count = run(command, folder), count + 1
                    if not is_as(wanted, got):
                        bad += 1
                        print(f"{page}: {command}\n  shown there:\n" + "\n".join(wanted) + f"\n  and what came:\n{got}")
            elif lines[0].startswith("/"):
                typed.append(lines)
            elif name is not None:
                os.makedirs(os.path.dirname(f"{folder}/{name}"), exist_ok=True)
                with open(f"{folder}/{name}", "w", encoding="utf-8") as file:
                    file.write("\n".join(lines) + "\n")
        print(f"{page}: {count} commands of a shell", flush=True)
        bad += try_game(folder, typed, text) if typed else 0
    return bad


def main():
    asked = Words(__doc__)
    asked.add_program()
    asked.add_argument("pages", nargs="*", metavar="PAGE")
    args = asked.parse_args()
    names = {os.path.basename(page): page for page in PAGES}
    wrong = [it for it in args.pages if os.path.basename(it) not in names]
    if wrong:
        asked.error(f"the pages are {', '.join(PAGES)}")
    bad = sum(try_page(names[os.path.basename(it)], args.program) for it in args.pages or PAGES)
    print(f"{bad} differences")
    return 1 if bad else 0


if __name__ == "__main__":
    sys.exit(ended(main))
