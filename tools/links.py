#!/usr/bin/env python3
"""Compares what joined modules answer with what V8 answers that links the same modules.

  tools/links.py [--seeds N] [--first SEED] [--program PATH]

For each seed it makes one to three libraries and a main module with random bodies. Functions, a memory and a table are
imported, some of them by way of another library, and the functions call each other by name and through the table. Of
some seeds one import is spoilt: another name, another type, limits that don't fit. The program joins them, and a script
calls each function that the main module exports and shows 512 bytes of the memory; `node` links the same modules in the
same order and makes the same calls. A line that differs, another refusal, or a line on standard error is told with the
seed, whose modules are left in the folder for temporary files, and the status is then 1. The program is ./dpwasm of the
repository, or that of --program. `node` has to be on the PATH.
"""
import json
import os
import random
import re
import shutil
import sys
import tempfile

sys.dont_write_bytecode = True

import hostile as made
from commands import Words, completed, ended, output_of
from corpus import TRAPS
from packs import BOUNDS, GLOBALS, I32, I64, Body, const

FUNCTION, TABLE, MEMORY = 0, 1, 2
SHOWN = 512
PLACES = 8
# V8 tells the last two causes of a call through the table in one line.
MISMATCHES = ["uninitialized element", "indirect call type mismatch"]
LINK = """
const fs = require('fs');
const asked = JSON.parse(fs.readFileSync(0));
const libraries = {};
let memory = null, exports = {}, lines = [];
function linked(bytes, number) {
  let module;
  try { module = new WebAssembly.Module(bytes); } catch (fault) { throw new Error(`invalid module ${number}`); }
  const wanted = {};
  WebAssembly.Module.imports(module).forEach((it, place) => {
    const found = (libraries[it.module] || {})[it.name];
    if (found === undefined) throw new Error(`unknown import ${place} of module ${number}`);
    (wanted[it.module] = wanted[it.module] || {})[it.name] = found;
  });
  try { return new WebAssembly.Instance(module, wanted).exports; } catch (fault) {
    const place = /[Ii]mport #?(\\d+)/.exec(fault.message);
    if (fault instanceof WebAssembly.LinkError && place)
      throw new Error(`mismatched import ${place[1]} of module ${number}`);
    throw fault;
  }
}
try {
  asked.modules.forEach(([name, path], number) => {
    const last = number + 1 == asked.modules.length;
    try { exports = linked(fs.readFileSync(path), number); } catch (fault) {
      if (last && fault instanceof WebAssembly.RuntimeError) { lines.push('dead'); exports = null; return; }
      throw fault;
    }
    libraries[name] = exports;
    if (exports.memory) memory = exports.memory;
  });
  if (exports !== null) for (const [name, args] of asked.calls) {
    try {
      const value = exports[name](...args.map(it => it.endsWith('n') ? BigInt(it.slice(0, -1)) : Number(it)));
      lines.push(value === undefined ? 'done' : `done ${value}`);
    } catch (trap) { lines.push(`trap ${trap.message}`); }
    const bytes = memory && new Uint8Array(memory.buffer, 0, Math.min(asked.shown, memory.buffer.byteLength));
    lines.push(bytes ? Buffer.from(bytes).toString('hex') : 'none');
  }
} catch (fault) { lines = [`join: ${fault.message}`]; }
console.log(JSON.stringify(lines));
"""


class LinkedBody(Body):
    """A body without loops, that calls functions with lower indices alone, so that each call ends; through the table it
    calls functions that call none. An address lies in the first pages."""

    def __init__(self, chance, whole, function):
        super().__init__(chance, whole, function)
        self.function = function
        self.calls = 0 if whole.is_leaf(function) else 3
        self.left = chance.choice([5, 20, 40])

    def inside(self, results, head, arms=1):
        return super().inside(results, b"\x02" if head == b"\x03" else head, arms)

    def access(self, code, operands):
        if self.chance.random() < 0.1:
            return super().access(code, operands)
        near = self.value(I32) + const(I32, self.chance.choice([SHOWN - 1, 0x3FFF])) + b"\x71"
        return near + operands + bytes([code, 0]) + made.unsigned(self.chance.choice([0, 0, 3, 64, *BOUNDS[:6]]))

    def call(self, results):
        lower = [number for number in range(self.function)
                 if self.whole.kinds[self.whole.functions[number]][1] == results]
        through = [kind for kind, (_, gives) in enumerate(self.whole.kinds) if gives == results]
        if self.calls > 0 and lower and self.chance.random() < 0.6:
            self.calls -= 1
            function = self.chance.choice(lower)
            return self.values(self.whole.kinds[self.whole.functions[function]][0]) + b"\x10" + made.unsigned(function)
        if self.calls > 0 and self.whole.has_table:
            self.calls -= 1
            kind = self.chance.choice(through)
            place = const(I32, self.chance.randrange(PLACES + 1))
            return self.values(self.whole.kinds[kind][0]) + place + made.through_table(kind)
        return b"".join(const(kind, self.chance.randrange(100)) for kind in results)


class Part:
    """A module of the program: what it imports of those before it, what it defines, and what it exports."""

    def __init__(self, chance, earlier, number, owners, is_main):
        self.chance, self.number, self.is_main = chance, number, is_main
        self.long, self.imports, self.exports = chance.random() < 0.8, [], []
        self.kinds = [([], []), ([], [I32]), ([], [I64])]
        for _ in range(3):
            params = [self.kind(chance) for _ in range(chance.randrange(4))]
            self.kinds.append((params, [self.kind(chance) for _ in range(chance.randrange(2))]))
        chance.shuffle(self.kinds)
        self.functions, self.leaves = [], set()
        self.has_table = self.shares(TABLE, owners[0], earlier)
        self.pages = owners[2] if self.shares(MEMORY, owners[1], earlier) else None
        self.owns = [number == owner for owner in owners[:2]]
        for library in earlier:
            for name, kind, of in library.exports:
                if kind == FUNCTION and chance.random() < 0.6:
                    self.take(library, name, of)
        self.imported = len(self.functions)
        for _ in range(chance.randint(1, 4)):
            if chance.random() < 0.5:
                self.leaves.add(len(self.functions))
            self.functions.append(chance.randrange(len(self.kinds)))
        self.bodies = [LinkedBody(chance, self, place) for place in range(self.imported, len(self.functions))]
        self.offer(earlier)

    def kind(self, chance):
        return chance.choice([I32, I64]) if self.long else I32

    def is_leaf(self, function):
        return function in self.leaves

    def shares(self, space, owner, earlier):
        """Whether it has the one memory or table, its own or an imported one."""
        if self.number == owner:
            return True
        offering = [library for library in earlier if any(kind == space for _, kind, _ in library.exports)]
        if not offering or self.chance.random() < 0.2:
            return False
        library = self.chance.choice(offering)
        name, _, limits = next(it for it in library.exports if it[1] == space)
        self.imports.append([library.name, name, space, self.weaker(limits)])
        return True

    def weaker(self, limits):
        """Limits that an item with these ones has."""
        least, most = limits
        return [self.chance.randint(0, least), most if most is None else self.chance.choice([most, most + 1, None])]

    def take(self, library, name, of):
        """Imports a function of this type, which is a leaf where it calls none."""
        (params, results), is_leaf = of
        if (params, results) not in self.kinds:
            self.kinds.append((params, results))
        if is_leaf:
            self.leaves.add(len(self.functions))
        self.imports.append([library.name, name, FUNCTION, self.kinds.index((params, results))])
        self.functions.append(self.kinds.index((params, results)))

    def offer(self, earlier):
        """What it exports: its functions and some of those that it imports, and the memory and the table."""
        for place, kind in enumerate(self.functions):
            if place >= self.imported or self.chance.random() < 0.3:
                self.exports.append((f"f{place}", FUNCTION, (self.kinds[kind], place in self.leaves)))
        if self.has_table and (self.owns[0] or self.chance.random() < 0.5):
            self.exports.append(("table", TABLE, self.limits(TABLE, earlier)))
        if self.pages is not None:
            self.exports.append(("memory", MEMORY, self.limits(MEMORY, earlier)))

    def limits(self, space, earlier):
        """Those of the memory or of the table that it defines or passes on."""
        for library in earlier:
            for _, kind, limits in library.exports:
                if kind == space:
                    return limits
        least = PLACES if space == TABLE else self.pages
        return [least, self.chance.choice([None, least, least + 1])]

    @property
    def name(self):
        return f"m{self.number}"

    def bytes(self):
        chance, starts = self.chance, [None]
        if self.is_main:
            starts += [place for place, kind in enumerate(self.functions) if self.kinds[kind] == ([], [])]
        owned = {kind: limits for _, kind, limits in self.exports}
        segments = [made.elements(chance.randrange(4), [chance.choice(sorted(self.leaves)) for _ in range(4)])
                    for _ in range(1 if self.has_table and self.leaves else 0)]
        datas = [made.data(chance.randrange(SHOWN), bytes(chance.randrange(256) for _ in range(chance.randrange(30))))
                 for _ in range(2 if self.pages else 0)]
        start = chance.choice(starts)
        out = b"\0asm\1\0\0\0" + made.section(1, made.vector([self.type(*kind) for kind in self.kinds]))
        if self.imports:
            out += made.section(2, made.vector([self.imported_item(*item) for item in self.imports]))
        out += made.section(3, made.vector([made.unsigned(kind) for kind in self.functions[self.imported:]]))
        if self.owns[0]:
            out += made.section(4, made.vector([b"\x70" + self.limits_code(owned[TABLE])]))
        if self.owns[1]:
            out += made.section(5, made.vector([self.limits_code(owned[MEMORY])]))
        out += made.section(6, made.vector([bytes([kind, 1]) + const(kind, value) + made.END
                                            for kind, value in GLOBALS]))
        out += made.section(7, made.vector([self.text(name) + bytes([kind]) + made.unsigned(self.place(name, kind))
                                            for name, kind, _ in self.exports]))
        out += b"" if start is None else made.section(8, made.unsigned(start))
        out += made.section(9, made.vector(segments)) if segments else b""
        out += made.section(10, made.vector([self.body(body) for body in self.bodies]))
        return out + (made.section(11, made.vector(datas)) if datas else b"")

    @staticmethod
    def place(name, kind):
        return int(name[1:]) if kind == FUNCTION else 0

    @staticmethod
    def text(name):
        return made.unsigned(len(name)) + name.encode()

    @staticmethod
    def limits_code(limits):
        least, most = limits
        return b"\0" + made.unsigned(least) if most is None else b"\1" + made.unsigned(least) + made.unsigned(most)

    def imported_item(self, module, name, space, of):
        item = made.unsigned(of) if space == FUNCTION else self.limits_code(of)
        return self.text(module) + self.text(name) + bytes([space]) + (b"\x70" if space == TABLE else b"") + item

    @staticmethod
    def type(params, results):
        return (b"\x60" + made.vector([bytes([kind]) for kind in params])
                + made.vector([bytes([kind]) for kind in results]))

    @staticmethod
    def body(made_of):
        content = made.vector([b"\x01" + bytes([kind]) for kind in made_of.own]) + made_of.code() + made.END
        return made.unsigned(len(content)) + content

    def spoil(self):
        """Makes one import another one."""
        if not self.imports:
            return
        item = self.chance.choice(self.imports)
        kind = self.chance.randrange(4)
        if kind == 0:
            item[1] += "x"
        elif kind == 1:
            item[0] = f"m{self.number}"
        elif item[2] == FUNCTION:
            item[3] = self.chance.randrange(len(self.kinds))
        elif kind == 2:
            item[3] = [item[3][0] + 9, None]
        else:
            item[3] = [0, 0]


def program_of(seed):
    """The modules of a seed, the main one last."""
    chance = random.Random(seed)
    count = chance.randint(2, 4)
    owners = [chance.choice([None, 0, 0, 1]), chance.choice([None, 0, 0, 1]), chance.choice([1, 1, 2])]
    parts = []
    for number in range(count):
        parts.append(Part(chance, list(parts), number, owners, number == count - 1))
    if chance.random() < 0.25:
        chance.choice(parts).spoil()
    return parts, chance


def calls_of(main, chance):
    """Calls of the exported functions with random numbers."""
    found = []
    for name, kind, of in main.exports:
        if kind == FUNCTION:
            for _ in range(2):
                numbers = [chance.choice([0, 1, -1, chance.randrange(-2**31, 2**31)]) for _ in of[0][0]]
                found.append((name, of[0][0], numbers))
    return found


def linked_by_v8(paths, calls):
    told = [(name, [f"{it}{'n' if kind == I64 else ''}" for it, kind in zip(numbers, kinds)])
            for name, kinds, numbers in calls]
    asked = {"modules": [(f"m{number}", path) for number, path in enumerate(paths)], "calls": told, "shown": SHOWN}
    return json.loads(output_of(["node", "-e", LINK], input=json.dumps(asked)))


def joined(program, folder, paths, calls):
    """The lines that the program prints of the calls, or its line of a refusal."""
    script = ["ticks 2000 65536", "show"]
    for name, _, numbers in calls:
        script += [" ".join(["call", name, *map(str, numbers)]), "ticks 2000 65536", "show", f"memory 0 {SHOWN}"]
    with open(f"{folder}/script", "w", encoding="utf-8") as file:
        file.write("".join(line + "\n" for line in script))
    pairs = [word for number, path in enumerate(paths[:-1]) for word in (f"m{number}", path)]
    ran = completed([*program, "join", paths[-1], f"{folder}/pack", "wk", f"{folder}/script", *pairs])
    if ran.returncode == 2:
        return [ran.stderr.rstrip("\n")]
    if ran.returncode == 7 and ran.stdout.startswith("dead\n"):
        return ["dead"]
    if ran.returncode or ran.stderr:
        return [f"status {ran.returncode}: {ran.stderr.rstrip()}"]
    lines = ran.stdout.splitlines()
    return ["dead"] if lines[0] == "dead" else lines[1:-1]


def is_same(line, other):
    """Whether a printed line is what V8 says of it. V8 looks at each module before it is linked: where an import has a
    type with which the module isn't valid, that is told first."""
    if other.startswith("join: invalid module"):
        return line.startswith(("join: mismatched import", "module: invalid"))
    if other.startswith("trap "):
        cause = other[len("trap "):]
        if "signature mismatch" in cause:
            return line in [f"trap {name}" for name in MISMATCHES]
        return line == f"trap {TRAPS.get(cause, cause)}"
    if other == "none":
        return line in ("none", "outside")
    return line == other or bool(re.fullmatch(r"[0-9a-f]+", other)) and line == other


def compared(program, seed, folder):
    """What differs for a seed, or None."""
    parts, chance = program_of(seed)
    paths = []
    for part in parts:
        paths.append(f"{folder}/{part.name}.wasm")
        with open(paths[-1], "wb") as file:
            file.write(part.bytes())
    calls = calls_of(parts[-1], chance)
    wanted = linked_by_v8(paths, calls)
    got = joined(program, folder, paths, calls)
    if len(got) != len(wanted):
        return f"{got[:3]} for {wanted[:3]}"
    return next((f"{line} for {other}" for line, other in zip(got, wanted) if not is_same(line, other)), None)


def main():
    asked = Words(__doc__)
    asked.add_program()
    asked.add_argument("--seeds", type=int, default=500)
    asked.add_argument("--first", type=int, default=0)
    args = asked.parse_args()
    completed(["node", "--version"])
    bad = 0
    for seed in range(args.first, args.first + args.seeds):
        with tempfile.TemporaryDirectory() as folder:
            told = compared(args.program, seed, folder)
            if told:
                bad += 1
                kept = f"{tempfile.gettempdir()}/links-{seed}"
                shutil.rmtree(kept, ignore_errors=True)
                shutil.copytree(folder, kept)
                print(f"seed {seed}: {told[:300]} (see {kept})")
    print(f"{args.seeds - bad} of {args.seeds} programs answer as V8's")
    return 1 if bad else 0


if __name__ == "__main__":
    sys.exit(ended(main))
