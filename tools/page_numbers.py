#!/usr/bin/env python3
"""Works out the numbers that pages tell of compiled programs, apart from the program, by tools/reference.

  tools/page_numbers.py [--write] [PAGE ..]

PAGE is PERFORMANCE.md, FROM_RUST.md or examples; without one, all of them. It compares the rows of these tables, and
the lines `ticks T commands C` of examples/*.wanted where C is a number, with what is worked out, and tells what
differs; with --write it puts the new numbers there. What a paragraph says in words has to be read again where a row of
its page changed. FROM_RUST.md needs Debian's rustc: docs/use/FROM_RUST.md says which packages. The status is 1 where
something differs and isn't written.
"""
import glob
import os
import re
import sys
import tempfile

sys.dont_write_bytecode = True

from commands import ROOT, Failed, Words, ended, output_of
from reference.engine import BITS, Instance, signed
from reference.module import read_module
from reference.pack import index_text, pack_functions
from reference.routines import halves
from reference.world import LOAD_BUDGET, Pack
from wanted import Run

LARGE, LEAST = 2147483647, 512
OTHER_FILES = ['{"values":["wk:load"]}', '{"values":["wk:tick"]}', '{"pack":{"description":"dpwasm","pack_format":26}}']
KEYS = "506097522914230528 1084818905618843912"
# The first cell of a row of PERFORMANCE.md, the example, the calls before, and the call.
CALLS = [
    ("`sum`: `sum 1000`", "sum", [], "sum 1000"), ("`gcd`: `gcd 1071 462`", "gcd", [], "gcd 1071 462"),
    ("`collatz`: `steps 27`", "collatz", [], "steps 27"), ("`machine`: `count 21`", "machine", [], "count 21"),
    ("`nested`: `pair 10 97`", "nested", [], "pair 10 97"), ("`fib`: `fib 12`", "fib", [], "fib 12"),
    ("`ackermann`: `ackermann 2 3`", "ackermann", [], "ackermann 2 3"),
    ("`parity`: `down 1023`", "parity", [], "down 1023"), ("`dispatch`: `fold 2 50`", "dispatch", [], "fold 2 50"),
    ("`switch`: `all 1`", "switch", [], "all 1"),
    ("`hash`: `hash` of 15 bytes, as in its script", "hash", [], f"hash {KEYS} 15"),
    ("`dice`: `roll 6` behind `seed 42`", "dice", ["seed 42"], "roll 6"),
    ("`fixed`: `divide 4294967296 12884901888`", "fixed", [], "divide 4294967296 12884901888"),
    ("`fixed`: `root 8589934592`", "fixed", [], "root 8589934592"), ("`maze`: `carve 1`", "maze", [], "carve 1")]
RUSTC = ["/usr/bin/rustc", "--edition", "2021", "--target", "wasm32-unknown-unknown", "--crate-type", "cdylib",
         "-C", "lto", "-C", "llvm-args=-replexitval=never", "-C", "link-arg=--strip-all",
         "-C", "link-arg=--stack-first", "-C", "link-arg=-zstack-size=4096"]
# The first cell of a row of FROM_RUST.md, and the flags with which maze.rs is compiled.
FLAGS = [("`-C opt-level=2`, or 3", ["opt-level=2"]), ("`-C opt-level=s`", ["opt-level=s"]),
         ("`-C opt-level=z`", ["opt-level=z"]),
         ("`-C opt-level=2 -C overflow-checks`", ["opt-level=2", "overflow-checks"])]
# The first cell of a row, and the call of the script of both inventories.
KEPT = [("`add 0 5`, the first call", "add 0 5"), ("`add 2 100000`, where two items are there", "add 2 100000"),
        ("`add 0 7`, of an item that is there", "add 0 7"), ("`list`, of three lines", "list"),
        ("`address`", "address"), ("`add 6 1`, which traps", "add 6 1")]


class Packed:
    """A module and its pack, worked out."""

    def __init__(self, data):
        self.module, self.size = read_module(data), len(data)
        self.functions = pack_functions("wk", self.module)
        self.files = [*("".join(line + "\n" for line in lines) for _, lines in self.functions),
                      index_text("wk", self.module), *OTHER_FILES]

    def bytes(self):
        return sum(len(it.encode()) for it in self.files)

    def ready(self):
        pack = Pack({f"wk:{name}": lines for name, lines in self.functions})
        pack.run("wk:load", LOAD_BUDGET)
        return pack, self.done(pack, LOAD_BUDGET)

    @staticmethod
    def done(pack, budget):
        """Runs the job, and gives the number of ticks that it takes."""
        ticks, pack.world.budget = 0, budget
        while pack.world.get("wk:io", "state") == 1:
            pack.run("wk:tick", budget)
            ticks += 1
        return ticks

    def call(self, pack, call):
        name, *numbers = call.split(" ")
        exports = self.module.exported()
        number = next(number for number, export in enumerate(exports) if export.name == name)
        params = self.module.functions[exports[number].index].type.params
        pack.world.put("wk:io", "args", [int_ for kind, value in zip(params, map(int, numbers))
                                         for int_ in halves(kind, signed(value, BITS[kind]))])
        pack.run(f"wk:c{number}", LEAST)

    def weighed(self, before, call, budget):
        """What a call weighs behind others, with the function that begins it, and its ticks."""
        pack, _ = self.ready()
        for other in before:
            self.call(pack, other)
            self.done(pack, LARGE)
        used = pack.used
        self.call(pack, call)
        ticks = self.done(pack, budget)
        return pack.used - used, ticks

    def steps(self, before, call):
        instance = Instance(self.module)
        for other in [*before, call]:
            counted = instance.steps
            name, *numbers = other.split(" ")
            instance.call(name, list(map(int, numbers)))
        return instance.steps - counted


def example(name):
    with open(f"{ROOT}/examples/{name}.wasm", "rb") as file:
        return Packed(file.read())


def row(cells):
    return f"| {' | '.join(f'{it:,}' if isinstance(it, int) else it for it in cells)} |"


def rows_of_calls():
    for cell, name, before, call in CALLS:
        packed = example(name)
        steps, (weight, _) = packed.steps(before, call), packed.weighed(before, call, LARGE)
        ticks = packed.weighed(before, call, LEAST)[1]
        yield row([f"{cell}", steps, weight, f"{weight / steps:.1f}", ticks, f"{steps / ticks:.1f}",
                   f"{len(packed.files)} files, {packed.bytes():,} bytes"])


def compiled(source, flags):
    with tempfile.TemporaryDirectory() as folder:
        words = [word for flag in flags for word in ("-C", flag)]
        output_of([*RUSTC, *words, "-o", f"{folder}/it.wasm", source])
        with open(f"{folder}/it.wasm", "rb") as file:
            return Packed(file.read())


def rows_of_rust():
    for cell, flags in FLAGS:
        packed = compiled(f"{ROOT}/examples/maze.rs", flags)
        yield row([cell, packed.size, len(packed.files), packed.weighed([], "carve 1", LARGE)[0]])
    both = [example("inventory"), example("inventory_bare")]
    yield row(["bytes of the module", *(it.size for it in both)])
    yield row(["files of the pack", *(len(it.files) for it in both)])
    yield row(["bytes of the pack", *(it.bytes() for it in both)])
    with open(f"{ROOT}/examples/inventory.txt", encoding="utf-8") as file:
        calls = [line[5:].rstrip("\n") for line in file if line.startswith("call ")]
    for cell, call in KEPT:
        yield row([cell, *(it.weighed(calls[:calls.index(call)], call, LARGE)[0] for it in both)])


def played(name):
    """What an example's script prints."""
    at = f"{ROOT}/examples/{name}"
    files = {}
    for word, ending in (("module", "wasm"), ("script", "txt")):
        with open(f"{at}.{ending}", "rb") as file:
            files[word] = file.read()
    run = Run({"words": ["exec", "module", "pack", "wk", "script"], "file": files, "swap": {}, "fail": {},
               "prefixes": None})
    run.run()
    return run.output.decode()


# Pages

class Page:
    def __init__(self, path, writes):
        self.path, self.writes, self.bad = path, writes, 0
        with open(path, encoding="utf-8") as file:
            self.text = file.read()

    def puts(self, old, new):
        if old == new:
            return
        self.bad += 1
        print(f"{os.path.relpath(self.path, ROOT)}:\n  {old}\n  {new}", flush=True)
        self.text = self.text.replace(old, new)

    def rows(self, rows):
        for new in rows:
            cell = new[2:].partition(" |")[0]
            old = [line for line in self.text.split("\n") if line.startswith(f"| {cell} |")]
            if len(old) != 1:
                raise Failed(f"{self.path} has {len(old)} rows of {cell}")
            self.puts(old[0], new)

    def end(self):
        """How much differs and isn't written."""
        if not self.writes:
            return self.bad
        with open(self.path, "w", encoding="utf-8") as file:
            file.write(self.text)
        return 0


def performance(writes):
    page = Page(f"{ROOT}/docs/PERFORMANCE.md", writes)
    page.rows(rows_of_calls())
    return page.end()


def from_rust(writes):
    page = Page(f"{ROOT}/docs/use/FROM_RUST.md", writes)
    page.rows(rows_of_rust())
    scripts = [played(name).split(" ")[-1].strip() for name in ("inventory", "inventory_bare")]
    page.rows([row(["the whole script, with loading and 174 ticks", *map(int, scripts)])])
    for old, new in zip(re.findall(r"    ticks 174 commands \d+", page.text), scripts):
        page.puts(old, f"    ticks 174 commands {new}")
    return page.end()


def examples(writes):
    bad = 0
    for path in sorted(glob.glob(f"{ROOT}/examples/*.wanted")):
        page, name = Page(path, writes), os.path.basename(path)[:-7]
        numbers = re.findall(r"(?m)^ticks \d+ commands \d+$", page.text)
        if numbers:
            page.puts(numbers[0], played(name).rstrip("\n").split("\n")[-1])
        bad += page.end()
    page = Page(f"{ROOT}/README.md", writes)
    page.puts(re.findall(r"ticks 2 commands \d+", page.text)[0], played("first").rstrip("\n").split("\n")[-1])
    lines = dict(example("first").functions)["f0_1"]
    shown = re.search(r"is the\ncompiled function:\n\n((?:    .*\n)+)", page.text)
    page.puts(shown[1], "".join(f"    {line}\n" for line in lines))
    return bad + page.end()


PAGES = {"PERFORMANCE.md": performance, "FROM_RUST.md": from_rust, "examples": examples}


def main():
    asked = Words(__doc__)
    asked.add_argument("--write", action="store_true")
    asked.add_argument("pages", nargs="*", metavar="PAGE")
    args = asked.parse_args()
    if not {*args.pages} <= {*PAGES}:
        asked.error(f"the pages are {', '.join(PAGES)}")
    sys.setrecursionlimit(100000)
    bad = sum(PAGES[page](args.write) for page in args.pages or PAGES)
    return 1 if bad else 0


if __name__ == "__main__":
    sys.exit(ended(main))
