#!/usr/bin/env python3
"""Compares modules with what tools/mul64.py makes of them, in V8.

    tools/mul64_check.py [MODULE.wasm CALLS.txt] ..

Without words: a module that multiplies two numbers, and one that multiplies by each of a table of constants, over all
pairs of a table of edges and 10,000 random pairs. MODULE is a module of one's own, and a line of CALLS is the name of
an export and its arguments, integers; the calls are made in this order in one instance of each module, and so are told
apart where what they leave in the memory differs. Each module that is made has to validate. It needs `node` on the
PATH. The status is 1 where something differs.
"""
import json
import os
import random
import sys
import tempfile

sys.dont_write_bytecode = True

from commands import Failed, Words, completed, ended
from mul64 import CODE, FUNCTIONS, MAGIC, TYPES, NoModule, PRODUCT_TYPES, rewritten, signed, unsigned

EDGES = [0, 1, 2, 3, 31, 255, 32767, 32768, 65535, 65536, 65537, 0x7FFFFFFF, 0x80000000, 0xFFFF0000, 0xFFFFFFFF,
         0x100000000, 0x100000001, 0x7FFFFFFFFFFFFFFF, 0x8000000000000000, 0xFFFFFFFF00000000, 0xFFFFFFFF80000000,
         0xFFFFFFFFFFFF0000, 0xFFFFFFFFFFFF8000, 0xFFFFFFFFFFFFFFFE, 0xFFFFFFFFFFFFFFFF,
         6364136223846793005, 1442695040888963407, 0x9E3779B97F4A7C15, 1103515245, 0x100000001B3, 1000000007]
PAIRS, EXPORTS = 10000, 7

# What differs between two modules over calls: those that both take. The memory is compared behind each.
RUN = """
const fs = require('fs');
const [one, other, calls] = process.argv.slice(2);
const made = [one, other].map(path => fs.readFileSync(path));
if (!WebAssembly.validate(made[1])) { console.log('what was made is not valid'); process.exit(1); }
const both = made.map(bytes => new WebAssembly.Instance(new WebAssembly.Module(bytes)).exports);
const memory = of => Object.values(of).filter(it => it instanceof WebAssembly.Memory)
  .map(it => Buffer.from(it.buffer).toString('base64')).join();
let bad = 0;
for (const [name, args] of JSON.parse(fs.readFileSync(calls))) {
  const answers = both.map(of => {
    try {
      return String(of[name](...args.map(it => it.endsWith('n') ? BigInt(it.slice(0, -1)) : Number(it))));
    } catch (trap) { return trap.message; }
  });
  if (answers[0] !== answers[1] && bad++ < 10) console.log(`${name} ${args}: ${answers[0]}, and then ${answers[1]}`);
}
if (memory(both[0]) !== memory(both[1])) { console.log('the memories differ'); bad++; }
process.exit(bad ? 1 : 0);
"""


def section(number, items):
    content = unsigned(len(items)) + b"".join(items)
    return bytes([number]) + unsigned(len(content)) + content


def module_of(arity, bodies):
    """A module that exports functions f0, f1 .. of so many numbers."""
    names = [f"f{it}".encode() for it in range(len(bodies))]
    exports = [unsigned(len(name)) + name + b"\0" + unsigned(at) for at, name in enumerate(names)]
    codes = [b"\0" + it + b"\x0b" for it in bodies]
    return MAGIC + b"".join([
        section(TYPES, [PRODUCT_TYPES[arity]]),
        section(FUNCTIONS, [b"\0"] * len(bodies)),
        section(EXPORTS, exports),
        section(CODE, [unsigned(len(it)) + it for it in codes])])


def big(number):
    return f"{number}n"


def of_two():
    numbers = random.Random(64)
    pairs = [(x, y) for x in EDGES for y in EDGES]
    pairs += [(numbers.getrandbits(64), numbers.getrandbits(64)) for _ in range(PAIRS)]
    return module_of(2, [b"\x20\0\x20\1\x7e"]), [("f0", [big(x), big(y)]) for x, y in pairs]


def of_constants():
    numbers = random.Random(32)
    bodies = [b"\x20\0\x42" + signed(it - (1 << 64) if it >> 63 else it) + b"\x7e" for it in EDGES]
    others = [*EDGES, *(numbers.getrandbits(64) for _ in range(PAIRS // len(EDGES)))]
    return module_of(1, bodies), [(f"f{at}", [big(x)]) for at in range(len(EDGES)) for x in others]


def compare(name, data, calls):
    """Tells what differs, and whether something does."""
    with tempfile.TemporaryDirectory() as folder:
        try:
            made, products, _ = rewritten(data)
        except NoModule as error:
            raise Failed(f"{name}: {error}") from None
        for file, content in (("one.wasm", data), ("other.wasm", made), ("calls", json.dumps(calls).encode()),
                              ("run.js", RUN.encode())):
            with open(f"{folder}/{file}", "wb") as it:
                it.write(content)
        words = ["node", "run.js", "one.wasm", "other.wasm", "calls"]
        ran = completed(words, cwd=folder)
    otherwise = "otherwise:" if ran.returncode else "none otherwise"
    print(f"{name}: {products} products, {len(calls)} calls, {otherwise}")
    print(ran.stdout + ran.stderr, end="")
    return ran.returncode != 0


def calls_in(path):
    with open(path, encoding="utf-8") as file:
        lines = [line.split() for line in file if line.strip() and not line.startswith("#")]
    return [(words[0], words[1:]) for words in lines]


def main():
    asked = Words(__doc__)
    asked.add_argument("files", nargs="*", metavar="MODULE.wasm CALLS.txt")
    files = asked.parse_args().files
    if len(files) % 2:
        asked.error("behind each module come its calls")
    completed(["node", "--version"])
    if not files:
        return 1 if sum([compare("two numbers", *of_two()), compare("constants", *of_constants())]) else 0
    bad = 0
    for module, calls in zip(files[::2], files[1::2]):
        with open(module, "rb") as file:
            bad += compare(os.path.basename(module), file.read(), calls_in(calls))
    return 1 if bad else 0


if __name__ == "__main__":
    sys.exit(ended(main))
