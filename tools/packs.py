#!/usr/bin/env python3
"""Compares the packs that the program writes with those that tools/reference works out apart from it, byte by byte.

  tools/packs.py [--program PATH] [--seeds N] [--first SEED] [FILE ..]

It compiles each module FILE, or, where none is named, those of examples/, and N modules with random bodies of all
instructions on integers, with calls, a table, globals and a memory. A file of a pack that differs, or one that is there
or isn't, is told by its name, as is a piece that weighs more than one may, and the status is then 1. A random module of
which that is so is left in the folder for temporary files. The program is ./dpwasm of the repository, or that of
--program.
"""
import glob
import os
import random
import sys
import tempfile

sys.dont_write_bytecode = True

import hostile as made
from commands import ROOT, Failed, Words, completed, ended
from reference.module import Unknown, read_module
from reference.pack import index_text, most_of_pieces, pack_functions

# With a turn, which weighs 12, a piece weighs at most 464.
MOST = 452
I32, I64 = 0x7F, 0x7E
# By the result's type: operations of one operand, and of two, each with the type of its operands.
UNARY = {
    I32: [(I32, code) for code in [0x45, 0x67, 0x68, 0x69, 0xC0, 0xC1]] + [(I64, 0x50), (I64, 0xA7)],
    I64: [(I64, code) for code in [0x79, 0x7A, 0x7B, 0xC2, 0xC3, 0xC4]] + [(I32, 0xAC), (I32, 0xAD)],
}
BINARY = {
    I32: ([(I32, code) for code in [*range(0x46, 0x50), *range(0x6A, 0x79)]]
          + [(I64, code) for code in range(0x51, 0x5B)]),
    I64: [(I64, code) for code in [*range(0x7C, 0x7E), *range(0x7F, 0x8B)]],
}
LOADS = {I32: range(0x2C, 0x30), I64: range(0x30, 0x36)}
WHOLE_LOAD = {I32: 0x28, I64: 0x29}
STORES = {I32: [0x36, 0x3A, 0x3B], I64: [0x37, 0x3C, 0x3D, 0x3E]}
BOUNDS = [0, 1, 3, 4, 8187, 8188, 8191, 8192, 8193, 65535, 16777211, 16777212, 16777215, 16777216, 4294967295]
GLOBALS = [(I32, 5), (I64, -7), (I64, 2**40 + 9), (I32, -1)]


def const(kind, value):
    return (b"\x41" if kind == I32 else b"\x42") + made.signed(value)


class Body:
    """A body of random instructions; the operands that stand at a place are counted, and there are no others."""

    def __init__(self, chance, whole, function):
        self.chance, self.whole = chance, whole
        params, self.results = whole.kinds[whole.functions[function]]
        count = chance.choice([0, 1, 3, 7] if chance.random() < 0.9 else [20, 126, 131, 200])
        self.own = [whole.kind(chance) for _ in range(count)]
        self.locals = [*params, *self.own]
        self.left = chance.choice([5, 20, 60, 200])
        self.labels = [self.results]

    def code(self):
        return self.statements() + self.values(self.results)

    def local(self, kind):
        """A local of this type, or None."""
        same = [number for number, own in enumerate(self.locals) if own == kind]
        return self.chance.choice(same) if same else None

    def statements(self):
        """Instructions that leave no operand."""
        out = b""
        while self.left > 0 and self.chance.random() < 0.8:
            out += self.statement()
        return out

    def values(self, kinds):
        return b"".join(self.value(kind) for kind in kinds)

    def offset(self):
        return self.chance.choice(BOUNDS) if self.chance.random() < 0.3 else self.chance.randrange(20000)

    def access(self, code, operands):
        """A load or a store behind its operands, of which the first one is the address: now and then a constant, which
        with the offset leads to where a page, the memory or the numbers without sign end."""
        if self.chance.random() < 0.6:
            return self.value(I32) + operands + bytes([code, 0]) + made.unsigned(self.offset())
        inside = [0, *(65536 * pages for pages in range(1, self.whole.pages + 1))]
        end = self.chance.choice(inside if self.chance.random() < 0.8
                                 else [65536 * (self.whole.pages + 1), 16777216, 2**32])
        address = (max(0, end + self.chance.randrange(-12, 9)) if self.chance.random() < 0.8
                   else self.chance.randrange(end + 1))
        address -= address % self.chance.choice([1, 1, 2, 4, 8])
        near = max(0, address - self.chance.randrange(9))
        offset = self.chance.choice([0, near, address, self.chance.randrange(20000), self.chance.choice(BOUNDS)])
        constant = (address - offset + 2**31) % 2**32 - 2**31
        return const(I32, constant) + self.aside() + operands + bytes([code, 0]) + made.unsigned(min(offset, 2**32 - 1))

    def aside(self):
        """Instructions behind an operand of 32 bits that leave it as it is."""
        kind, local = self.chance.randrange(8), self.local(I32)
        if kind == 0 and local is not None:
            return b"\x22" + made.unsigned(local)
        if kind == 1:
            of = self.whole.kind(self.chance)
            put = b"\x1a" if self.local(of) is None else made.put(self.local(of))
            return self.value(of) + put
        if kind == 2:
            return made.SIZE + b"\x1a\x01"
        return b""

    def inside(self, results, head, arms=1):
        """A block, a loop or an `if`, in which its label can be named; now and then it is left by a branch."""
        kind = bytes(results) or made.VOID
        self.labels.append([] if head == b"\x03" else results)
        codes = []
        for _ in range(arms):
            code = self.statements()
            if self.chance.random() < 0.2:
                codes.append(code + self.leave())
            else:
                codes.append(code + self.values(results))
        self.labels.pop()
        return head + kind + b"\x05".join(codes) + made.END

    def leave(self):
        """A way out of the sequence."""
        kind = self.chance.randrange(4)
        if kind == 0:
            return b"\0"
        if kind == 1:
            return self.values(self.results) + made.RETURN
        label = self.chance.randrange(len(self.labels))
        taken = self.labels[-1 - label]
        if kind == 2:
            return self.values(taken) + b"\x0c" + made.unsigned(label)
        same = [number for number in range(len(self.labels)) if self.labels[-1 - number] == taken]
        others = [self.chance.choice(same) for _ in range(self.chance.choice([0, 1, 5, 17, 18, 40]))]
        return self.values([*taken, I32]) + made.br_table(others, label)

    def call(self, results):
        """A call of a function with such results, by name or through the table, or None."""
        kinds = [kind for kind, (_, gives) in enumerate(self.whole.kinds) if gives == results]
        functions = [number for number, kind in enumerate(self.whole.functions) if kind in kinds]
        if self.chance.random() < 0.6 and functions:
            function = self.chance.choice(functions)
            return self.values(self.whole.kinds[self.whole.functions[function]][0]) + b"\x10" + made.unsigned(function)
        kind = self.chance.choice(kinds)
        return self.values([*self.whole.kinds[kind][0], I32]) + made.through_table(kind)

    def statement(self):
        self.left -= 1
        kind, of = self.chance.randrange(12), self.whole.kind(self.chance)
        if kind < 2 and self.local(of) is not None:
            return self.value(of) + made.put(self.local(of))
        if kind == 2:
            number = self.chance.randrange(len(GLOBALS))
            return self.value(GLOBALS[number][0]) + made.global_set(number)
        if kind < 6 and self.whole.pages is not None:
            value = self.value(of) if self.chance.random() < 0.5 else const(of, self.chance.randrange(-2**31, 2**31))
            return self.access(self.chance.choice(STORES[of]), value)
        if kind == 6:
            return self.inside([], b"\x02")
        if kind == 7:
            return self.inside([], b"\x03")
        if kind == 8:
            return self.value(I32) + self.inside([], b"\x04", self.chance.choice([1, 2]))
        if kind == 9:
            return self.call([])
        if kind == 10:
            label = self.chance.randrange(len(self.labels))
            taken = self.labels[-1 - label]
            return self.values([*taken, I32]) + b"\x0d" + made.unsigned(label) + b"\x1a" * len(taken)
        return self.value(of) + b"\x1a" if self.chance.random() < 0.5 else b"\x01"

    def value(self, of):
        """Instructions that leave one operand of this type."""
        self.left -= 1
        kind = self.chance.randrange(14) if self.left > 0 else self.chance.randrange(2)
        if kind == 1 and self.local(of) is not None:
            return made.get(self.local(of))
        if kind in (2, 3):
            operand, code = self.chance.choice(UNARY[of])
            return self.value(operand) + bytes([code])
        if kind in (4, 5, 6):
            operand, code = self.chance.choice(BINARY[of])
            return self.values([operand, operand]) + bytes([code])
        if kind in (7, 8) and self.whole.pages is not None:
            return self.access(self.chance.choice([WHOLE_LOAD[of], *LOADS[of]]), b"")
        if kind == 9:
            return self.values([of, of, I32]) + b"\x1b"
        if kind == 10:
            return self.call([of])
        if kind == 11:
            return (self.value(I32) + self.inside([of], b"\x04", 2) if self.chance.random() < 0.5
                    else self.inside([of], b"\x02"))
        if kind == 12 and self.local(of) is not None:
            return self.value(of) + b"\x22" + made.unsigned(self.local(of))
        if kind == 13:
            if of == I32 and self.whole.pages is not None:
                return made.SIZE
            return made.global_get(self.chance.choice([number for number, own in enumerate(GLOBALS) if own[0] == of]))
        bits = 31 if of == I32 else 63
        return const(of, self.chance.choice([0, 1, -1, 255, 65536, -2**bits, self.chance.randrange(-2**bits, 2**bits)]))


class Whole:
    """The module round such bodies: types, which of them each function has, and the pages of its memory, or None. Of
    some modules all numbers have 32 bits."""

    def __init__(self, seed):
        chance = random.Random(seed)
        self.long = chance.random() < 0.8
        counts = [0, 1, 2, 3] if chance.random() < 0.8 else [0, 1, 17, 18, 130, 192, 200]
        self.kinds = [([], []), ([], [I32]), ([], [I64])]
        for _ in range(3):
            params = [self.kind(chance) for _ in range(chance.choice(counts))]
            self.kinds.append((params, [self.kind(chance) for _ in range(chance.randrange(2))]))
        self.functions = [chance.randrange(len(self.kinds)) for _ in range(chance.randint(1, 5))]
        self.pages = chance.choice([None, 0, 1, 2])
        bodies = [Body(chance, self, number) for number in range(len(self.functions))]
        starts = [None, *(number for number, kind in enumerate(self.functions) if kind == 0)]
        contents = [bytes(chance.randrange(256) for _ in range(chance.randrange(30)))
                    for _ in range(3 if self.pages else 0)]
        datas = [made.data(chance.randrange(65500), content) for content in contents]
        exports = [(f"f{n}", n) for n in range(len(bodies))]
        self.bytes = made.module(
            [self.type(*kind) for kind in self.kinds], self.functions, exports, [self.body(body) for body in bodies], 8,
            [made.elements(1, [0] * chance.randrange(6))],
            [bytes([kind, 1]) + const(kind, value) + made.END for kind, value in GLOBALS],
            self.pages, datas, chance.choice(starts))

    def kind(self, chance):
        return chance.choice([I32, I64]) if self.long else I32

    @staticmethod
    def type(params, results):
        return (b"\x60" + made.vector([bytes([kind]) for kind in params])
                + made.vector([bytes([kind]) for kind in results]))

    @staticmethod
    def body(made_of):
        content = made.vector([b"\x01" + bytes([kind]) for kind in made_of.own]) + made_of.code() + made.END
        return made.unsigned(len(content)) + content


def differences(program, path):
    """The names of files that differ, or what is told where the module isn't compiled."""
    try:
        with open(path, "rb") as file:
            module = read_module(file.read())
    except (Unknown, IndexError) as error:
        raise Failed(f"{path} can't be worked out: {error}") from None
    with tempfile.TemporaryDirectory() as folder:
        ran = completed([*program, "compile", path, f"{folder}/pack", "wk"])
        if ran.returncode:
            return [ran.stderr.strip()]
        got = {}
        for name in os.listdir(f"{folder}/pack/data/wk/functions"):
            with open(f"{folder}/pack/data/wk/functions/{name}", encoding="utf-8") as file:
                got[name.partition(".")[0]] = file.read()
        with open(f"{folder}/pack/dpwasm.json", encoding="utf-8") as file:
            got["dpwasm.json"] = file.read()
    functions = pack_functions("wk", module)
    wanted = {name: "".join(line + "\n" for line in lines) for name, lines in functions}
    wanted["dpwasm.json"] = index_text("wk", module)
    heavy = {f"{name} of weight {most}" for name, most in most_of_pieces(functions).items() if most > MOST}
    return sorted({name for name in {*got, *wanted} if got.get(name) != wanted.get(name)} | heavy)


def main():
    asked = Words(__doc__)
    asked.add_program()
    asked.add_argument("--seeds", type=int, default=50)
    asked.add_argument("--first", type=int, default=0)
    asked.add_argument("files", nargs="*", metavar="FILE")
    args = asked.parse_args()
    absent = [path for path in args.files if not os.path.isfile(path)]
    if absent:
        asked.error(f"no such file: {' '.join(absent)}")
    sys.setrecursionlimit(100000)
    paths = list(args.files or sorted(glob.glob(f"{ROOT}/examples/*.wasm")))
    bad, count = 0, 0
    for seed in range(args.first, args.first + (0 if args.files else args.seeds)):
        path = f"{tempfile.gettempdir()}/random-{seed}.wasm"
        with open(path, "wb") as file:
            file.write(Whole(seed).bytes)
        paths.append(path)
    for path in paths:
        names = differences(args.program, path)
        count += 1
        if names:
            bad += 1
            print(f"{path}: {', '.join(names[:5])}{' ..' if len(names) > 5 else ''}")
        elif "/random-" in path:
            os.remove(path)
    print(f"{count - bad} of {count} packs are the same")
    return 1 if bad else 0


if __name__ == "__main__":
    sys.exit(ended(main))
