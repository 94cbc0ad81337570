#!/usr/bin/env python3
"""Writes the tables in `data` and `stdout` of this crate.

What each operation gives is worked out here by the formulas of the WebAssembly Core Specification 1.0 (4.3.2 and
4.3.4; the sign extensions by edition 2.0), on Python's whole numbers and on lists of bits. Nothing is taken from the
program that is tested.
"""
from fractions import Fraction
from math import trunc
from pathlib import Path


def signed(n, i):
    """signed_N(i), for 0 <= i < 2^N."""
    return i if i < 2 ** (n - 1) else i - 2**n


def unsigned(n, z):
    """The integer of which z is the signed reading."""
    return z if 0 <= z else z + 2**n


def bits(n, i):
    """The bits of i, the highest first."""
    return [i // 2**k % 2 for k in reversed(range(n))]


def number(ds):
    """The integer that has these bits."""
    return sum(d * 2**k for k, d in enumerate(reversed(ds)))


class Trap(Exception):
    pass


def idiv_u(n, i, j):
    if j == 0:
        raise Trap("DivideByZero")
    return trunc(Fraction(i, j))


def idiv_s(n, i, j):
    if signed(n, j) == 0:
        raise Trap("DivideByZero")
    quotient = Fraction(signed(n, i), signed(n, j))
    if quotient == 2 ** (n - 1):
        raise Trap("Overflow")
    return unsigned(n, trunc(quotient))


def irem_u(n, i, j):
    if j == 0:
        raise Trap("DivideByZero")
    return i - j * trunc(Fraction(i, j))


def irem_s(n, i, j):
    a, b = signed(n, i), signed(n, j)
    if b == 0:
        raise Trap("DivideByZero")
    return unsigned(n, a - b * trunc(Fraction(a, b)))


def bitwise(meet):
    return lambda n, i, j: number([meet(a, b) for a, b in zip(bits(n, i), bits(n, j))])


def ishl(n, i, j):
    k = j % n
    return number(bits(n, i)[k:] + [0] * k)


def ishr_u(n, i, j):
    k = j % n
    return number([0] * k + bits(n, i)[: n - k])


def ishr_s(n, i, j):
    k = j % n
    ds = bits(n, i)
    return number([ds[0]] * k + ds[: n - k])


def irotl(n, i, j):
    k = j % n
    ds = bits(n, i)
    return number(ds[k:] + ds[:k])


def irotr(n, i, j):
    k = j % n
    ds = bits(n, i)
    return number(ds[n - k :] + ds[: n - k])


def iclz(n, i):
    ds = bits(n, i)
    return ds.index(1) if 1 in ds else n


def ictz(n, i):
    ds = bits(n, i)[::-1]
    return ds.index(1) if 1 in ds else n


def extension(m):
    return lambda n, i: unsigned(n, signed(m, i % 2**m))


SUM = {
    "add": lambda n, i, j: (i + j) % 2**n,
    "sub": lambda n, i, j: (i - j + 2**n) % 2**n,
    "mul": lambda n, i, j: (i * j) % 2**n,
}
BITWISE = {
    "and": bitwise(lambda a, b: a * b),
    "or": bitwise(lambda a, b: max(a, b)),
    "xor": bitwise(lambda a, b: (a + b) % 2),
}
DIVISION = {"div_s": idiv_s, "div_u": idiv_u, "rem_s": irem_s, "rem_u": irem_u}
SHIFT = {"shl": ishl, "shr_s": ishr_s, "shr_u": ishr_u, "rotl": irotl, "rotr": irotr}
COMPARISON = {
    "eq": lambda n, i, j: i == j,
    "ne": lambda n, i, j: i != j,
    "lt_s": lambda n, i, j: signed(n, i) < signed(n, j),
    "lt_u": lambda n, i, j: i < j,
    "gt_s": lambda n, i, j: signed(n, i) > signed(n, j),
    "gt_u": lambda n, i, j: i > j,
    "le_s": lambda n, i, j: signed(n, i) <= signed(n, j),
    "le_u": lambda n, i, j: i <= j,
    "ge_s": lambda n, i, j: signed(n, i) >= signed(n, j),
    "ge_u": lambda n, i, j: i >= j,
}
UNARY = {
    "clz": iclz,
    "ctz": ictz,
    "popcnt": lambda n, i: sum(bits(n, i)),
    "extend8_s": extension(8),
    "extend16_s": extension(16),
    "extend32_s": extension(32),
}


def edges(n):
    """Integers of N bits at the edges of what the operations do."""
    low = [0, 1, 2, 0x7F, 0x80, 0xFF, 0x7FFF, 0x8000, 0xFFFF]
    middle = [0x7FFFFFFF, 0x80000000, 0xFFFFFFFF, 0x100000000] if n == 64 else []
    high = [2 ** (n - 1) - 1, 2 ** (n - 1), 2 ** (n - 1) + 1, 2**n - 2, 2**n - 1]
    patterns = [2**n // 3, 2**n // 3 * 2, 0x0123456789ABCDEF % 2**n]
    return low + middle + high + patterns


def pairs(firsts, seconds):
    return [(i, j) for i in firsts for j in seconds]


# Integers of 64 bits whose halves are all different words.
MIXED = [0x0123456789ABCDEF, 0xFEDCBA9876543210]


def few(n):
    """Operands of sums and comparisons. Those of 64 bits carry, and have halves of either sign."""
    ends = [0, 1, 2 ** (n - 1) - 1, 2 ** (n - 1), 2**n - 2, 2**n - 1]
    if n == 32:
        return ends + [2**n // 3]
    return ends + [2**31 - 1, 2**31, 2**32 - 1, 2**32, 2**64 - 2**32] + MIXED


def some(n):
    """Operands of what is done bit by bit, and of shifts."""
    if n == 32:
        return few(n)
    return [0, 1, 2**63 - 1, 2**63, 2**64 - 1, 2**64 // 3] + MIXED


def counts(n):
    """Counts of shifts, with some at or above N."""
    above = [2**32, 2**32 + 31] if n == 64 else []
    return [0, 1, 5, 31, 32, 33, 63, 64, 65] + above + [2 ** (n - 1) + 7, 2**n - 1]


def quotients(n):
    least = 2 ** (n - 1)
    dividends = [0, 1, 7, least - 1, least, least + 1, 2**n - 7, 2**n - 1]
    divisors = [0, 1, 2, 3, 10, least - 1, least, 2**n - 3, 2**n - 2, 2**n - 1]
    if n == 64:
        dividends += [2**32 - 1, 2**32, 2**62] + MIXED
        divisors += [2**15 - 1, 2**15, 2**16, 2**31, 2**32 - 1, 2**32, 2**32 + 1, 2**64 - 2**16, MIXED[0] // 2**16]
    return pairs(dividends, divisors)


def lines():
    """Each operation with its operands, and what it gives, as text."""
    for n in (32, 64):

        def line(name, op, *operands, at=n, to=n):
            words = [name] + [str(signed(at, i)) for i in operands]
            try:
                return " ".join(words), str(signed(to, int(op(*operands))))
            except Trap as trap:
                return " ".join(words), f"trap {trap}"

        for i in edges(n):
            yield line(f"i{n}.eqz", lambda i: i == 0, i, to=32)
            for name, op in UNARY.items():
                if name != "extend32_s" or n == 64:
                    yield line(f"i{n}.{name}", lambda i: op(n, i), i)
        for table, operands, to in (
            (COMPARISON, pairs(few(n), few(n)), 32),
            (SUM, pairs(few(n), few(n)), n),
            (BITWISE, pairs(some(n), some(n)), n),
            (DIVISION, quotients(n), n),
            (SHIFT, pairs(some(n)[1:], counts(n)), n),
        ):
            for name, op in table.items():
                # the product of two i64 isn't among the operations of the profile
                if (n, name) != (64, "mul"):
                    for i, j in operands:
                        yield line(f"i{n}.{name}", lambda i, j: op(n, i, j), i, j, to=to)
        if n == 32:
            for i in edges(32):
                yield line("i64.extend_i32_s", lambda i: unsigned(64, signed(32, i)), i, to=64)
                yield line("i64.extend_i32_u", lambda i: i, i, to=64)
        else:
            for i in edges(64):
                yield line("i32.wrap_i64", lambda i: i % 2**32, i, to=32)


# What the lines of an operation on i32 weigh, as docs/TARGET_CODE.md counts them: those of its own, and where its operands
# are read and its result is written: `core` in the result's place or in `#a`, `#b`, `scratch` always in `#a`, `#b`.
SCORES = 128
PLACES = [(0, 1, 0), (0, 1, 1), (0, 1, 2), (127, 128, 127), (128, 127, 129), (130, 127, 127), (130, 131, 132)]
ORDERS = {"eq": 4, "ne": 4} | {
    f"{order}_{sign}": weight for order in ("lt", "gt", "le", "ge") for sign, weight in (("s", 4), ("u", 7))
}
CORES = {"add": 1, "sub": 1, "mul": 1} | ORDERS
CORES_OF_ONE = {"eqz": 3, "clz": 26, "ctz": 36, "extend8_s": 4, "extend16_s": 4}
ON_SCRATCH = {
    "div_s": 4 + 4 + 8,
    "div_u": 4 + 7 + 2 + 15,
    "rem_s": 4 + 6,
    "rem_u": 4 + 5 + 2 + 14,
    "and": 38,
    "or": 41,
    "xor": 42,
    "shl": 8,
    "shr_s": 10,
    "shr_u": 14,
    "rotl": 18,
    "rotr": 18,
}
ON_SCRATCH_OF_ONE = {"popcnt": 32}


def moved(place):
    """The weight of a move between a place and a scratch score."""
    return 1 if place < SCORES else 2


def brought(a, r, is_taken):
    """The weight of bringing the first operand to where a core works, and of bringing the result back."""
    if r < SCORES and not is_taken:
        return 0 if a == r else moved(a)
    return moved(a) + moved(r)


def word_weight(name, a, b, r):
    if name in CORES:
        return brought(a, r, b == r) + (0 if b < SCORES else 2) + CORES[name]
    if name in CORES_OF_ONE:
        return brought(a, r, False) + CORES_OF_ONE[name]
    if name in ON_SCRATCH:
        return moved(a) + moved(b) + moved(r) + ON_SCRATCH[name]
    return moved(a) + moved(r) + ON_SCRATCH_OF_ONE[name]


# The same of the operations with an i64, each with its operands from a place on, two places for an i64, the low half
# first. A core works on the places that are scores, and on scratch scores in the stead of the others, which are fetched
# before and, where they are the result's, written after it: of the sums two, of the comparisons one. An extension works on
# the first place and sets the one behind it. Shifts and rotations move three places to scratch scores and two back: the
# count 3 and what it does by whole words, the look-up 8, and the rest of the count.
PAIRS = [0, 125, 126, 127, 128, 130]
CORES_OF_PAIRS = {"add": (8, 2), "sub": (8, 2), "eq": (4, 1), "ne": (4, 1)} | {
    f"{order}_{sign}": (weight, 1) for order in ("lt", "gt", "le", "ge") for sign, weight in (("s", 9), ("u", 13))
}
TURNED = {
    "shl": 3 + 4 + 8 + 9,
    "shr_s": 3 + 6 + 8 + 14,
    "shr_u": 3 + 4 + 8 + 16,
    "rotl": 3 + 5 + 8 + 16,
    "rotr": 2 + 3 + 5 + 8 + 16,
}


def fetched(place):
    """The weight of a move from a place to where a core works, or back."""
    return 0 if place < SCORES else 2


def sign_behind(place):
    return fetched(place) + 1 + 2


def zeros_weight(name, place):
    """The half that decides is chosen, its zeros are counted, and where there are 32 the first half's come to them."""
    chosen = 2 * (moved(place) + moved(place + 1)) + 2
    added = 2 * moved(place) + moved(place + 1) + 2 + 1
    return chosen + word_weight(name, place, place, place) + added


def pair_weight(name, a):
    """Of an operation on i64 that is no division."""
    places = [a, a + 1, a + 2, a + 3]
    if name in CORES_OF_PAIRS:
        core, results = CORES_OF_PAIRS[name]
        return sum(map(fetched, places)) + core + sum(map(fetched, places[:results]))
    if name == "eqz":
        return fetched(a) + fetched(a + 1) + 5 + fetched(a)
    if name in ("extend8_s", "extend16_s"):
        return word_weight(name, a, a, a) + sign_behind(a)
    if name == "extend32_s":
        return sign_behind(a)
    if name in ("and", "or", "xor"):
        return word_weight(name, a, a + 2, a) + word_weight(name, a + 1, a + 3, a + 1)
    if name in ("clz", "ctz"):
        return zeros_weight(name, a)
    if name == "popcnt":
        ones = word_weight(name, a, a, a) + word_weight(name, a + 1, a + 1, a + 1)
        return ones + moved(a) + moved(a + 1) + 1 + moved(a) + 1
    return sum(map(moved, places[:3])) + TURNED[name] + sum(map(moved, places[:2]))


# A division of i64 goes in three functions. The beginning moves the operands to scratch scores and tests for traps (4, and
# 9 more for the quotient with a sign). It tells the result's sign and takes those of the operands away (a test 2 each, and
# 5 where one is there), and gets the turns ready (8). A divisor below 2^15 divides at once (a test 2, and 32), and else a
# dividend below 2^32 has half the turns (2, and 3). A run of the turns makes eight of them (24 and a test 2 each, and 5
# where the quotient's bit is 1), and counts itself. The end gives the result its sign (2, and 5) and moves it to its places.
TRAPS = {"div_s": 4 + 5 + 4, "rem_s": 4, "div_u": 4, "rem_u": 4}
SIGNS = {"div_s": 5, "rem_s": 3}


def begin_weight(name, place, negatives, is_small, is_short):
    """Of a beginning that comes to its end, with so many negative operands."""
    operands = sum(moved(place + k) for k in range(4))
    signs = SIGNS[name] + 2 * 2 + 5 * negatives if name in SIGNS else 0
    return operands + TRAPS[name] + signs + 8 + 2 + 32 * is_small + 2 + 3 * is_short


def turns_weight(bits_set):
    return 8 * (22 + 2) + 5 * bits_set + 1


def end_weight(name, place, is_negated):
    signs = {"div_s": 2 + 5 * is_negated, "rem_s": 2 + 2 + 5 * is_negated}
    return signs.get(name, 0) + moved(place) + moved(place + 1)


def division_used(name, place, i, j):
    """What the beginning weighs, each run of the turns, and the end where there is one."""
    operands = sum(moved(place + k) for k in range(4))
    if j == 0:
        return operands + 4, [], []
    if name == "div_s" and (i, j) == (2**63, 2**64 - 1):
        return operands + TRAPS[name], [], []
    signs = [signed(64, z) < 0 for z in (i, j)] if name in SIGNS else [False, False]
    a, b = (2**64 - z if is_negative else z for z, is_negative in zip((i, j), signs))
    is_small = b < 2**15
    is_short = not is_small and a < 2**32
    quotient = bits(64, a // b)[32 if is_short else 0 :]
    runs = [] if is_small else [turns_weight(sum(quotient[k : k + 8])) for k in range(0, len(quotient), 8)]
    is_negated = signs[0] != signs[1] if name == "div_s" else signs[0]
    return begin_weight(name, place, sum(signs), is_small, is_short), runs, [end_weight(name, place, is_negated)]


def division_weights(name, place):
    """Of the three functions what was used at most, and what their blocks say."""
    used = [division_used(name, place, i, j) for i, j in quotients(64)]
    begin = max(begin for begin, _, _ in used)
    turns = max(weight for _, runs, _ in used for weight in runs)
    end = max(weight for _, _, ends in used for weight in ends)
    most = begin_weight(name, place, 2, True, True), turns_weight(8), end_weight(name, place, True)
    return f" {begin}/{most[0]},{turns}/{most[1]},{end}/{most[2]}"


def told_weights(name):
    """What was used at most and what the block says, which is the same, of an operation at each of its places."""
    kind, op = name.split(".")
    if name == "i32.wrap_i64":
        told = [0 for _ in PAIRS]
    elif name == "i64.extend_i32_u":
        told = [1 for _ in PAIRS]
    elif name == "i64.extend_i32_s":
        told = [sign_behind(place) for place in PAIRS]
    elif kind == "i32":
        told = [word_weight(op, *places) for places in PLACES]
    elif op in DIVISION:
        return "".join(division_weights(op, place) for place in PAIRS)
    else:
        told = [pair_weight(op, place) for place in PAIRS]
    return "".join(f" {weight}/{weight}" for weight in told)


TESTED = ["eqz", "eq", "ne"] + [f"{order}_{sign}" for order in ("lt", "gt", "le", "ge") for sign in ("s", "u")]
COUNTED = ["clz", "ctz", "popcnt", "add", "sub"]
MADE = ["div_s", "div_u", "rem_s", "rem_u", "and", "or", "xor", "shl", "shr_s", "shr_u", "rotl", "rotr"]
NAMES = (
    [f"i{n}.{name}" for n in (32, 64) for name in TESTED]
    + [f"i32.{name}" for name in COUNTED + ["mul"] + MADE]
    + [f"i64.{name}" for name in COUNTED + MADE]
    + ["i32.wrap_i64", "i64.extend_i32_s", "i64.extend_i32_u", "i32.extend8_s", "i32.extend16_s"]
    + [f"i64.extend{m}_s" for m in (8, 16, 32)]
)


def weights():
    """A line for each operation, in the order of the program's table."""
    for name in NAMES:
        yield f"{name} weighs{told_weights(name)}\n"


# The exact lines of some blocks under the namespace `x`, with their helpers, as docs/TARGET_CODE.md has them.
BLOCKS = {
    "i32.add 0 1 0": ["scoreboard players operation #0 x += #1 x"],
    "i32.add 127 128 127": [
        "execute store result score #b x run data get storage x:c t.f[0]",
        "scoreboard players operation #127 x += #b x",
    ],
    "i32.sub 130 131 132": [
        "execute store result score #a x run data get storage x:c t.f[2]",
        "execute store result score #b x run data get storage x:c t.f[3]",
        "scoreboard players operation #a x -= #b x",
        "execute store result storage x:c t.f[4] int 1 run scoreboard players get #a x",
    ],
    "i32.mul 0 1 2": [
        "scoreboard players operation #2 x = #0 x",
        "scoreboard players operation #2 x *= #1 x",
    ],
    "i32.eqz 0 0 0": [
        "execute unless score #0 x matches 0 run scoreboard players set #0 x -1",
        "scoreboard players add #0 x 1",
    ],
    "i32.lt_s 0 1 0": [
        "scoreboard players set #c x 0",
        "execute if score #0 x < #1 x run scoreboard players set #c x 1",
        "scoreboard players operation #0 x = #c x",
    ],
    "i32.ge_u 0 1 0": [
        "scoreboard players set #d x -2147483648",
        "scoreboard players operation #0 x += #d x",
        "scoreboard players operation #d x += #1 x",
        "scoreboard players set #c x 0",
        "execute if score #0 x >= #d x run scoreboard players set #c x 1",
        "scoreboard players operation #0 x = #c x",
    ],
    "i32.rem_s 0 1 0": [
        "scoreboard players operation #a x = #0 x",
        "scoreboard players operation #b x = #1 x",
        "execute if score #b x matches 0 run scoreboard players set #t x 2",
        "execute if score #b x matches 0 run return 0",
        "scoreboard players operation #c x = #a x",
        "scoreboard players operation #c x %= #b x",
        "execute if score #a x matches ..-1 if score #c x matches 1.. run scoreboard players operation #c x -= #b x",
        "execute if score #a x matches 0.. if score #c x matches ..-1 run scoreboard players operation #c x -= #b x",
        "scoreboard players operation #0 x = #c x",
    ],
    "i32.div_u 0 1 1": [
        "scoreboard players operation #a x = #0 x",
        "scoreboard players operation #b x = #1 x",
        "execute if score #b x matches 0 run scoreboard players set #t x 2",
        "execute if score #b x matches 0 run return 0",
        "scoreboard players set #d x 0",
        "execute if score #a x matches ..-1 if score #a x >= #b x run scoreboard players set #d x 1",
        "execute if score #b x matches 0.. if score #a x matches 0.. run scoreboard players operation #d x = #a x",
        "execute if score #b x matches 0.. if score #a x matches 0.. run scoreboard players operation #d x /= #b x",
        "execute if score #b x matches 0.. if score #a x matches ..-1 run function x:h_cc_i32_div_high",
        "scoreboard players operation #1 x = #d x",
        "helper h_cc_i32_div_high",
        "scoreboard players operation #c x = #a x",
        "scoreboard players set #d x 2",
        "scoreboard players operation #c x /= #d x",
        "scoreboard players set #d x -2147483648",
        "scoreboard players operation #c x -= #d x",
        "scoreboard players operation #c x /= #b x",
        "scoreboard players operation #c x += #c x",
        "scoreboard players operation #d x = #c x",
        "scoreboard players operation #d x *= #b x",
        "scoreboard players operation #a x -= #d x",
        "execute if score #a x matches ..-1 run scoreboard players add #c x 1",
        "execute if score #a x >= #b x run scoreboard players add #c x 1",
        "scoreboard players operation #d x = #c x",
    ],
    "i32.extend8_s 0 0 1": [
        "scoreboard players operation #1 x = #0 x",
        "scoreboard players set #m x 256",
        "scoreboard players operation #1 x %= #m x",
        "execute if score #1 x matches 128.. run scoreboard players operation #1 x -= #m x",
    ],
    "i32.shl 0 1 0": [
        "scoreboard players operation #a x = #0 x",
        "scoreboard players operation #b x = #1 x",
        "scoreboard players operation #b x %= #e5 x",
        "data modify storage x:c v set value {}",
        "execute store result storage x:c v.k int 1 run scoreboard players get #b x",
        "function x:h_cc_bits_shl with storage x:c v",
        "scoreboard players operation #a x *= #p x",
        "scoreboard players operation #0 x = #a x",
        "helper h_cc_bits_shl",
        "$execute store result score #p x run data get storage x:c shl[$(k)]",
    ],
    "i32.shr_s 128 129 128": [
        "execute store result score #a x run data get storage x:c t.f[0]",
        "execute store result score #b x run data get storage x:c t.f[1]",
        "scoreboard players operation #b x %= #e5 x",
        "data modify storage x:c v set value {}",
        "execute store result storage x:c v.k int 1 run scoreboard players get #b x",
        "function x:h_cc_bits_shr_s with storage x:c v",
        "scoreboard players operation #a x /= #p x",
        "execute if score #b x matches 31 run scoreboard players operation #a x /= #e1 x",
        "execute store result storage x:c t.f[0] int 1 run scoreboard players get #a x",
        "helper h_cc_bits_shr_s",
        "$execute store result score #p x run data get storage x:c shrs[$(k)]",
    ],
    "i64.add 126": [
        "execute store result score #c x run data get storage x:c t.f[0]",
        "execute store result score #d x run data get storage x:c t.f[1]",
        "scoreboard players operation #126 x += #c x",
        "scoreboard players operation #127 x += #d x",
        "scoreboard players set #e x -2147483648",
        "scoreboard players operation #f x = #c x",
        "scoreboard players operation #f x += #e x",
        "scoreboard players operation #e x += #126 x",
        "execute if score #e x < #f x run scoreboard players add #127 x 1",
    ],
    "i64.eqz 0": [
        "execute unless score #0 x matches 0 run scoreboard players set #0 x -1",
        "execute unless score #1 x matches 0 run scoreboard players set #0 x -1",
        "scoreboard players add #0 x 1",
    ],
    "i64.ge_u 0": [
        "scoreboard players set #e x -2147483648",
        "scoreboard players operation #g x = #1 x",
        "scoreboard players operation #g x += #e x",
        "scoreboard players operation #h x = #3 x",
        "scoreboard players operation #h x += #e x",
        "scoreboard players operation #0 x += #e x",
        "scoreboard players operation #e x += #2 x",
        "scoreboard players set #f x 0",
        "execute if score #g x > #h x run scoreboard players set #f x 1",
        "execute if score #1 x = #3 x if score #0 x >= #e x run scoreboard players set #f x 1",
        "scoreboard players operation #0 x = #f x",
    ],
    "i64.extend_i32_s 127": [
        "data modify storage x:c t.f[0] set value 0",
        "execute if score #127 x matches ..-1 run data modify storage x:c t.f[0] set value -1",
    ],
    "i64.shl 0": [
        "scoreboard players operation #a x = #0 x",
        "scoreboard players operation #b x = #1 x",
        "scoreboard players operation #k x = #2 x",
        "scoreboard players set #m x 64",
        "scoreboard players operation #k x %= #m x",
        "execute if score #k x matches 32.. run scoreboard players operation #b x = #a x",
        "execute if score #k x matches 32.. run scoreboard players set #a x 0",
        "scoreboard players operation #k x %= #e5 x",
        "data modify storage x:c v set value {}",
        "execute store result storage x:c v.k int 1 run scoreboard players get #k x",
        "function x:h_cc_bits64_left with storage x:c v",
        "scoreboard players operation #c x = #a x",
        "scoreboard players operation #c x /= #e1 x",
        "execute if score #c x matches ..-1 run scoreboard players operation #c x -= #e31 x",
        "scoreboard players operation #c x /= #q x",
        "scoreboard players operation #a x *= #p x",
        "scoreboard players operation #b x *= #p x",
        "execute if score #k x matches 1.. run scoreboard players operation #b x += #c x",
        "scoreboard players operation #0 x = #a x",
        "scoreboard players operation #1 x = #b x",
        "helper h_cc_bits64_left",
        "$execute store result score #p x run data get storage x:c rotl[$(k)][0]",
        "$execute store result score #q x run data get storage x:c rotl[$(k)][1]",
    ],
    "i64.div_u 0": [
        "scoreboard players operation #d x = #0 x",
        "scoreboard players operation #e x = #1 x",
        "scoreboard players operation #m x = #2 x",
        "scoreboard players operation #n x = #3 x",
        "execute if score #m x matches 0 if score #n x matches 0 run scoreboard players set #t x 2",
        "execute if score #m x matches 0 if score #n x matches 0 run return 0",
        "scoreboard players set #k x -2147483648",
        "scoreboard players operation #u x = #m x",
        "scoreboard players operation #u x += #k x",
        "scoreboard players operation #v x = #n x",
        "scoreboard players operation #v x += #k x",
        "scoreboard players set #p x 0",
        "scoreboard players set #r x 0",
        "scoreboard players set #g x 8",
        "execute if score #n x matches 0 if score #m x matches 1..32767 run function x:h_cc_div_small",
        "execute if score #g x matches 8 if score #e x matches 0 run function x:h_cc_div_short",
        "turns",
        "function x:h_cc_div_turn",
        "function x:h_cc_div_turn",
        "function x:h_cc_div_turn",
        "function x:h_cc_div_turn",
        "function x:h_cc_div_turn",
        "function x:h_cc_div_turn",
        "function x:h_cc_div_turn",
        "function x:h_cc_div_turn",
        "scoreboard players remove #g x 1",
        "end",
        "scoreboard players operation #0 x = #d x",
        "scoreboard players operation #1 x = #e x",
        "helper h_cc_div_small",
        "scoreboard players set #g x 0",
        "scoreboard players set #h x 65536",
        "scoreboard players operation #c x = #e x",
        "scoreboard players operation #c x /= #h x",
        "scoreboard players operation #c x %= #h x",
        "scoreboard players operation #p x = #c x",
        "scoreboard players operation #p x %= #m x",
        "scoreboard players operation #c x /= #m x",
        "scoreboard players operation #c x *= #h x",
        "scoreboard players operation #e x %= #h x",
        "scoreboard players operation #p x *= #h x",
        "scoreboard players operation #e x += #p x",
        "scoreboard players operation #p x = #e x",
        "scoreboard players operation #p x %= #m x",
        "scoreboard players operation #e x /= #m x",
        "scoreboard players operation #e x += #c x",
        "scoreboard players operation #c x = #d x",
        "scoreboard players operation #c x /= #h x",
        "scoreboard players operation #c x %= #h x",
        "scoreboard players operation #p x *= #h x",
        "scoreboard players operation #c x += #p x",
        "scoreboard players operation #p x = #c x",
        "scoreboard players operation #p x %= #m x",
        "scoreboard players operation #c x /= #m x",
        "scoreboard players operation #c x *= #h x",
        "scoreboard players operation #d x %= #h x",
        "scoreboard players operation #p x *= #h x",
        "scoreboard players operation #d x += #p x",
        "scoreboard players operation #p x = #d x",
        "scoreboard players operation #p x %= #m x",
        "scoreboard players operation #d x /= #m x",
        "scoreboard players operation #d x += #c x",
        "helper h_cc_div_short",
        "scoreboard players set #g x 4",
        "scoreboard players operation #e x = #d x",
        "scoreboard players set #d x 0",
        "helper h_cc_div_turn",
        "scoreboard players set #c x 0",
        "execute if score #r x matches ..-1 run scoreboard players set #c x 1",
        "scoreboard players operation #r x += #r x",
        "execute if score #p x matches ..-1 run scoreboard players add #r x 1",
        "scoreboard players operation #p x += #p x",
        "execute if score #e x matches ..-1 run scoreboard players add #p x 1",
        "scoreboard players operation #e x += #e x",
        "execute if score #d x matches ..-1 run scoreboard players add #e x 1",
        "scoreboard players operation #d x += #d x",
        "scoreboard players operation #x x = #p x",
        "scoreboard players operation #x x += #k x",
        "scoreboard players operation #y x = #r x",
        "scoreboard players operation #y x += #k x",
        "execute if score #y x > #v x run scoreboard players set #c x 1",
        "execute if score #y x = #v x if score #x x >= #u x run scoreboard players set #c x 1",
        "execute if score #c x matches 1 run function x:h_cc_div_take",
        "helper h_cc_div_take",
        "execute if score #x x < #u x run scoreboard players remove #r x 1",
        "scoreboard players operation #p x -= #m x",
        "scoreboard players operation #r x -= #n x",
        "scoreboard players add #d x 1",
    ],
}


def blocks():
    """A block's name and places, and its lines; the name of a function or helper stands between those before and its own."""
    for named, lines in BLOCKS.items():
        yield f"block {named}\n"
        for line in lines:
            yield ("  " if line.startswith("helper ") or " " not in line else "    ") + line + "\n"


# Chains of a function `a` that calls `b` with what stands in a storage; `b` has the one line
# `$scoreboard players set #a o $(v)`. Of each: its quota and what stands there, and what it leaves. A `new` engine has
# run nothing. A filled line is kept when the call fills it, also where it weighs more than is left.
CHAINS = [
    ("new", None),
    ("10 {v:5}", "used 2, cut false, #a 5, kept 1, hits 0"),
    ("new", None),
    ("10 {w:5}", "used 1, cut false, #a unset, kept 0, hits 0"),
    ("new", None),
    ("1 {v:5}", "used 1, cut true, #a unset, kept 1, hits 0"),
    ("10 {v:5}", "used 2, cut false, #a 5, kept 1, hits 1"),
    ("new", None),
    ("10 {v:5}", "used 2, cut false, #a 5, kept 1, hits 0"),
    ("10 {v:5}", "used 2, cut false, #a 5, kept 1, hits 1"),
    ("10 {v:6}", "used 2, cut false, #a 6, kept 2, hits 1"),
    ("10 {v:5}", "used 2, cut false, #a 5, kept 2, hits 2"),
]


def chains():
    for words, leaves in CHAINS:
        yield f"{words}\n" if leaves is None else f"chain {words} = {leaves}\n"


def main():
    here = Path(__file__).parent
    table = list(lines())
    (here / "data").mkdir(exist_ok=True)
    (here / "data" / "operations.txt").write_text("".join(f"{words}\n" for words, _ in table))
    answers = "".join(f"{words} = {gives}\n" for words, gives in table)
    ended = f"{len(table)} operations\n"
    (here / "stdout").write_text(answers + ended + "".join(weights()) + "".join(blocks()) + "".join(chains()))
    (here / "data" / "blocks.txt").write_text("".join(f"{named}\n" for named in BLOCKS))
    (here / "data" / "chains.txt").write_text("".join(f"{words}\n" for words, _ in CHAINS))


main()
