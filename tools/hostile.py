#!/usr/bin/env python3
"""Runs calls of modules that go to the limits, and compares what they answer.

  tools/hostile.py [--program PATH] [NAME ..]

The modules are made here, byte by byte; ANSWERS says what their calls answer, as another engine worked it out, or
Python's own numbers where these are of 64 bits, but for the limit of 1,024 frames, which is this compiler's, and what
bytes of memory are then. Each call is played under a small tick, large ticks and a reload. For each module the number
of files of its pack and the seconds are told. The program is ./dpwasm of the repository, or that of --program. The
status is 1 where an answer differs.
"""
import os
import sys
import tempfile
import time

sys.dont_write_bytecode = True

from commands import Words, completed, ended

I32, VOID = b"\x7f", b"\x40"
END, RETURN, ADD, MUL, EQZ, SUB = b"\x0b", b"\x0f", b"\x6a", b"\x6c", b"\x45", b"\x6b"
SIZE = b"\x3f\0"
LOADS = {"load": 0x28, "load8_s": 0x2C, "load8_u": 0x2D, "load16_s": 0x2E, "load16_u": 0x2F}
STORES = {"store": 0x36, "store8": 0x3A, "store16": 0x3B}
PAGE, LONGEST = 65536, 1048576
MOST_SECONDS = 3600


def unsigned(value):
    out = b""
    while True:
        value, low = value >> 7, value & 127
        out += bytes([low | (128 if value else 0)])
        if not value:
            return out


def signed(value):
    out = b""
    while True:
        low, value = value & 127, value >> 7
        done = value == (-1 if low & 64 else 0)
        out += bytes([low | (0 if done else 128)])
        if done:
            return out


def const(value):
    return b"\x41" + signed(value)


def get(local):
    return b"\x20" + unsigned(local)


def put(local):
    return b"\x21" + unsigned(local)


def global_get(index):
    return b"\x23" + unsigned(index)


def global_set(index):
    return b"\x24" + unsigned(index)


def through_table(kind):
    return b"\x11" + unsigned(kind) + b"\0"


def access(name, offset=0):
    return bytes([LOADS.get(name) or STORES[name], 0]) + unsigned(offset)


def repeated(local, code):
    """The code as long as the local, which is one less behind it, isn't 0 then."""
    return b"\x03" + VOID + code + get(local) + const(1) + SUB + b"\x22" + unsigned(local) + b"\x0d\0" + END


def br_table(labels, last):
    return b"\x0e" + unsigned(len(labels)) + b"".join(map(unsigned, labels)) + unsigned(last)


def vector(parts):
    return unsigned(len(parts)) + b"".join(parts)


def section(kind, content):
    return bytes([kind]) + unsigned(len(content)) + content


def function_type(params, results):
    return b"\x60" + vector([I32] * params) + vector([I32] * results)


def elements(offset, functions):
    return b"\0" + const(offset) + END + vector([unsigned(f) for f in functions])


def data(offset, content):
    return b"\0" + const(offset) + END + unsigned(len(content)) + content


def body(locals_, code):
    groups = [unsigned(locals_) + I32] if locals_ else []
    content = vector(groups) + code + END
    return unsigned(len(content)) + content


def module(types, kinds, exports, bodies, table=0, segments=(), values=(), pages=None, datas=(), start=None):
    """Types; the type of each function; functions by the names under which they are exported; bodies; a table; globals;
    a memory; the start function."""
    out = b"\0asm\1\0\0\0" + section(1, vector(types)) + section(3, vector([unsigned(k) for k in kinds]))
    if table:
        out += section(4, vector([b"\x70\0" + unsigned(table)]))
    if pages is not None:
        out += section(5, vector([b"\0" + unsigned(pages)]))
    if values:
        out += section(6, vector([value if isinstance(value, bytes) else I32 + b"\1" + const(value) + END
                                  for value in values]))
    out += section(7, vector([unsigned(len(name)) + name.encode() + b"\0" + unsigned(f) for name, f in exports]))
    if start is not None:
        out += section(8, unsigned(start))
    if segments:
        out += section(9, vector(list(segments)))
    out += section(10, vector(bodies))
    return out + (section(11, vector(list(datas))) if datas else b"")


# The modules

def labels():
    """A br_table of 4,096 labels to 1,000 blocks."""
    blocks = 1000
    code = (b"\x02" + VOID) * (blocks + 1) + get(0) + br_table([k * 37 % blocks for k in range(4096)], blocks)
    code += b"".join(END + const(3 * k + 1) + RETURN for k in range(blocks)) + END + const(-1)
    return module([function_type(1, 1)], [0], [("f", 0)], [body(0, code)])


def heights():
    """A br_table of 4,096 labels to 1,000 blocks, each over one operand more; what is under the blocks that are left is
    added up."""
    blocks = 1000
    code = b"".join(const(k) + b"\x02" + VOID for k in range(blocks))
    code += get(0) + br_table([k * 37 % blocks for k in range(4096)], blocks - 1)
    return module([function_type(1, 1)], [0], [("f", 0)],
                  [body(1, code + (END + get(1) + ADD + put(1)) * blocks + get(1))])


def values():
    """A br_table of 4,096 labels that takes a value along, out of 60 blocks with five operands under each."""
    blocks = 60
    code = b"".join(b"".join(const(5 * k + j) for j in range(5)) + b"\x02" + I32 for k in range(blocks))
    code += const(1000) + get(0) + br_table([k * 7 % (blocks + 1) for k in range(4096)], blocks - 1)
    return module([function_type(1, 1)], [0], [("f", 0)], [body(0, code + (END + ADD * 5) * blocks)])


def table():
    """A table of 16,384 elements, of which some are empty, some of another type, and some written twice."""
    bodies = [body(0, get(0) + const(1) + ADD), body(0, get(0) + const(2) + MUL), body(0, const(7)),
              body(0, get(1) + get(0) + through_table(0)), body(0, get(0) + through_table(1))]
    segments = [elements(0, [0, 1, 2] * 3000), elements(16381, [2, 1, 0]), elements(5, [1, 1])]
    types = [function_type(1, 1), function_type(0, 1), function_type(2, 1)]
    return module(types, [0, 0, 1, 2, 0], [("f", 3), ("g", 4)], bodies, 16384, segments)


def deep():
    """A function that calls itself through the table, with 201 locals and 30 operands at the call."""
    code = get(0) + EQZ + b"\x04" + VOID + const(5) + RETURN + END
    code += b"".join(get(0) + const(k) + MUL + put(k) for k in range(1, 201, 7))
    code += b"".join(get(0) + const(k) + ADD for k in range(30))
    code += get(0) + const(1) + SUB + const(1) + through_table(0) + ADD * 30
    code += b"".join(get(k) + ADD for k in range(1, 201, 7))
    return module([function_type(1, 1)], [0], [("r", 0)], [body(200, code)], 3, [elements(1, [0])])


def wide():
    """Frames of 1,024 and 1,001 locals, and a call through the table over 900 operands and 17 arguments."""
    code = get(0) + b"".join(get(k) + const(k + 1) + MUL + ADD for k in range(1, 17)) + get(1000) + ADD
    outer = get(0) + put(500) + get(0) + const(9) + ADD + put(1000) + b"".join(map(const, range(900)))
    outer += b"".join(get(0) + const(k) + ADD for k in range(17)) + const(0) + through_table(0) + ADD * 900
    outer += get(500) + ADD + get(1000) + ADD
    types = [function_type(17, 1), function_type(1, 1)]
    return module(types, [0, 1], [("f", 1)], [body(1007, code), body(1000, outer)], 2, [elements(0, [0])])


def many():
    """Calls of up to 1,024 arguments, by name and through the table, over operands that are scores, list places, or
    both."""
    counts = [18, 129, 304, 305, 608, 609, 912, 913, 1022, 1023, 1024]
    named = [(18, 0), (18, 127), (129, 1), (304, 128), (305, 0), (608, 200), (609, 10), (912, 100), (913, 111),
             (1023, 1), (1024, 0)]
    looked_up = [(18, 110), (305, 5), (1022, 1), (1023, 0)]
    bodies = []
    for n in counts:
        others = min(5, 1024 - n)
        terms = b"".join(get(k) + const(k + 1) + MUL + ADD for k in range(1, n))
        bodies.append(body(others, get(0) + terms + b"".join(get(n + k) + ADD for k in range(others))))
    exports = []
    for table_, calls in ((False, named), (True, looked_up)):
        for n, under in calls:
            code = b"".join(const(3 * k + 1) for k in range(under))
            # no instruction stands over more than 1,024 operands
            code += b"".join(get(0) + (const(k * k % 1009) + ADD if under + k + 2 <= 1024 else b"") for k in range(n))
            which = counts.index(n)
            code += const(which) + through_table(which + 1) if table_ else b"\x10" + unsigned(which)
            exports.append((f"{'t' if table_ else 'f'}{n}_{under}", len(bodies)))
            bodies.append(body(0, code + ADD * under))
    types = [function_type(1, 1)] + [function_type(n, 1) for n in counts]
    kinds = list(range(1, len(counts) + 1)) + [0] * len(exports)
    return module(types, kinds, exports, bodies, len(counts), [elements(0, range(len(counts)))])


def turns():
    """A function of 20 parameters that calls itself with its arguments turned, over 9 operands."""
    code = (get(0) + EQZ + b"\x04" + VOID + get(1)
            + b"".join(get(k) + const(k) + MUL + ADD for k in range(2, 20)) + RETURN + END)
    code += b"".join(get(k) + get(0) + MUL for k in range(1, 10)) + get(0) + const(1) + SUB
    code += b"".join(get(k) for k in range(2, 20)) + get(1) + get(0) + ADD + b"\x10" + unsigned(0) + ADD * 9
    start = get(0) + b"".join(const(k * k) for k in range(1, 20)) + b"\x10" + unsigned(0)
    return module([function_type(20, 1), function_type(1, 1)], [0, 1], [("r", 1)], [body(0, code), body(0, start)])


def state():
    """4,096 globals, of which every 16th is read and written by a call, and all are added up by another one."""
    change = b"".join(global_get(k) + get(0) + ADD + global_set(k) for k in range(0, 4096, 16)) + get(0)
    total = const(0) + b"".join(global_get(k) + ADD for k in range(4096))
    types = [function_type(1, 1), function_type(0, 1)]
    values = [k * k * 5 - 70000 for k in range(4096)]
    return module(types, [0, 1], [("add", 0), ("sum", 1)], [body(0, change), body(0, total)], values=values)


def place_in(page):
    return page * PAGE + page * 1021 % 65000


def pages():
    """A memory of 256 pages with a segment in each, and one over the end of each but the last."""
    datas = [data(place_in(page), bytes((page * 7 + k * 31) % 256 for k in range(9))) for page in range(256)]
    datas += [data(page * PAGE + 65534, bytes([page, 255 - page, page ^ 85, 2 * page % 256])) for page in range(255)]
    datas.append(data(256 * PAGE - 2, b"\x12\x34"))
    at = get(0) + const(PAGE) + MUL + get(0) + const(1021) + MUL + const(65000) + b"\x70" + ADD
    total = get(0) + b"\x04" + VOID + repeated(0, get(1) + at + access("load", 1) + ADD + put(1)) + END + get(1)
    ends = repeated(0, get(1) + get(0) + const(PAGE) + MUL + const(2) + SUB + access("load") + ADD + put(1)) + get(1)
    change = repeated(0, get(0) + const(PAGE) + MUL + get(1) + get(0) + ADD + access("store", 65533)) + SIZE
    types = [function_type(1, 1), function_type(2, 1), function_type(0, 1)]
    exports = [("sum", 0), ("ends", 1), ("put", 2), ("at", 3), ("size", 4)]
    bodies = [body(1, total), body(1, ends), body(0, change), body(0, get(0) + access("load")), body(0, SIZE)]
    return module(types, [0, 0, 1, 0, 2], exports, bodies, pages=256, datas=datas)


def segment():
    """A module of as many bytes as one may have, all but a few of them one segment, at an odd address."""
    total = repeated(0, get(1) + get(0) + const(1009) + MUL + access("load8_u", 2) + ADD + put(1)) + get(1)
    bodies = [body(1, total), body(0, get(0) + access("load"))]

    def made(length):
        content = bytes((k * k // 7 + k // 251) % 256 for k in range(length))
        return module([function_type(1, 1)], [0, 0], [("sum", 0), ("at", 1)], bodies, pages=17,
                      datas=[data(1, content)])

    return made(LONGEST - 4096 - (len(made(LONGEST - 4096)) - LONGEST))


OFFSETS = [0, 1, 8191, 8192, 8193, 65535, 16777215, 16777216, 4294967295]


def offsets():
    """Loads and stores of all widths at offsets up to the greatest one."""
    exports, bodies, kinds = [], [], []
    for offset in OFFSETS:
        for name in [*LOADS, *STORES]:
            exports.append((f"{name}_{offset}", len(bodies)))
            kinds.append(0 if name in LOADS else 1)
            bodies.append(body(0, get(0) + (b"" if name in LOADS else get(1)) + access(name, offset)))
    content = bytes((k * 37 + 129) % 256 for k in range(16384))
    datas = [data(0, content), data(2 * PAGE - 8192, content)]
    return module([function_type(1, 1), function_type(2, 0)], kinds, exports, bodies, pages=3, datas=datas)


def near():
    """Ten loads at each offset from 0 to 8,192, all in one body of 245,791 instructions."""
    code = const(0) + b"".join(get(0) + access("load8_u", k % 8193) + ADD for k in range(81930))
    content = bytes((k * 11 + 7) % 256 for k in range(16384))
    return module([function_type(1, 1)], [0], [("f", 0)], [body(0, code)], pages=1, datas=[data(0, content)])


def routed():
    """Stores and loads of all widths through a table of 16,384 elements."""
    names = ["store", "store8", "store16"]
    bodies = [body(0, get(0) + get(1) + access(name, 3) + get(0) + access(load, 3)) for name in names for load in LOADS]
    bodies.append(body(0, get(1) + get(2) + get(0) + through_table(0)))
    types = [function_type(2, 1), function_type(3, 1)]
    functions = [k * 11 % (len(bodies) - 1) for k in range(16384)]
    return module(types, [0] * (len(bodies) - 1) + [1], [("f", len(bodies) - 1)], bodies, 16384,
                  [elements(0, functions)], pages=1)


def long(value):
    return b"\x42" + signed(value)


def longs():
    """A function of 1,024 parameters of 64 bits, called over as many operands; and a division over 1,022 other
    operands."""
    code = get(0) + b"".join(get(k) + long(k) + b"\x89\x7c" for k in range(1, 1024))
    widened = get(0) + b"\xac"
    call = (b"".join(widened + (long(k * k - 9) + b"\x7c" if k < 1023 else b"") for k in range(1024))
            + b"\x10" + unsigned(0))
    operands = b"".join(widened + long(-(2**33) * k) + b"\x7c" for k in range(1022))
    divided = operands + long(2**62 + 12345) + widened + b"\x7f" + b"\x7c" * 1022
    types = [b"\x60" + vector([b"\x7e"] * 1024) + vector([b"\x7e"]), b"\x60" + vector([I32]) + vector([b"\x7e"])]
    return module(types, [0, 1, 1], [("sum", 1), ("divide", 2)], [body(0, code), body(0, call), body(0, divided)])


EMPTY, OTHER, BEYOND = "trap uninitialized element", "trap indirect call type mismatch", "trap undefined element"
AWAY = "trap out of bounds memory access"
ANSWERS = {
    labels: {"f 0": "done 1", "f 1": "done 112", "f 17": "done 1888", "f 999": "done 2890", "f 1000": "done 1",
             "f 4095": "done 1546", "f 4096": "done -1", "f -1": "done -1", "f 2147483647": "done -1"},
    heights: {"f 0": "done 499500", "f 1": "done 463203", "f 2": "done 428275", "f 17": "done 68635",
              "f 500": "done 124750", "f 999": "done 666", "f 4095": "done 117370", "f 4096": "done 0",
              "f -1": "done 0"},
    values: {"f 0": "done 45850", "f 1": "done 35980", "f 2": "done 27335", "f 8": "done 1190", "f 60": "done 1435",
             "f 61": "done 45850", "f 4095": "done 1190", "f 4096": "done 1010", "f -5": "done 1010"},
    table: {"f 0 41": "done 42", "f 1 21": "done 42", "f 2 1": OTHER, "f 5 10": "done 20", "f 6 10": "done 20",
            "f 8999 1": OTHER, "f 9000 1": EMPTY, "f 16381 1": OTHER, "f 16382 21": "done 42", "f 16383 41": "done 42",
            "f 16384 1": BEYOND, "f -1 1": BEYOND, "g 2": "done 7", "g 16381": "done 7", "g 16383": OTHER},
    deep: {"r 0": "done 5", "r 1": "done 3341", "r 50": "done 3720530", "r 1023": "done 1519919186",
           "r 1024": "trap call stack exhausted"},
    wide: {"f 1": "done 406346", "f -77": "done 394256"},
    many: {"f18_0 1": "done 25365", "f18_127 -77": "done 36157", "f129_1 1": "done 4349618",
           "f304_128 -77": "done 20108340", "f305_0 1": "done 23882298", "f608_200 -77": "done 83740258",
           "f609_10 1": "done 98347050", "f912_100 -77": "done 184397592", "f913_111 1": "done 216875565",
           "f1023_1 -77": "done 217396781", "f1024_0 1": "done 258425219", "f1024_0 -77": "done 217490819",
           "t18_110 1": "done 43460", "t305_5 -77": "done 20242463", "t1022_1 1": "done 258250286",
           "t1023_0 -77": "done 217569667"},
    state: {"add 7": "done 7", "sum": "done -1760313600", "add -1000000": "done -1000000"},
    turns: {"r 0": "done 36100", "r 1": "done 33953", "r 2": "done 32264", "r 30": "done 543814",
            "r 1022": "done -14471698", "r 1023": "trap call stack exhausted"},
    pages: {"size": "done 256", "at 0": "done 1564352256", "at 16777212": "done 873594880", "at 16777213": AWAY,
            "at -4": AWAY, "memory 16777198 18": "000000000000000000000000000000001234", "memory 65534 4": "00ff5500",
            "sum 0": "done 0", "sum 255": "done -2086485663", "sum 256": AWAY, "ends 255": "done -2125070719",
            "ends 256": AWAY, "put 254 -559038737": "done 256", "memory 65530 12": "0000000000ff550000000000",
            "memory 16711672 12": "0000000000edbfaddefc0000", "ends 254": "done -496520013",
            "sum 254": "done 239897161", "put 255 7": AWAY, "memory 16777212 4": "00001234"},
    segment: {"sum 1": "done 68", "sum 1035": "done 129732", "at 1": "done 16777216", "at 65533": "done 98680217",
              "at 1048477": "done 1816072933", "at 1048478": "done 7094034",
              "memory 1048474 12": "618db9e5123f6c0000000000", "memory 0 9": "000000000102030507",
              "at 1114108": "done 0", "at 1114109": AWAY},
    routed: {"f 0 0 -2": "done -2", "f 1 65525 -559038737": "done -17", "f 2 65529 305419896": "done 120",
             "f 3 65530 1": AWAY, "f 4 7 -2147483648": "done 0", "f 16383 65532 200": AWAY, "f 16382 65533 200": AWAY,
             "f 16384 0 0": BEYOND, "f -1 0 0": BEYOND, "f 5 8 511": "done 511", "f 6 9 32768": "done 0",
             "f 11 12 -1": "done -1", "f 14 65531 40000": AWAY, "f 13 65531 40000": "done 64",
             "memory 0 24": "000000feffffff00000000ff000000ffffffff0000000000",
             "memory 65520 16": "0000000000000000efbe000078004000"},
    longs: {"sum 0": "done 521085", "sum 1": "done 521085", "sum -77": "done -9223372036854253734",
            "divide 7": "done 654330653182159866", "divide -1": "done -4616167653592020023",
            "divide -32769": "done -4622368391627770", "divide 2147483647": "done -4479438288847869",
            "divide 0": "trap integer divide by zero"},
    near: {"f 0": "done 10444870", "f 4321": "done 10446580", "f 57344": AWAY},
    offsets: {"load_0 1": "done 368102310", "load_0 131070": "done -1501471689", "load16_s_0 65535": "done 0",
              "load8_s_0 131069": "done 18", "store_0 131069 -2023406815": "done",
              "store16_0 65535 -2023406815": "done", "load_0 196605": AWAY, "store_0 196605 1": AWAY,
              "load8_u_0 -1": AWAY, "load16_u_0 65534": "done 8448", "store8_0 196607 171": "done",
              "load_1 1": "done 974516427", "load_1 131069": "done -1501076157", "load16_s_1 65534": "done 17185",
              "load8_s_1 131068": "done 33", "store_1 131068 -2023406815": "done",
              "store16_1 65534 -2023406815": "done", "load_1 196604": AWAY, "store_1 196604 1": AWAY,
              "load8_u_1 -1": AWAY, "load16_u_1 65533": "done 8448", "store8_1 196606 171": "done",
              "load_8191 1": "done -255089023", "load_8191 122879": "done -1501076157",
              "load16_s_8191 57344": "done 17185", "load8_s_8191 122878": "done 33",
              "store_8191 122878 -2023406815": "done", "store16_8191 57344 -2023406815": "done",
              "load_8191 188414": AWAY, "store_8191 188414 1": AWAY, "load8_u_8191 -8186": AWAY,
              "load16_u_8191 57343": "done 8448", "store8_8191 188416 171": "done", "load_8192 1": "done 368102310",
              "load_8192 122878": "done -1501076157", "load16_s_8192 57343": "done 17185",
              "load8_s_8192 122877": "done 33", "store_8192 122877 -2023406815": "done",
              "store16_8192 57343 -2023406815": "done", "load_8192 188413": AWAY, "store_8192 188413 1": AWAY,
              "load8_u_8192 -8187": AWAY, "load16_u_8192 57342": "done 8448", "store8_8192 188415 171": "done",
              "load_8193 1": "done 974516427", "load_8193 122877": "done -1501076157",
              "load16_s_8193 57342": "done 17185", "load8_s_8193 122876": "done 33",
              "store_8193 122876 -2023406815": "done", "store16_8193 57342 -2023406815": "done",
              "load_8193 188412": AWAY, "store_8193 188412 1": AWAY, "load8_u_8193 -8188": AWAY,
              "load16_u_8193 57341": "done 8448", "store8_8193 188414 171": "done", "load_65535 1": "done 67",
              "load_65535 65535": "done -1501076157", "load16_s_65535 0": "done 17185",
              "load8_s_65535 65534": "done 33", "store_65535 65534 -2023406815": "done",
              "store16_65535 0 -2023406815": "done", "load_65535 131070": AWAY, "store_65535 131070 1": AWAY,
              "load8_u_65535 -65530": AWAY, "load16_u_65535 -1": AWAY, "store8_65535 131072 171": "done",
              "load8_u_16777215 0": AWAY, "load8_s_16777215 -16777215": AWAY, "load_16777215 -16773119": AWAY,
              "store_16777215 -16777207 1": AWAY, "store8_16777215 1 1": AWAY, "load8_u_16777216 0": AWAY,
              "load8_s_16777216 -16777216": AWAY, "load_16777216 -16773120": AWAY, "store_16777216 -16777208 1": AWAY,
              "store8_16777216 1 1": AWAY, "load8_u_4294967295 0": AWAY, "load8_s_4294967295 1": AWAY,
              "load_4294967295 4097": AWAY, "store_4294967295 9 1": AWAY, "store8_4294967295 1 1": AWAY,
              "memory 65530 12": "000000000021430000000000", "memory 131064 12": "597ea3c8ed21436587a6cbf0",
              "memory 196600 8": "00000000000000ab"},
}


def play(program, made, answers):
    """What the program shows after each call, and the number of files."""
    script = ["ticks 400 512"]
    for call in answers:
        asks = call.startswith("memory ")
        script += [call] if asks else [f"call {call}", "ticks 2 512", "ticks 200 65536", "reload 512", "show"]
    with tempfile.TemporaryDirectory() as folder:
        with open(f"{folder}/m.wasm", "wb") as file:
            file.write(made)
        with open(f"{folder}/s.txt", "w", encoding="utf-8") as file:
            file.write("\n".join(script) + "\n")
        words = [*program, "exec", f"{folder}/m.wasm", f"{folder}/pack", "wk", f"{folder}/s.txt"]
        ran = completed(words, MOST_SECONDS)
        files = sum(len(names) for _, _, names in os.walk(f"{folder}/pack"))
    return ran.stdout.splitlines()[:-1] + ran.stderr.splitlines()[:1] * (ran.returncode != 0), files


def main():
    asked = Words(__doc__)
    asked.add_program()
    asked.add_argument("names", nargs="*", metavar="NAME")
    args = asked.parse_args()
    known = [make.__name__ for make in ANSWERS]
    if not {*args.names} <= {*known}:
        asked.error(f"the names are {', '.join(known)}")
    bad = 0
    for make, answers in ANSWERS.items():
        if args.names and make.__name__ not in args.names:
            continue
        begun = time.time()
        shown, files = play(args.program, make(), answers)
        good = shown == list(answers.values())
        print(f"{make.__name__}: {'as wanted' if good else 'differs'}, {files} files, {time.time() - begun:.1f} s")
        if not good:
            bad += 1
            print(f"    wanted {answers}, got {shown}")
    return 1 if bad else 0


if __name__ == "__main__":
    sys.exit(ended(main))
