#!/usr/bin/env python3
"""Tries what a user never wants to see: much at random, memory that is refused, files that fail, and files that are no
modules.

  tools/robust.py [--seed N] [--count N] [--program PATH] [storm|allocations|files|mutants ..]

  storm        1,000 random lawful schedules over the examples, by tools/storm.py
  allocations  of three rows of crates/test_rows, two `exec` and one `compile`, over real files: each allocation is
               refused in turn. The status is then 6 or the row's own, the output is a prefix of the row's, and the
               files are whole ones in the order of writing, and at most one prefix of the next
  files        of the shorter two rows over files in memory, by the program `test_rows` that the gate left in
               crates/test_rows/out: each read, listing and write fails in turn, and leaves nothing of its piece, a
               part, or all of it. What has to be printed is worked out by tools/wanted.py
  mutants      10,000 modules that were changed at random, from those of examples/ and of the rows: `compile` ends
               each with a status of docs/use/REFUSALS.md and one of its lines, and writes nothing, or with 0 and a pack
               of so many files as it tells. Where `wasm-validate` of wabt is there, it accepts each module that is
               compiled

Without a name all four are tried. The program is the one that ./dpwasm builds, or that of --program; for `allocations`
that is the program itself, before which tools/refusing.c is loaded, and no script. `files` takes none. --count is for
`storm` and `mutants`. Each tells its counts. The status is 1 where something was found. It takes an hour or more, and
is no part of the gate.
"""
import argparse
import collections
import glob
import os
import random
import re
import shutil
import subprocess
import sys
import tempfile

sys.dont_write_bytecode = True

import storm
import wanted
from commands import ROOT, Failed, Words, ended, output_of
from reference.module import read_module

ROWS = f"{ROOT}/crates/test_rows/data/rows"
ROWS_PROGRAM = f"{ROOT}/crates/test_rows/out/test_rows"
EXEC_ROW, COMPILE_ROW = "run-constant-in-ticks-of-65536.row", "compile-globals-of-i64.row"
# A module with a memory of 17 pages, a global and a segment.
LONG_ROW = "data-fibonacci-in-ticks-of-65536.row"
# What ./dpwasm builds, proved.
PROGRAM = f"{ROOT}/crates/dpwasm/out/dpwasm"


def program_of(args):
    """The words of the program that is tried."""
    if not args.program and not os.path.exists(PROGRAM):
        raise Failed(f"{PROGRAM} isn't there: ./dpwasm builds it")
    return args.program or [PROGRAM]


# Rows over real files

def lay_out(folder, row):
    for path, data in row["file"].items():
        os.makedirs(os.path.dirname(f"{folder}/{path}"), exist_ok=True)
        with open(f"{folder}/{path}", "wb") as file:
            file.write(data)


def files_below(folder):
    paths = glob.glob(f"{folder}/**", recursive=True, include_hidden=True)
    return {os.path.relpath(path, folder): open(path, "rb").read() for path in paths if os.path.isfile(path)}


def run_row(program, row, **variables):
    """The status, the output, the error stream and the files of a run with these variables."""
    with tempfile.TemporaryDirectory() as folder:
        lay_out(folder, row)
        ran = subprocess.run([*program, *row["words"]], cwd=folder, capture_output=True, timeout=600,
                             env={**os.environ, **variables})
        return ran.returncode, ran.stdout, ran.stderr, files_below(folder)


def is_some_of(found, whole, order, before):
    """Whether the files are those from before, then whole ones in the order of writing, and at most one prefix of the
    next."""
    if any(found.get(path) != data for path, data in before.items()):
        return False
    written = [path for path in order if path in found]
    if len(found) != len(before) + len(written) or written != order[:len(written)]:
        return False
    last = written[-1:]
    return (all(found[path] == whole[path] for path in written[:-1])
            and all(whole[path].startswith(found[path]) for path in last))


def built_refusing(folder):
    """The library that refuses one allocation of the program before which it is loaded."""
    path = f"{folder}/refusing.so"
    output_of(["cc", "-shared", "-fPIC", "-O2", "-o", path, f"{ROOT}/tools/refusing.c"])
    return path


class Refusing:
    """A program of whose allocations one is refused, from 1 on; none where the number is 0."""

    def __init__(self, program, folder):
        self.program, self.library, self.counted = program, built_refusing(folder), f"{folder}/counted"

    def run(self, row, number):
        """The run, and how many allocations it asked for."""
        ran = run_row(self.program, row, LD_PRELOAD=self.library, COUNTED=self.counted, REFUSED=str(number))
        with open(self.counted, encoding="utf-8") as counted:
            return ran, int(counted.read())


def order_of(name):
    """The files of the row's pack in the order of writing, by its wanted text."""
    return re.findall(r"^wrote (.*)$", wanted.read_blocks(ROOT)[name], re.M)


def is_want_of_memory(ran, whole, order, before):
    """Whether a run ended for want of memory, after a part of what the whole run does; before its words are taken, so
    while nothing is done, it has no line."""
    status, output, errors, files = ran
    is_early = not errors and not output and files == before
    return (status == 6 and (is_early or errors == b"out of memory\n") and whole[1].startswith(output)
            and is_some_of(files, whole[3], order, before))


def try_allocations(args):
    refusing, bad = Refusing(program_of(args), args.folder), 0
    for name in (EXEC_ROW, COMPILE_ROW, LONG_ROW):
        row, order = wanted.read_row(ROOT, name), order_of(name)
        whole, most = refusing.run(row, 0)
        ends = collections.Counter()
        for number in range(1, most + 1):
            ran, asked = refusing.run(row, number)
            ends[ran[0], ran[2].decode("utf-8", "replace")] += 1
            if asked < number or ran != whole and not is_want_of_memory(ran, whole, order, row["file"]):
                bad += 1
                print(f"{name}, allocation {number}: status {ran[0]}, {ran[1]}, {ran[2]}, {sorted(ran[3])}")
        print(f"allocations: {name}: {ends.total()} of {most} refused in turn")
        for (status, line), count in ends.most_common():
            print(f"    {count:6} status {status} {line.rstrip() or 'without a line'}", flush=True)
    return bad


# Rows over files in memory

def failures(name):
    """The lines `fail` that are tried with a row."""
    block = wanted.read_blocks(ROOT)[name]
    calls = int(re.search(r"^(\d+) calls of files$", block, re.M)[1])
    lines = len(re.findall(r"^out\|", block, re.M))
    for device, count in (("files", calls), ("out", lines)):
        for call in range(count):
            for length in (0, 1, 100000):
                yield f"fail {device} {call} {length}"


def try_files(_):
    if not os.path.exists(ROWS_PROGRAM):
        raise Failed(f"files: {ROWS_PROGRAM} isn't there: rt ci builds it")
    bad = 0
    with tempfile.TemporaryDirectory() as folder:
        rows = f"{folder}/crates/test_rows/data/rows"
        os.makedirs(rows)
        os.makedirs(f"{folder}/crates/test_rows/data/wrong")
        for name in (EXEC_ROW, COMPILE_ROW):
            with open(f"{ROWS}/{name}", encoding="utf-8") as file:
                text = file.read()
            for failure in failures(name):
                for error in ("", "fail err 0 0\n"):
                    title = f"{name[:-4]} {failure}{' err' if error else ''}".replace(" ", "-")
                    with open(f"{rows}/{title}.row", "w", encoding="utf-8") as file:
                        file.write(f"{text.rstrip()}\n{failure}\n{error}")
        ran = subprocess.run([ROWS_PROGRAM], cwd=f"{folder}/crates/test_rows/data", capture_output=True, timeout=3600)
        shown = {block.split("\n")[0][4:]: block for block in re.split(r"(?m)^(?=row )", ran.stdout.decode())[1:]}
        statuses = collections.Counter()
        for title in sorted(os.listdir(rows)):
            should = wanted.wanted(folder, title)
            statuses[re.search(r"^status (\d+)$", should, re.M)[1]] += 1
            if not shown.get(title, "").startswith(should):
                bad += 1
                print(f"{title}: wanted\n{should}and printed\n{shown.get(title)}")
    print(f"files: {sum(statuses.values())} rows with a call that fails, {bad} otherwise than wanted; "
          f"by status {dict(statuses)}")
    return bad


# Schedules

def try_storm(args):
    known = storm.answers()
    program = program_of(args)
    sys.setrecursionlimit(100000)
    seeds, bad = -(-args.count // len(known)), 0
    events = collections.Counter()
    for name in sorted(known):
        with open(f"{ROOT}/examples/{name}.wasm", "rb") as file:
            module = read_module(file.read())
        for seed in range(args.seed, args.seed + seeds):
            lines, should = storm.schedule(name, module, known[name], seed)
            events.update(line.split(" ")[0] for line in lines)
            ran = storm.play(program, name, lines)
            got = [line for line in ran.stdout.splitlines() if not line.startswith("ticks ")]
            if ran.returncode or ran.stderr or got != should:
                bad += 1
                print(f"{name}, seed {seed}: status {ran.returncode}, {ran.stderr}, wanted {should}, shown {got}",
                      flush=True)
    print(f"storm: {seeds * len(known)} schedules over {len(known)} programs, {bad} answered otherwise; "
          f"lines {dict(events)}")
    return bad


# Mutants

def number_of(value, more=0):
    """An unsigned LEB128, with so many bytes more than it needs."""
    out = bytearray()
    while True:
        out.append(value & 127)
        value >>= 7
        if not value:
            break
        out[-1] |= 128
    for _ in range(more):
        out[-1] |= 128
        out.append(0)
    return bytes(out)


def read_number(data, at):
    value, shift = 0, 0
    while True:
        byte = data[at]
        value, shift, at = value | (byte & 127) << shift, shift + 7, at + 1
        if byte < 128:
            return value, at


def sections_of(data):
    found, at = [], 8
    while at < len(data):
        size, begin = read_number(data, at + 1)
        found.append((data[at], data[begin:begin + size]))
        at = begin + size
    return found


def has_sections(data):
    """Whether the module is the header and whole sections, with whole bodies of whole instructions."""
    try:
        parts = sections_of(data)
        bodies = [body for which, content in parts if which == 10 for body in bodies_of(content)]
        return module_of(parts) == data and all(
            b"".join([locals_, *code]) == body for body in bodies for locals_, code in [instructions_of(body)])
    except IndexError:
        return False


def module_of(sections):
    return b"\0asm\1\0\0\0" + b"".join(bytes([kind]) + number_of(len(content)) + content for kind, content in sections)


def bodies_of(content):
    count, at = read_number(content, 0)
    bodies = []
    for _ in range(count):
        size, begin = read_number(content, at)
        bodies.append(content[begin:begin + size])
        at = begin + size
    return bodies


def code_of(bodies):
    return number_of(len(bodies)) + b"".join(number_of(len(body)) + body for body in bodies)


def immediates(code, data, at):
    """Where the immediates of an instruction end that begin here."""
    if code in (0x02, 0x03, 0x04):
        return at + 1
    if code in (0x43, 0x44):
        return at + 4 * (code - 0x42)
    is_one = code in (0x0C, 0x0D, 0x10, 0x3F, 0x40, 0x41, 0x42) or 0x20 <= code <= 0x24
    numbers = 2 if code == 0x11 or 0x28 <= code <= 0x3E else 1 if is_one else 0
    if code in (0x0E, 0xFC):
        count, at = read_number(data, at)
        numbers = count + 1 if code == 0x0E else 2 if count == 10 else 1
    for _ in range(numbers):
        at = read_number(data, at)[1]
    return at


def instructions_of(body):
    """The locals of a body, and its instructions."""
    count, at = read_number(body, 0)
    for _ in range(count):
        at = read_number(body, at)[1] + 1
    locals_, found = body[:at], []
    while at < len(body):
        end = immediates(body[at], body, at + 1)
        found.append(body[at:end])
        at = end
    return locals_, found


def rewritten(chance, body, pool):
    """A body in which some instructions are others, are gone, are put in, or have changed places."""
    locals_, found = instructions_of(body)
    at = chance.randrange(len(found)) if found else 0
    found = found or [chance.choice(pool)]
    kind = chance.choice(["other", "other", "operation", "operation", "gone", "more", "swap"])
    if kind == "operation":
        found[at] = bytes([chance.randrange(0x45, 0xC5)])
    if kind == "other":
        found[at] = chance.choice(pool)
    if kind == "gone":
        del found[at]
    if kind == "more":
        found.insert(at, chance.choice(pool))
    if kind == "swap":
        to = chance.randrange(len(found))
        found[at], found[to] = found[to], found[at]
    return locals_ + b"".join(found)


def other_byte(chance, byte):
    """A byte in the place of another, mostly of its kind: an operation on numbers, the byte of a type, a small
    number."""
    if 0x45 <= byte <= 0xC4 and chance.randrange(4):
        return chance.choice([chance.randrange(0x45, 0xC5), chance.randrange(0x7C, 0x80)])
    if byte < 128 and chance.randrange(4):
        return chance.choice([byte ^ 1, (byte + 1) % 128, (byte - 1) % 128,
                              chance.randrange(12), 0x7E, 0x7F, chance.randrange(128)])
    return chance.choice([0, 0x0B, 0x40, 0x80, 0xFF, byte ^ 1 << chance.randrange(8), chance.randrange(256)])


def changed(chance, data, others):
    """Bytes that differ in one place: one byte, some that are cut, put in, doubled or taken from elsewhere, or a
    number."""
    at = chance.randrange(len(data) + 1)
    end = min(len(data), at + chance.choice([1, 1, 1, 2, 3, 5, 8, 40]))
    kind = chance.choice(["byte"] * 6 + ["cut", "put", "double", "other", "number", "longer"])
    if kind == "byte":
        return data[:at] + bytes(other_byte(chance, byte) for byte in data[at:at + 1]) + data[at + 1:]
    if kind == "cut":
        return data[:at] + data[end:]
    if kind == "put":
        return data[:at] + bytes(chance.randrange(256) for _ in range(end - at)) + data[at:]
    if kind == "double":
        return data[:end] + data[at:]
    if kind == "other":
        other = chance.choice(others)
        begin = chance.randrange(len(other) + 1)
        return data[:at] + other[begin:begin + end - at] + data[end:]
    value = chance.choice([0, 1, 2, 63, 64, 65, 127, 128, 1024, 4096, 16384, 65536,
                           2**31 - 1, 2**31, 2**32 - 1, 2**32, 2**64 - 1])
    if kind == "longer" and at < len(data) and data[at] < 128:
        return data[:at] + number_of(data[at], chance.choice([1, 3, 4, 5])) + data[at + 1:]
    return data[:at] + number_of(value, chance.choice([0, 0, 0, 1, 4])) + data[at + 1:]


def with_another_section(chance, parts, others):
    at = chance.randrange(len(parts))
    return [*parts[:at], (parts[at][0], changed(chance, parts[at][1], others)), *parts[at + 1:]]


def with_another_body(chance, parts, others, is_instruction):
    """The sections with one body that is another, where there is one."""
    try:
        bodies = next((bodies_of(content) for which, content in parts if which == 10), [])
        pool = [instruction for body in bodies for instruction in instructions_of(body)[1]]
    except IndexError:
        bodies, pool = [], []
    if not bodies or is_instruction and not pool:
        return with_another_section(chance, parts, others)
    number = chance.randrange(len(bodies))
    bodies[number] = (rewritten(chance, bodies[number], pool) if is_instruction
                      else changed(chance, bodies[number], others))
    return [(which, code_of(bodies) if which == 10 else content) for which, content in parts]


def mutant(chance, sources):
    """A module that was changed in some places: as bytes; in a section or a body, with the sizes made right; or by
    instructions."""
    data = chance.choice(chance.choice(sources))
    kind = chance.choice(["bytes", "section", "section", "body", "code", "code", "code"])
    times, parts = chance.choice([1, 1, 1, 2, 3, 6]), sections_of(data)
    others = [content for source in map(chance.choice, sources) for _, content in sections_of(source)]
    for turn in range(times):
        if kind == "bytes" or not parts:
            data = changed(chance, data, others)
        elif kind == "section" or kind == "body" and turn > 0:
            parts = with_another_section(chance, parts, others)
        else:
            parts = with_another_body(chance, parts, others, kind == "code")
    return data if kind == "bytes" or not parts else module_of(parts)


def refusals():
    """By status, the patterns of the lines of docs/use/REFUSALS.md."""
    items = "(type|import|function|table|memory|global|element|data|start|export)"
    found = collections.defaultdict(list)
    with open(f"{ROOT}/docs/use/REFUSALS.md", encoding="utf-8") as lines:
        for status, line in re.findall(r"^\| (\d) \| `(.*)` \|", lines.read(), re.M):
            pattern = re.sub(r"\b[NFBKL]\b", r"\\d+", re.escape(line).replace(r"\ ", " "))
            pattern = pattern.replace("ITEM", items).replace("PATH", ".+")
            found[int(status)].append((line, re.compile(f"{pattern}\n")))
    return found


def sources_of_modules():
    """The modules of the examples, and those of the rows."""
    examples, found = [], []
    for path in sorted(glob.glob(f"{ROOT}/examples/*.wasm")):
        with open(path, "rb") as file:
            examples.append(file.read())
    for name in sorted(os.listdir(ROWS)):
        data = wanted.read_row(ROOT, name)["file"].get("m.wasm", b"")
        if 8 < len(data) <= 20000 and has_sections(data):
            found.append(data)
    return examples, found


def cause(patterns, status, errors, output, folder):
    """The line of docs/use/REFUSALS.md by which the run ended, `compiled`, or None where it ended otherwise."""
    if status == 0:
        packs = files_below(folder)
        return ("compiled" if not errors and output == f"files {len(packs)}\n".encode() and "pack.mcmeta" in packs
                else None)
    if output or os.path.exists(folder):
        return None
    text = errors.decode("utf-8", "replace")
    return next((line for line, pattern in patterns.get(status, []) if pattern.fullmatch(text)), None)


def said_of(path, off):
    """What wasm-validate says of the module, without these instructions; nothing where it accepts it."""
    words = ["wasm-validate", "--ignore-custom-section-errors", *(f"--disable-{name}" for name in off), path]
    ran = subprocess.run(words, capture_output=True)
    return ran.stderr.decode("utf-8", "replace") or "refused" if ran.returncode else ""


def validates(path):
    """Whether wasm-validate accepts the module, with the instructions of docs/use/MODULES.md. It takes the table of a
    `call_indirect` in any spelling only where there are references to functions, which is overlooked."""
    off = ["mutable-globals", "saturating-float-to-int", "simd", "multi-value"]
    said = said_of(path, [*off, "reference-types"])
    return not said or "call_indirect reserved value must be 0" in said and not said_of(path, off)


def try_mutants(args):
    program = program_of(args)
    patterns, sources = refusals(), sources_of_modules()
    chance, causes, bad, validated = random.Random(args.seed), collections.Counter(), 0, collections.Counter()
    has_wabt = shutil.which("wasm-validate") is not None
    for number in range(args.count):
        data = mutant(chance, sources)
        path, folder = f"{args.folder}/m.wasm", f"{args.folder}/pack"
        with open(path, "wb") as file:
            file.write(data)
        ran = subprocess.run([*program, "compile", path, folder, "wk"], capture_output=True, timeout=600)
        line = cause(patterns, ran.returncode, ran.stderr, ran.stdout, folder)
        causes[line] += 1
        accepted = has_wabt and validates(path)
        validated[line, accepted] += 1
        if line is None or has_wabt and line == "compiled" and not accepted:
            bad += 1
            shutil.copy(path, f"{tempfile.gettempdir()}/mutant-{args.seed}-{number}.wasm")
            print(f"mutant {number}: status {ran.returncode}, {ran.stdout[:200]}, {ran.stderr[:400]}, {accepted}",
                  flush=True)
        shutil.rmtree(folder, ignore_errors=True)
    print(f"mutants: {args.count} of {sum(map(len, sources))} modules, {bad} ended otherwise than they may")
    for line, count in causes.most_common():
        also = f", of which wasm-validate accepts {validated[line, True]}" if has_wabt else ""
        print(f"    {count:6} {line}{also}")
    return bad


TRIES = {"storm": (try_storm, 1000), "allocations": (try_allocations, 0), "files": (try_files, 0),
         "mutants": (try_mutants, 10000)}


def main():
    asked = Words(__doc__)
    asked.add_argument("--seed", type=int, default=7000)
    asked.add_argument("--count", type=int)
    asked.add_program()
    asked.set_defaults(program=None)
    asked.add_argument("names", nargs="*", metavar="|".join(TRIES))
    args = asked.parse_args()
    if not {*args.names} <= {*TRIES}:
        asked.error(f"the names are {', '.join(TRIES)}")
    bad = 0
    for name in args.names or TRIES:
        attempt, count = TRIES[name]
        with tempfile.TemporaryDirectory() as folder:
            bad += attempt(argparse.Namespace(
                seed=args.seed, count=args.count or count, program=args.program, folder=folder))
    return 1 if bad else 0


if __name__ == "__main__":
    sys.exit(ended(main))
