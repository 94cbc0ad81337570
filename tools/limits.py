#!/usr/bin/env python3
"""Runs the program on what a hostile user gives it, and tells how each run ends, how long it takes and its memory.

  tools/limits.py [--program PATH] [--seconds N] [NAME ..]

    functions  packs of 1,000,000 functions, of one more, and a folder of 2,000,001 names
    files      files of a pack of 16 MiB: of empty lines, comments, commands, long lines and JSON; and of one byte more
    shows      a script of 1 MiB of `show`, and others of that length
    lines      lines of 524,288 bytes, one of a byte more, and macro lines that grow
    trees      trees of depth 64 and 65, and trees that double
    keys       compounds of up to 65,536 keys, set one by one and in one line
    modules    modules of 1 MiB that are sections, types, blocks or nothing
    nested     256, 512 and 1,024 nested blocks with little in and around them
    late       a large module and a folder that isn't empty
    disks      disks without bytes and without inodes that are left
    rights     folders and files that may not be read or written
    outputs    an output and an error stream that are closed, full, or a pipe that nobody reads
    kills      a kill while 35,000 files are written, and `run` and `compile` over what is left

Without a NAME all are run. Each run is a row of a table: what was run, its status and its line on standard error, the
processor's seconds, how many of them are the system's, and the peak of memory in MB (1,000,000 bytes). A row that isn't
as it has to be is followed by what it has to be, and the status is 1 then. What needs rights that the user hasn't got,
to mount a disk or to be another user, is told as not tried. A run may take as many seconds as --seconds says (600). The
program is ./dpwasm of the repository, or that of --program. It takes some minutes and 3 GB.
"""
import contextlib
import os
import re
import shutil
import signal
import subprocess
import sys
import tempfile
import time

sys.dont_write_bytecode = True

import hostile as made
from commands import ROOT, Failed, Words, completed, ended

SECONDS = 600
FILE_CAP, LINE_CAP, SCRIPT_CAP = 16777216, 524288, 1048576
MOST_FUNCTIONS, MOST_NAMES, BUDGET = 1000000, 2000000, 65536
SMALL = made.module([made.function_type(0, 1)], [0], [("f", 0)], [made.body(0, made.const(7))])
NO_PACK = "pack: no pack.mcmeta"
NOBODY = ["setpriv", "--reuid", "65534", "--regid", "65534", "--clear-groups"]


class NotTried(Exception):
    """What a case needs and this user hasn't got."""


class Place:
    """A folder in which the runs of a case are made, and how many of them ended otherwise than they have to."""

    def __init__(self, folder, program, seconds):
        self.folder, self.program, self.seconds, self.bad = folder, program, seconds, 0

    def put(self, path, data):
        path = f"{self.folder}/{path}"
        os.makedirs(os.path.dirname(path), exist_ok=True)
        with open(path, "wb") as file:
            file.write(data)

    def pack(self, load, name="d", **others):
        """A pack of one function `load`, or with other bytes for its files."""
        self.put(f"{name}/pack.mcmeta", others.get("meta", b'{"pack":{"description":"","pack_format":26}}'))
        self.put(f"{name}/dpwasm.json", others.get("index", b'{"exports":[],"namespace":"p","version":1}'))
        for tag in ("load", "tick"):
            self.put(f"{name}/data/minecraft/tags/functions/{tag}.json", b'{"values":["p:%s"]}' % tag.encode())
        self.put(f"{name}/data/p/functions/load.mcfunction", load)

    def script(self, text="show\n"):
        self.put("s.txt", text.encode())

    def wrong(self, text):
        self.bad += 1
        print(f"    has to be: {text}", flush=True)

    def run(self, what, words, status=0, line="", shown=None, **how):
        """One run, whose line on standard error has to be this pattern, and whose output these lines, where told."""
        found = Ran(self, words, **how)
        print(f"| {what} | {found.status} | {f'`{found.line}`' if found.line else ''} | {found.spent:.2f} "
              f"| {found.system:.2f} | {found.peak:.1f} |", flush=True)
        if found.status != status or not re.fullmatch(line, found.line):
            self.wrong(f"{status} {line}".rstrip())
        elif shown is not None and found.shown != shown:
            self.wrong(f"output of {len(shown)} lines {shown[:3]}, and not {len(found.shown)}, {found.shown[:3]}")
        return found


@contextlib.contextmanager
def started(words, **how):
    """A program that runs, and at the end of this doesn't any more, nor what it began."""
    with subprocess.Popen(words, start_new_session=True, stdin=subprocess.DEVNULL, **how) as run:
        try:
            yield run
        finally:
            if run.poll() is None:
                os.killpg(run.pid, signal.SIGKILL)


class Ran:
    """A run of the program, measured by `time`: its status, the first line of its errors, its output in lines."""

    def __init__(self, place, words, wrap=(), out=None, memory=None):
        folder = place.folder
        limit = ["prlimit", f"--as={memory}"] if memory else []
        told = f"{folder}/.time"
        words = ["/usr/bin/time", "-q", "-f", "%U %S %M", "-o", told, *limit, *wrap, *place.program, *words]
        with open(f"{folder}/.out", "wb") as output, open(f"{folder}/.err", "wb") as errors:
            how = {"cwd": folder, "stderr": errors, "stdout": out or output}
            with started(words, **how) as run:
                try:
                    self.status = run.wait(place.seconds)
                except subprocess.TimeoutExpired:
                    self.status = f"over {place.seconds} s"
        with open(f"{folder}/.err", encoding="utf-8", errors="replace") as errors:
            self.line = "".join(errors.read(2000).splitlines()[:1])
        with open(f"{folder}/.out", encoding="utf-8", errors="replace") as output:
            self.shown = output.read().splitlines()
        with open(told, encoding="utf-8") as text:
            user, system, peak = text.read().split()[-3:] or (0, 0, 0)
        self.system, self.spent, self.peak = float(system), float(user) + float(system), int(peak) * 1024 / 1e6


# Disks and users

@contextlib.contextmanager
def disk(place, name, options):
    """A disk in memory with these options, under a folder of this name."""
    at = f"{place.folder}/{name}"
    os.makedirs(at)
    if completed(["mount", "-t", "tmpfs", "-o", options, "tmpfs", at]).returncode:
        raise NotTried("only who may mount a disk can try it")
    try:
        yield at
    finally:
        completed(["umount", "-l", at])


def as_nobody(place):
    """The words that make another user of the one that runs this."""
    if os.geteuid() or shutil.which(NOBODY[0]) is None:
        raise NotTried("only root, who may be another user, can try it")
    os.chmod(place.folder, 0o755)
    if completed([*NOBODY, "test", "-x", place.program[0]]).returncode:
        raise NotTried(f"another user may not run {place.program[0]}")
    return NOBODY


# Packs

def filled(line, size):
    """Lines like this one up to just this number of bytes, with a comment at the end."""
    count = (size - 2) // len(line)
    return line * count + b"#" * (size - count * len(line) - 1) + b"\n"


def functions(place):
    place.script()
    with disk(place, "m", "size=1g,nr_inodes=2100000"):
        place.pack(b"", "m/d")
        folder = f"{place.folder}/m/d/data/p/functions"
        for number in range(MOST_FUNCTIONS - 1):
            os.close(os.open(f"{folder}/n{number}.mcfunction", os.O_CREAT | os.O_WRONLY))
        shown = ["none", "ticks 0 commands 0"]
        place.run("`run`, a pack of 1,000,000 empty functions", ["run", "m/d", "s.txt"], shown=shown)
        place.put("m/d/data/p/functions/one_more.mcfunction", b"")
        place.run("one function more", ["run", "m/d", "s.txt"], 5, "pack: too many files")
        for number in range(MOST_NAMES - MOST_FUNCTIONS):
            os.close(os.open(f"{folder}/o{number}", os.O_CREAT | os.O_WRONLY))
        place.run("a folder of 2,000,001 names", ["run", "m/d", "s.txt"], 3, "cannot list m/d/data/p/functions")


def files(place):
    place.script()
    long = b'data modify storage p:m x set value "%s"\n' % (b"a" * (LINE_CAP - 38))
    longer = b"execute if score #a p matches 1.. run scoreboard players get #a p\n"
    kinds = {"empty lines": b"\n" * FILE_CAP, "comments of one byte": filled(b"#\n", FILE_CAP),
             "commands": filled(b"return 0\n", FILE_CAP),
             "longer commands": filled(longer, FILE_CAP),
             "lines of 524,288 bytes": filled(long, FILE_CAP)}
    for name, data in kinds.items():
        place.pack(data)
        place.run(f"`run`, a file of 16 MiB of {name}", ["run", "d", "s.txt"])
    place.pack(b"\n" * (FILE_CAP + 1))
    place.run("a file of one byte more", ["run", "d", "s.txt"], 3,
              "d/data/p/functions/load.mcfunction is longer than 16777216 bytes")
    begin, end = b'{"pack":{"description":"","pack_format":26},"x":', b"}"
    entry = b'{"name":"f","params":["i32","i64"],"result":null},'
    room = FILE_CAP - len(begin + end)
    texts = {"a text": b'"' + b"a" * (room - 2) + b'"', "numbers": b"[" + b"0," * (room // 2 - 1) + b"0]",
             "empty lists": b"[" + b"[]," * (room // 3 - 2) + b"[]]",
             "keys": b"{" + b",".join(b'"%d":0' % key for key in range(room // 12)) + b"}",
             "open brackets": b"[" * room}
    for name, text in texts.items():
        place.pack(b"", meta=begin + text + end)
        wanted = (5, NO_PACK) if name == "open brackets" else (0, "")
        place.run(f"`pack.mcmeta` of 16 MiB with {name}", ["run", "d", "s.txt"], *wanted)
    exports = entry * ((FILE_CAP - 100) // len(entry))
    place.pack(b"", index=b'{"exports":[' + exports[:-1] + b'],"namespace":"p","version":1}')
    place.run("`dpwasm.json` of 16 MiB of exports", ["run", "d", "s.txt"])


def shows(place):
    place.pack(b"")
    count = SCRIPT_CAP // 5
    place.script("show\n" * count)
    shown = ["none"] * count + ["ticks 0 commands 0"]
    place.run("`run`, a script of 1 MiB of `show`", ["run", "d", "s.txt"], shown=shown)
    place.script("\n" * SCRIPT_CAP)
    place.run("a script of 1 MiB of empty lines", ["run", "d", "s.txt"], shown=shown[-1:])
    count = SCRIPT_CAP // 14
    place.script("reload 65536\n\n" * count)
    place.run("a script of 1 MiB of `reload`", ["run", "d", "s.txt"], shown=shown[-1:])
    place.script("\n" * (SCRIPT_CAP + 1))
    place.run("a script of one byte more", ["run", "d", "s.txt"], 3, "s.txt is longer than 1048576 bytes")


def line_of(begin, part, end, between=b""):
    """A line of parts with something between them, as many as one may have."""
    count = (LINE_CAP - len(begin + end) + len(between)) // len(part + between)
    return begin + between.join([part] * count) + end


def lines(place):
    place.script()
    setting = b"data modify storage p:m x set value "
    kinds = {"a comment": line_of(b"#", b"a", b""), "a text": line_of(setting + b'"', b"a", b'"'),
             "a list of numbers": line_of(setting + b"[", b"0", b"]", b","),
             "a list of lists": line_of(setting + b"[", b"[]", b"]", b","),
             "conditions": line_of(b"execute ", b"unless score #a p = #a p ", b"run return 0"),
             "stores": line_of(b"execute ", b"store result score #a p ", b"run scoreboard players get #a p"),
             "spaces": b" " * LINE_CAP}
    for name, line in kinds.items():
        place.pack(line + b"\n")
        status, told = (5, "pack: bad line load:1") if name == "spaces" else (0, "")
        place.run(f"`run`, a line of 524,288 bytes with {name}", ["run", "d", "s.txt"], status, told)
    place.pack(b"#" * (LINE_CAP + 1) + b"\n")
    place.run("a line of one byte more", ["run", "d", "s.txt"], 5, "pack: bad line load:1")
    call = b"function p:m with storage p:m v\n"
    for name, size, status, memory in (("1 byte", 1, 0, None), ("100 bytes", 100, 0, None),
                                       ("10,000 bytes", 10000, 0, None), ("500,000 bytes", 500000, 6, 10**9)):
        place.pack(setting.replace(b" x ", b" v ") + b'{x:"%s"}\n' % (b"a" * size) + call)
        place.put("d/data/p/functions/m.mcfunction", line_of(b"$" + setting + b'"', b"$(x)", b'"'))
        place.run(f"a macro line of 131,062 places, filled by {name} each{', with 1 GB to have' if memory else ''}",
                  ["run", "d", "s.txt"], status, "out of memory" if status else "", memory=memory)
    double = b'$data modify storage p:m v.x set value "$(x)$(x)"\n'
    place.pack(setting.replace(b" x ", b" v ") + b'{x:"a"}\n' + call * 1000)
    place.put("d/data/p/functions/m.mcfunction", double)
    place.run("a text that a macro line doubles, 1,000 times", ["run", "d", "s.txt"])


def trees(place):
    place.script()
    setting = b"data modify storage p:m x set value "
    place.pack(setting + b"[" * 63 + b"1" + b"]" * 63 + b"\n")
    place.run("`run`, a list of depth 64", ["run", "d", "s.txt"])
    place.pack(setting + b"[" * 64 + b"1" + b"]" * 64 + b"\n")
    place.run("a list of depth 65", ["run", "d", "s.txt"], 5, "pack: bad line load:1")
    place.pack(setting + b"[" * 262000 + b"]" * 262000 + b"\n")
    place.run("a list of depth 262,000", ["run", "d", "s.txt"], 5, "pack: bad line load:1")
    deeper = b"data modify storage p:m y.k set from storage p:m x\ndata modify storage p:m x set from storage p:m y\n"
    place.pack(setting + b"1\n" + deeper * 32000)
    place.run("a tree that gets deeper 32,000 times", ["run", "d", "s.txt"])
    part = b"data modify storage p:m x append value " + b"[" * 62 + b"1" + b"]" * 62 + b"\n"
    place.pack(setting + b"[]\n" + part * 60000)
    place.run("a list to which one too deep is appended, 60,000 times", ["run", "d", "s.txt"])
    doubled = b"".join(b"data modify storage p:m y.%c set from storage p:m x\n" % key for key in b"ab")
    doubled += b"data modify storage p:m x set from storage p:m y\n"
    place.pack(setting + b"1\n" + doubled * 20)
    place.run("a tree that doubles 20 times", ["run", "d", "s.txt"])
    place.pack(setting + b"1\n" + doubled * 60)
    place.run("a tree that doubles 60 times, with 1 GB to have", ["run", "d", "s.txt"], 6, "out of memory",
              memory=10**9)


def keys(place):
    place.script()
    for count in (1024, 4096, 16384, BUDGET):
        place.pack(b"".join(b"data modify storage p:m x.k%d set value 1\n" % key for key in range(count)))
        place.run(f"`run`, {count:,} keys of a compound, set one by one", ["run", "d", "s.txt"])
    for count in (16384, BUDGET):
        place.pack(b"".join(b"scoreboard players set #k%d p 1\n" % key for key in range(count)))
        place.run(f"{count:,} scores, set one by one", ["run", "d", "s.txt"])
    for count in (10000, 20000, 40000):
        parts = b",".join(b"k%05d:1" % key for key in range(count))
        place.pack(b"data modify storage p:m x set value {%s}\n" % parts)
        place.run(f"a line with a compound of {count:,} keys", ["run", "d", "s.txt"])


# Modules

def filling_module(kind, begin, part):
    """A module of one section of as many parts as 1 MiB holds, their count before them."""
    count = (SCRIPT_CAP - 20 - len(begin)) // len(part)
    return b"\0asm\1\0\0\0" + made.section(kind, begin + made.unsigned(count) + part * count), count


def modules(place):
    def run(what, data, status=2, line=""):
        place.put("m.wasm", data)
        shutil.rmtree(f"{place.folder}/out", ignore_errors=True)
        place.run(what, ["compile", "m.wasm", "out", "wk"], status, line)

    sections = b"\0asm\1\0\0\0" + b"\0\1\0" * ((SCRIPT_CAP - 8) // 3)
    run("`compile`, a module of 349,522 sections", sections, 0)
    run("with bytes behind them", sections + b"\1", 2, f"module: bad frame at {len(sections)}")
    types, count = filling_module(1, b"", b"\x60\0\0")
    run(f"a module of {count:,} types", types, 2, f"module: limit 1, {count} over 4096")
    kinds = made.module([made.function_type(0, 1)], [0], [], [])[:8] + made.section(1, b"\1\x60\0\0")
    blocks = (SCRIPT_CAP - 60) // 2
    code = made.section(10, b"\1" + made.unsigned(blocks * 2 + 1) + b"\0" + b"\2\x40" * blocks)
    run(f"a body of {blocks:,} blocks that begin", kinds + made.section(3, b"\1\0") + code, 2, "module: bad section 2")
    consts = (SCRIPT_CAP - 60) // 2
    code = made.section(10, b"\1" + made.unsigned(consts * 2 + 2) + b"\0" + b"\x41\0" * consts + made.END)
    run(f"a body of {consts:,} constants", kinds + made.section(3, b"\1\0") + code, 2,
        f"module: limit 5, {consts} over 262144")
    run("1 MiB of zeros", bytes(SCRIPT_CAP), 2, "module: not wasm")
    run("a module of one byte more", bytes(SCRIPT_CAP + 1), 3, "m.wasm is longer than 1048576 bytes")


def nests(count):
    """Bodies of so many nested blocks, by what they are."""
    test, change = made.get(0), made.get(0) + made.const(1) + made.ADD + made.put(0)
    blocks, loops, ifs = (b"\2" + made.VOID, b"\3" + made.VOID, test + b"\4" + made.VOID)
    return {"blocks": blocks * count + made.END * count,
            "blocks with a branch out of all in each": b"".join(
                blocks + test + b"\x0d" + made.unsigned(k) for k in range(count)) + made.END * count,
            "loops with a sum in each and behind each": (loops + change) * count + (change + made.END) * count,
            "`if`s with both arms": ifs * count + (b"\5" + change + made.END) * count}


def nested(place):
    for count in (256, 512, 1024):
        for kind, code in nests(count).items():
            body = made.body(0, code + made.get(0))
            place.put("m.wasm", made.module([made.function_type(1, 1)], [0], [("f", 0)], [body]))
            shutil.rmtree(f"{place.folder}/out", ignore_errors=True)
            place.run(f"`compile`, {count:,} nested {kind}", ["compile", "m.wasm", "out", "wk"])


def late(place):
    place.put("m.wasm", made.near())
    place.put("out/a", b"")
    refused = 8, "folder not empty: a"
    place.run("`compile`, the body of 81,930 loads, into a folder that isn't empty", ["compile", "m.wasm", "out", "wk"],
              *refused)
    place.put("m.wasm", made.labels())
    place.run("the `br_table` of 4,096 labels, into that folder", ["compile", "m.wasm", "out", "wk"], *refused)


# Disks, rights and outputs

def disks(place):
    place.script("tick 512\nshow\n")
    place.put("m.wasm", SMALL)
    cannot = r"cannot write f/out/\S+"
    for what, options in {"64 KiB": "size=64k", "12 inodes": "nr_inodes=12"}.items():
        with disk(place, "f", options):
            place.run(f"`exec`, a disk of {what}", ["exec", "m.wasm", "f/out", "wk", "s.txt"], 4, cannot, shown=[])
            place.run("`run` over what is left there", ["run", "f/out", "s.txt"], 5, NO_PACK)
            place.run("`compile` into what is left there", ["compile", "m.wasm", "f/out", "wk"], 8,
                      "folder not empty: data/")
        os.rmdir(f"{place.folder}/f")
    with disk(place, "f", "size=4k"):
        place.run("`gen`, its file on a disk of 4 KiB", ["gen", "1", "1000", "f/g.wasm", "f/out"], 4,
                  "cannot write f/g.wasm")
        with open(f"{place.folder}/f/out.txt", "wb") as full:
            place.run("`exec`, its output on a full disk", ["exec", "m.wasm", "out", "wk", "s.txt"], 4,
                      "cannot write output", out=full)
    os.rmdir(f"{place.folder}/f")


def rights(place):
    nobody = as_nobody(place)
    place.script()
    place.put("m.wasm", SMALL)
    place.put("closed/a", b"")
    place.put("secret.wasm", SMALL)
    place.pack(b"")
    functions_folder = f"{place.folder}/d/data/p/functions"
    os.mkdir(f"{place.folder}/open")
    for path, mode in {"closed": 0, "secret.wasm": 0, "open": 0o777}.items():
        os.chmod(f"{place.folder}/{path}", mode)

    def run(what, words, *wanted):
        place.run(what, words, *wanted, wrap=nobody)

    run("`compile`, a folder that may not be read", ["compile", "m.wasm", "closed", "wk"], 3, "cannot list closed")
    run("one in a folder that may not be read", ["compile", "m.wasm", "closed/b", "wk"], 3, "cannot list closed/b")
    run("one in a folder that may not be written", ["compile", "m.wasm", "new", "wk"], 4, r"cannot write new/\S+")
    run("a module that may not be read", ["compile", "secret.wasm", "open/a", "wk"], 3, "cannot read secret.wasm")
    run("a module that is a folder", ["compile", "open", "open/a", "wk"], 3, "cannot read open")
    run("`run`, functions of which one may be read", ["run", "d", "s.txt"], 0)
    os.chmod(f"{functions_folder}/load.mcfunction", 0)
    run("functions of which one may not be read", ["run", "d", "s.txt"], 3,
        "cannot read d/data/p/functions/load.mcfunction")
    os.chmod(functions_folder, 0o100)
    run("functions that may not be listed", ["run", "d", "s.txt"], 3, "cannot list d/data/p/functions")
    os.chmod(f"{place.folder}/d", 0)
    run("a pack that may not be read", ["run", "d", "s.txt"], 3, "cannot list d")
    for path in ("d", "d/data/p/functions", "closed"):
        os.chmod(f"{place.folder}/{path}", 0o755)


def outputs(place):
    place.pack(b"")
    place.script("show\n" * 1000)
    cannot = 4, "cannot write output"

    def through(text):
        return ["sh", "-c", f'exec "$@" {text}', "sh"]

    place.run("`run`, an output that is closed", ["run", "d", "s.txt"], *cannot, wrap=through(">&-"))
    place.run("one that takes no byte", ["run", "d", "s.txt"], *cannot, wrap=through(">/dev/full"))
    read, write = os.pipe()
    os.close(read)
    with os.fdopen(write, "wb") as pipe:
        place.run("a pipe that nobody reads", ["run", "d", "s.txt"], *cannot, out=pipe)
    place.run("`run` of an absent pack, an error stream that is closed", ["run", "none", "s.txt"], 5,
              wrap=through("2>&-"))
    place.run("one that takes no byte", ["run", "none", "s.txt"], 5, wrap=through("2>/dev/full"))
    place.run("all three streams closed", ["run", "d", "s.txt"], 4, wrap=through("<&- >&- 2>&-"))


# Kills

def below(folder):
    """The files below a folder, by their paths, with what they hold."""
    found = {}
    for at, _, names in os.walk(folder):
        for name in names:
            with open(f"{at}/{name}", "rb") as file:
                found[os.path.relpath(f"{at}/{name}", folder)] = file.read()
    return found


def written(folder):
    """How many files stand in a folder, which may not be there yet."""
    try:
        return len(os.listdir(folder))
    except FileNotFoundError:
        return 0


def kills(place):
    place.script()
    place.put("m.wasm", made.near())
    place.put("small.wasm", SMALL)
    place.run("`compile`, the body of 81,930 loads, into an empty folder", ["compile", "m.wasm", "whole", "wk"])
    whole = below(f"{place.folder}/whole")
    for least in (1, 1000, 20000, 30000):
        command = [*place.program, "compile", "m.wasm", "out", "wk"]
        with started(command, cwd=place.folder, stdout=subprocess.DEVNULL) as run:
            while run.poll() is None and written(f"{place.folder}/out/data/wk/functions") < least:
                time.sleep(0.01)
        left = below(f"{place.folder}/out")
        wrong = [path for path, data in left.items() if data != whole.get(path)]
        if len(wrong) > 1 or not all(whole.get(path, b"").startswith(left[path]) for path in wrong):
            place.wrong(f"whole files and at most one prefix, and not {wrong[:5]}")
        wanted = (0, "") if left == whole else (5, NO_PACK)
        what = f"`run` over {len(left):,} of {len(whole):,} files, which a kill left"
        place.run(what, ["run", "out", "s.txt"], *wanted)
        place.run("`compile` of a small module into them", ["compile", "small.wasm", "out", "wk"], 8,
                  "folder not empty: data/")
        shutil.rmtree(f"{place.folder}/out")


CASES = [functions, files, shows, lines, trees, keys, modules, nested, late, disks, rights, outputs, kills]


def main():
    asked = Words(__doc__)
    asked.add_program()
    asked.add_argument("--seconds", type=int, default=SECONDS)
    asked.add_argument("names", nargs="*", metavar="NAME")
    args = asked.parse_args()
    known = {case.__name__: case for case in CASES}
    if not {*args.names} <= {*known}:
        asked.error(f"the names are {', '.join(known)}")
    if not os.path.exists("/usr/bin/time"):
        raise Failed("/usr/bin/time isn't there: Debian's package time has it")
    bad = 0
    print("| what is run | status | line | seconds | system's | MB |\n|---|---|---|---|---|---|", flush=True)
    for name in args.names or known:
        with tempfile.TemporaryDirectory() as folder:
            place = Place(folder, args.program, args.seconds)
            try:
                known[name](place)
            except NotTried as why:
                print(f"| {name}: not tried, {why} | | | | | |", flush=True)
            bad += place.bad
    return 1 if bad else 0


if __name__ == "__main__":
    sys.exit(ended(main))
