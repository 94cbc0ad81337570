#!/usr/bin/env python3
"""Works out what rows of crates/test_rows have to print where a pack is written, without the program.

  tools/wanted.py [--root FOLDER] [--write] [ROW ..]

It restates, in tools/reference, by docs/TARGET_CODE.md, docs/use/PACKS.md and docs/use/SCRIPTS.md and not from the
code, the functions of a pack, the order in which files are read and written, the commands that such packs use, and
scripts. ROW is a name of crates/test_rows/data/rows, with `.row` or without; its wanted text is printed. For a row
with `prefixes` the length of the prefix follows the name: `module-prefixes:8`.

Without a ROW, all rows are compared with crates/test_rows/stdout whose words are `exec`, `inspect`, `join`, `compile`,
`costs` or `gen` and of which a line `wrote ` stands there; also such prefixes; and those whose words are `multi` and
that print a line. The status is 1 where one differs, and 2 where one is asked for that can't be worked out. With
--write those that differ are written into stdout as they are worked out. From stdout come only the names of those rows
and the lengths of those prefixes.

Of `where` only places in a function that was called from outside are known here, and at its beginning. What is refused
before a pack is written, or for `multi` before the packs are loaded, isn't known here: don't ask for such a row.
"""
import json
import re
import sys
import zlib

sys.dont_write_bytecode = True

from commands import ROOT, Words, ended
from reference import where
from reference.engine import BITS, TRAPS, signed
from reference.joined import joined
from reference.module import PAGE, Unknown, need, read_module
from reference.pack import costs_lines, index_text, pack_functions
from reference.routines import halves
from reference.world import LOAD_BUDGET, Pack, is_line
import workload

FILE_CAP = 16777216
PRINTED_CAP = 2048
CALL_BUDGET = 512
WRITERS = {"exec": 5, "inspect": 5, "compile": 4, "costs": 4, "gen": 5}
WORKLOAD_SPACE, WORKLOAD_BUDGET, WORKLOAD_TICKS = "gen", 65536, 1000000


class Refused(Exception):
    def __init__(self, status, line):
        super().__init__(line)
        self.status, self.line = status, line


# Rows

def bytes_of(kind, rest):
    if kind == "hex":
        return bytes.fromhex(rest)
    if kind == "many":
        count, digits = rest.split(" ", 1)
        return bytes.fromhex(digits) * int(count)
    need(kind in ("line", "text"), f"bytes {kind}")
    return rest.encode() + (b"\n" if kind == "line" else b"")


def read_row(root, name):
    row = {"words": [], "file": {}, "swap": {}, "fail": {}, "prefixes": None}
    with open(f"{root}/crates/test_rows/data/rows/{name}", encoding="utf-8", newline="\n") as lines:
        for line in lines.read().split("\n"):
            key, _, rest = line.partition(" ")
            if key == "words":
                row["words"] = ["" if word == '""' else word for word in rest.split(" ")]
            elif key in ("file", "swap"):
                path, kind, *more = rest.split(" ", 2)
                row[key][path] = row[key].get(path, b"") + bytes_of(kind, "".join(more))
            elif key == "fail":
                device, call, length = rest.split(" ")
                row["fail"][device, int(call)] = int(length)
            elif key == "prefixes":
                row["prefixes"] = rest
    return row


def read_blocks(root):
    """The wanted text of each run, by what stands behind `row`."""
    with open(f"{root}/crates/test_rows/stdout", encoding="utf-8", newline="\n") as text:
        blocks = re.split(r"(?m)^(?=row )", text.read())[1:]
    return {block.split("\n")[0][4:]: block for block in blocks}


# Packs as files

def lines_of(name, data):
    raw = data.split(b"\n")
    if raw[-1] == b"":
        raw.pop()
    lines = []
    for number, line in enumerate(raw, 1):
        try:
            lines.append(line.decode("utf-8"))
            good = is_line(lines[-1])
        except UnicodeDecodeError:
            good = False
        if not good:
            raise Refused(5, f"pack: bad line {name}:{number}")
    return lines


# What a pack shows

def whole(parts):
    """The number in one or two ints, the low half first."""
    return parts[0] if len(parts) == 1 else parts[1] * 2**32 + parts[0] % 2**32


def is_ints(value, lengths):
    return isinstance(value, list) and len(value) in lengths and all(isinstance(part, int) for part in value)


def shown(world, space):
    public = world.stores.get(f"{space}:io", {})
    state, result, trap = public.get("state"), public.get("result"), public.get("trap")
    if state in (0, 1):
        return ["new", "running"][state]
    if state == 2 and is_ints(result, (0, 1, 2)):
        return f"done {whole(result)}" if result else "done"
    if state in (3, 4) and isinstance(trap, int) and 1 <= trap <= 8:
        return f"trap {TRAPS[trap]}" if state == 3 else "dead"
    return "none"


def shown_globals(world, space):
    values = world.stores.get(f"{space}:m", {}).get("g")
    if not isinstance(values, list) or not all(is_ints(value, (1, 2)) for value in values):
        return ["none"]
    return [f"global {number} {whole(value)}" for number, value in enumerate(values)]


def memory_of(world, space):
    """The bytes of the memory, or None where it isn't of the layout."""
    pages = world.stores.get(f"{space}:m", {}).get("mem")
    if not isinstance(pages, list) or not all(is_ints(page, (PAGE // 4,)) for page in pages):
        return None
    return b"".join(word.to_bytes(4, "little", signed=True) for page in pages for word in page)


def memory_line(memory, address, length):
    if memory is None:
        return "none"
    return memory[address:address + length].hex() if address + length <= len(memory) else "outside"


def dump_lines(memory):
    if memory is None:
        return ["none", "end"]
    rows = ((at, memory[at:at + 16]) for at in range(0, len(memory), 16))
    return [f"{at:08x} {row.hex()}" for at, row in rows if any(row)] + ["end"]


def named_own(space, command):
    """The first of the pack's own objective and storages that a command names."""
    words = command.split(" ")
    if words[0] == "scoreboard":
        names = [words[3]] if words[1] == "objectives" else [words[4]] + words[7:8] * (words[2] == "operation")
    else:
        names = [name for word, name in zip(words, words[1:]) if word == "storage"]
    return next((name for name in names if name in (space, f"{space}:io", f"{space}:m", f"{space}:c")), None)


# Runs

class Program:
    """One of several packs: its namespace, its exports, and the share of a budget that its functions had last."""

    def __init__(self, space, exports):
        self.space, self.exports, self.share = space, exports, LOAD_BUDGET


class Run:
    def __init__(self, row):
        self.row, self.content = row, dict(row["file"])
        self.calls, self.wrote, self.said, self.output, self.errors = 0, [], 0, b"", b""

    def failure(self):
        """For the next call of files: the length of what it leaves, or None where it doesn't fail."""
        self.calls += 1
        return self.row["fail"].get(("files", self.calls - 1))

    def read(self, path):
        if self.failure() is not None:
            raise Refused(3, f"cannot read {path}")
        if path in self.row["swap"]:
            self.content[path] = self.row["swap"][path]
        if path not in self.content:
            raise Refused(3, f"cannot read {path}")
        return self.content[path]

    def list(self, path):
        if self.failure() is not None:
            raise Refused(3, f"cannot list {path}")

    def write(self, path, data):
        left = self.failure()
        self.wrote.append(path)
        self.content[path] = data if left is None else data[:left]
        if left is not None:
            raise Refused(4, f"cannot write {path}")

    def say(self, line):
        left = self.row["fail"].get(("out", self.said))
        self.said += 1
        self.output += f"{line}\n".encode()[:left]
        if left is not None:
            raise Refused(4, "cannot write output")

    def run(self):
        words = self.row["words"]
        if words[0] == "multi":
            self.share_world(words[1], words[2:])
            return
        need(len(words) == WRITERS.get(words[0]) or words[0] == "join" and len(words) in range(7, 39, 2), "the words")
        if words[0] == "gen":
            self.make(int(words[1]), int(words[2]), *words[3:])
            return
        folder, self.space = words[2:4]
        need(not any(path.startswith(f"{folder}/") for path in self.content), "a folder that isn't empty")
        if words[0] == "join":
            script, self.module = self.read_joined(words)
        else:
            self.module = read_module(self.read(words[1]))
            need(not self.module.imports, "a module with imports")
            script = self.read(words[4]) if words[0] in ("exec", "inspect") else b""
        script = script.split(b"\n")
        functions = pack_functions(self.space, self.module)
        names = self.write_pack(folder, functions)
        if words[0] == "compile":
            self.say(f"files {len(names) + 4}")
        elif words[0] == "costs":
            self.say("\n".join(costs_lines(functions, len(self.module.functions))))
        else:
            self.play(self.read_pack(folder, names), script[:-1] if script[-1] == b"" else script)

    def make(self, number, size, file, folder):
        """A workload, whose module and value are those of tools/workload.py."""
        self.space, data = WORKLOAD_SPACE, workload.module(number, size)
        self.module = read_module(data)
        self.write(file, data)
        functions = self.read_pack(folder, self.write_pack(folder, pack_functions(self.space, self.module)))
        self.start(functions)
        self.wait()
        if shown(self.pack.world, self.space) != "running":
            self.call("the workload", ["main"])
            self.wait()
        self.say(f"bytes {len(data)}\nfunctions {size + 1}\npack {shown(self.pack.world, self.space)}\n"
                 f"reduction done {workload.value(data)}\nticks {self.ticks} commands {self.pack.used}")

    def wait(self):
        left = WORKLOAD_TICKS
        while left and shown(self.pack.world, self.space) == "running":
            self.tick(1, WORKLOAD_BUDGET)
            left -= 1

    def read_joined(self, words):
        """The script is read first, then the libraries in their order, and then the main module."""
        script = self.read(words[4])
        libraries = [(name, read_module(self.read(path))) for name, path in zip(words[5::2], words[6::2])]
        return script, joined(libraries, read_module(self.read(words[1])))

    def write_pack(self, folder, functions):
        self.list(folder)
        below = [path[len(folder) + 1:] for path in self.content if path.startswith(f"{folder}/")]
        if below:
            raise Refused(8, "folder not empty: " + min(re.match("[^/]*/?", path)[0] for path in below))
        for name, lines in functions:
            data = "".join(line + "\n" for line in lines).encode()
            self.write(f"{folder}/data/{self.space}/functions/{name}.mcfunction", data)
        for tag in ("load", "tick"):
            data = f'{{"values":["{self.space}:{tag}"]}}'.encode()
            self.write(f"{folder}/data/minecraft/tags/functions/{tag}.json", data)
        self.write(f"{folder}/dpwasm.json", index_text(self.space, self.module).encode())
        self.write(f"{folder}/pack.mcmeta", b'{"pack":{"description":"dpwasm","pack_format":26}}')
        return sorted(name for name, _ in functions)

    def read_same(self, path):
        written = self.content[path]
        need(self.read(path) == written, f"another {path}")

    def read_pack(self, folder, names):
        self.list(folder)
        self.read_same(f"{folder}/pack.mcmeta")
        self.read_same(f"{folder}/dpwasm.json")
        self.list(f"{folder}/data/minecraft/tags/functions")
        for tag in ("load", "tick"):
            self.read_same(f"{folder}/data/minecraft/tags/functions/{tag}.json")
        self.list(f"{folder}/data/{self.space}/functions")
        functions = {}
        for name in names:
            path = f"{folder}/data/{self.space}/functions/{name}.mcfunction"
            data = self.read(path)
            if len(data) > FILE_CAP:
                raise Refused(3, f"{path} is longer than {FILE_CAP} bytes")
            functions[f"{self.space}:{name}"] = lines_of(name, data)
        return functions

    def start(self, functions):
        self.pack, self.ticks = Pack(functions), 0
        self.pack.run(f"{self.space}:load", LOAD_BUDGET)

    def play(self, functions, script):
        self.start(functions)
        for number, raw in enumerate(script, 1):
            line = raw.decode("utf-8", "surrogateescape")
            if line and not line.startswith("#"):
                self.play_line(f"script line {number}", line)
        self.say(f"ticks {self.ticks} commands {self.pack.used}")

    def play_line(self, place, line):
        world, (key, *rest) = self.pack.world, line.split(" ")
        if key == "call":
            self.call(place, rest)
        elif key in ("tick", "ticks"):
            self.tick(int(rest[0]) if key == "ticks" else 1, int(rest[-1]))
        elif key == "reload":
            world.budget = int(rest[0])
            self.pack.run(f"{self.space}:load", world.budget)
        elif key == "other":
            own = named_own(self.space, line[6:])
            if own:
                raise Refused(7, f"{place}: names {own}")
            world.do(line[6:])
        elif key == "where" and self.row["words"][0] == "inspect":
            self.tell_where()
        else:
            self.show(key, rest)

    def tell_where(self):
        state, world = shown(self.pack.world, self.space), self.pack.world
        for line in where.lines(world, self.space, self.module) if state == "running" else [state]:
            self.say(line)

    def call(self, place, words):
        exports = [(export.name, self.module.functions[export.index].type.params)
                   for export in self.module.exported()]
        self.call_of(place, self.space, exports, words)

    def call_of(self, place, space, exports, words):
        """A call of the pack under a namespace, whose exports are these names with the types of their parameters."""
        if shown(self.pack.world, space) == "running":
            self.say("busy")
            return
        number = next((number for number, (name, _) in enumerate(exports) if name == words[0]), None)
        if number is None:
            raise Refused(7, f"{place}: no such export")
        params = exports[number][1]
        arguments = [int(word) for word in words[1:]]
        bits = [BITS[param] for param in params]
        if len(arguments) != len(params) or not all(
                -2**(width - 1) <= value < 2**width for width, value in zip(bits, arguments)):
            raise Refused(7, f"{place}: wrong arguments")
        if self.pack.world.get(f"{space}:io", "state") == 4:
            raise Refused(7, f"{place}: the instance is dead")
        ints = [int_ for param, width, value in zip(params, bits, arguments)
                for int_ in halves(param, signed(value, width))]
        self.pack.world.put(f"{space}:io", "args", ints)
        self.pack.run(f"{space}:c{number}", CALL_BUDGET)

    def tick(self, count, budget):
        world = self.pack.world
        world.budget = budget
        self.ticks += count
        while count:
            before, used = world.changes, self.pack.used
            self.pack.run(f"{self.space}:tick", budget)
            count -= 1
            if world.changes == before:
                # A tick that changes nothing is as all that follow.
                self.pack.used += (self.pack.used - used) * count
                count = 0

    def show(self, key, words):
        self.show_of(self.space, key, words)

    def show_of(self, space, key, words):
        world = self.pack.world
        need(key in ("show", "globals", "memory", "dump"), f"the script's {key}")
        if key in ("show", "dump"):
            self.say(shown(world, space))
        if key in ("globals", "dump"):
            for line in shown_globals(world, space):
                self.say(line)
        if key == "memory":
            self.say(memory_line(memory_of(world, space), *map(int, words)))
        if key == "dump":
            for line in dump_lines(memory_of(world, space)):
                self.say(line)


    # Several packs in one world

    def read_folder(self, folder):
        """The functions of the pack that stands in a folder; its program is put behind the others."""
        self.list(folder)
        self.read(f"{folder}/pack.mcmeta")
        index = json.loads(self.read(f"{folder}/dpwasm.json"))
        space = index["namespace"]
        self.list(f"{folder}/data/minecraft/tags/functions")
        for tag in ("load", "tick"):
            self.read(f"{folder}/data/minecraft/tags/functions/{tag}.json")
        self.list(f"{folder}/data/{space}/functions")
        front, end = f"{folder}/data/{space}/functions/", ".mcfunction"
        names = sorted(path[len(front):-len(end)] for path in self.content
                       if path.startswith(front) and path.endswith(end))
        self.programs.append(Program(space, [(export["name"], export["params"]) for export in index["exports"]]))
        return {f"{space}:{name}": lines_of(name, self.read(f"{front}{name}{end}")) for name in names}

    def share_world(self, script, folders):
        lines = self.read(script).split(b"\n")
        self.programs, functions = [], {}
        for folder in folders:
            functions.update(self.read_folder(folder))
        need(len({program.space for program in self.programs}) == len(folders), "namespaces that differ")
        self.pack, self.ticks = Pack(functions), 0
        for program in self.programs:
            self.pack.run(f"{program.space}:load", LOAD_BUDGET)
        for number, raw in enumerate(lines[:-1] if lines[-1] == b"" else lines, 1):
            line = raw.decode("utf-8", "surrogateescape")
            if line and not line.startswith("#"):
                self.play_shared(f"script line {number}", line)
        self.say(f"ticks {self.ticks} commands {self.pack.used}")

    def run_all(self, name, budget):
        """A function of each program in order, with its share; what is left over goes to one, which turns by the
        ticks."""
        count = len(self.programs)
        for place, program in enumerate(self.programs):
            program.share = budget // count + (budget % count if place == self.ticks % count else 0)
            self.pack.world.budget = program.share
            self.pack.run(f"{program.space}:{name}", program.share)

    def play_shared(self, place, line):
        key, *rest = line.split(" ")
        if key in ("tick", "ticks"):
            for _ in range(int(rest[0]) if key == "ticks" else 1):
                self.run_all("tick", int(rest[-1]))
                self.ticks += 1
        elif key == "reload":
            self.run_all("load", int(rest[0]))
        elif key == "other":
            owns = [named_own(program.space, line[6:]) for program in self.programs]
            owns = sorted({own for own in owns if own}, key=line.index)
            if owns:
                raise Refused(7, f"{place}: names {owns[0]}")
            self.pack.world.do(line[6:])
        else:
            need(key == "in", f"the script's {key}")
            program = next((program for program in self.programs if program.space == rest[0]), None)
            if program is None:
                raise Refused(7, f"{place}: no such program")
            if rest[1] == "call":
                self.pack.world.budget = program.share
                self.call_of(place, program.space, program.exports, rest[2:])
            else:
                self.show_of(program.space, rest[1], rest[2:])


# What is printed

def spelled_byte(byte):
    if byte == 92:
        return "\\\\"
    return chr(byte) if 32 <= byte <= 126 else f"\\{byte:02x}"


def quoted(label, data):
    text = ""
    for line in re.findall(rb"[^\n]*\n|[^\n]+$", data):
        spelled = "".join(map(spelled_byte, line.rstrip(b"\n")))
        text += f"{label}|{spelled}" + ("\n" if line.endswith(b"\n") else "\\\n")
    return text


def printed(title, status, run):
    text = f"row {title}\nstatus {status}\n" + quoted("out", run.output) + quoted("err", run.errors)
    for path in run.wrote:
        data = run.content[path]
        short = len(data) <= PRINTED_CAP
        text += f"wrote {path}\n"
        text += quoted("    ", data) if short else f"    {len(data)} bytes, adler32 {zlib.adler32(data):08x}\n"
    return text + f"{run.calls} calls of files\n\n"


def wanted(root, title):
    """The wanted text of a row, or of a prefix where its length stands behind the name."""
    name, _, length = title.partition(" ")
    row, status = read_row(root, name), 0
    need((row["prefixes"] is None) == (length == ""), "a row with prefixes goes with a length, and no other does")
    if length:
        row["file"][row["prefixes"]] = row["file"][row["prefixes"]][:int(length)]
    run = Run(row)
    try:
        run.run()
    except Refused as refused:
        status = refused.status
        run.errors = f"{refused.line}\n".encode()[:row["fail"].get(("err", 0))]
    return printed(title, status, run)


def title_of(asked):
    name, _, length = asked.partition(":")
    return (name if name.endswith(".row") else f"{name}.row") + (f" {length}" if length else "")


def is_worked_out(root, title, block):
    """Whether a pack is written in this run, or several are loaded in one world."""
    name = title.split(" ")[0]
    if not name.endswith(".row"):
        return False
    word = (read_row(root, name)["words"] or [""])[0]
    return word in (*WRITERS, "join") and "\nwrote " in block or word == "multi" and "\nout|" in block


def compare(root, writes):
    blocks = read_blocks(root)
    titles = [title for title, block in blocks.items() if is_worked_out(root, title, block)]
    bad, changed = [], {}
    for title in titles:
        try:
            text = wanted(root, title)
            if text != blocks[title]:
                bad.append(title)
                changed[blocks[title]] = text
        except Unknown as unknown:
            bad.append(f"{title}: can't be worked out: {unknown}")
    if writes:
        return write(root, changed, bad)
    print(f"{len(titles) - len(bad)} of {len(titles)} rows as wanted")
    for line in bad:
        print(f"    {line}")
    return 1 if bad else 0


def write(root, changed, bad):
    """Puts the blocks that changed in the place of those that stand in stdout."""
    path = f"{root}/crates/test_rows/stdout"
    with open(path, encoding="utf-8", newline="\n") as file:
        parts = re.split(r"(?m)^(?=row )", file.read())
    # What stands behind the last row is no part of a block.
    parts = [changed[part] if part in changed else part for part in parts]
    with open(path, "w", encoding="utf-8", newline="\n") as file:
        file.write("".join(parts))
    wrong = [line for line in bad if ": can't be worked out" in line]
    print(f"{len(changed)} rows written")
    for line in wrong:
        print(f"    {line}")
    return 1 if wrong else 0


def main():
    asked = Words(__doc__)
    asked.add_argument("--write", action="store_true")
    asked.add_argument("--root", default=ROOT, metavar="FOLDER")
    asked.add_argument("rows", nargs="*", metavar="ROW")
    args = asked.parse_args()
    # A body of 1,024 nested blocks takes several frames of this interpreter for each.
    sys.setrecursionlimit(100000)
    if not args.rows:
        return compare(args.root, args.write)
    for row in args.rows:
        try:
            print(wanted(args.root, title_of(row)), end="")
        except (Unknown, OSError) as error:
            print(f"{row}: can't be worked out: {error}", file=sys.stderr)
            return 2
    return 0


if __name__ == "__main__":
    sys.exit(ended(main))
