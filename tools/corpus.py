#!/usr/bin/env python3
"""Builds the programs of tools/corpus, and works out what their calls have to give.

  tools/corpus.py [--check] [NAME ..]

For each NAME.c or NAME.rs of tools/corpus, or for those that are named, it writes modules NAME.LEVEL.wasm into
tools/corpus/built, one for each level of optimisation: O0, O1, O2 and Os of C, and O1, O2 and Os of Rust, with the
flags of docs/use/FROM_C.md and docs/use/FROM_RUST.md. Products of 64 bits are done by tools/mul64.py. NAME.LEVEL.calls
beside it has a line for each call: the steps of the reduction, the call, and how it ends, with tabs between. The calls
are those of the source's lines `// call NAME ARG ..`, in their order; one is left out where it would take more steps
than are left of 20,000.

The steps are counted by tools/reference, and each end is that of tools/reference and of V8 (`node`), or it is told and
nothing is written. With --check nothing is written in any case, and what isn't as it is built already is told, and so
are the lines of crates/test_reductions that don't have the steps that are counted here. The status is 1 where something
is told.
"""
import glob
import json
import os
import sys
import tempfile

sys.dont_write_bytecode = True

from commands import ROOT, Failed, Words, completed, ended, output_of
from reference.engine import Instance
from reference.module import Unknown, read_module

FOLDER = f"{ROOT}/tools/corpus"
MOST_STEPS = 20000
LEVELS = {".c": ["O0", "O1", "O2", "Os"], ".rs": ["O1", "O2", "Os"]}
CLANG = ["clang", "--target=wasm32", "-mcpu=mvp", "-msign-ext", "-ffreestanding", "-Wall", "-Wextra", "-Werror",
         "-mllvm", "-replexitval=never", f"-I{ROOT}/examples"]
LINK = ["wasm-ld", "--no-entry", "--strip-all", "--stack-first", "-z", "stack-size=8192"]
RUSTC = ["/usr/bin/rustc", "--edition", "2021", "--target", "wasm32-unknown-unknown", "--crate-type", "cdylib",
         "-C", "lto", "-C", "panic=abort", "-C", "llvm-args=-replexitval=never", "-C", "link-arg=--strip-all",
         "-C", "link-arg=--stack-first", "-C", "link-arg=-zstack-size=8192"]
# What V8 says of a trap, and how it is named here.
TRAPS = {"unreachable": "unreachable", "divide by zero": "integer divide by zero",
         "remainder by zero": "integer divide by zero", "divide result unrepresentable": "integer overflow",
         "memory access out of bounds": "out of bounds memory access",
         "table index is out of bounds": "undefined element"}
RUN = """
const fs = require('fs');
const [code, calls] = process.argv.slice(2).map(path => fs.readFileSync(path));
const made = new WebAssembly.Instance(new WebAssembly.Module(code)).exports;
console.log(JSON.stringify(JSON.parse(calls).map(([name, args]) => {
  try {
    const value = made[name](...args.map(it => it.endsWith('n') ? BigInt(it.slice(0, -1)) : Number(it)));
    return value === undefined ? 'done' : `done ${value}`;
  } catch (trap) { return `trap ${trap.message}`; }
})));
"""


def compiled(source, level, folder):
    """The bytes of the module of a source."""
    out = f"{folder}/out.wasm"
    if source.endswith(".c"):
        output_of([*CLANG, f"-{level}", "-c", "-o", f"{folder}/out.o", source])
        output_of([*LINK, "-o", out, f"{folder}/out.o"])
    else:
        output_of([*RUSTC, "-C", f"opt-level={level[1:]}", "-o", out, source])
    output_of([f"{ROOT}/tools/mul64.py", out, out])
    with open(out, "rb") as file:
        return file.read()


def calls_in(source):
    with open(source, encoding="utf-8") as file:
        words = [line.split() for line in file if line.startswith("// call ")]
    return [(it[2], list(map(int, it[3:]))) for it in words]


def counted(module, calls):
    """The steps, the call and its end, for as many of the calls as there are steps."""
    instance, found, left = Instance(module), [], MOST_STEPS
    for name, numbers in calls:
        before, kept = instance.steps, (bytearray(instance.memory), list(instance.globals))
        end = instance.call(name, numbers)
        steps = instance.steps - before
        if steps > left:
            instance.memory, instance.globals = kept
            continue
        left -= steps
        found.append((steps, (name, numbers), end))
    return found


def ends_in_v8(data, module, calls, folder):
    """How V8 ends these calls."""
    kinds = {it.name: module.functions[it.index].type.params for it in module.exported()}
    told = [(name, [f"{it}{'n' if kind == 'i64' else ''}" for it, kind in zip(numbers, kinds[name])])
            for name, numbers in calls]
    for name, content in (("run.js", RUN.encode()), ("it.wasm", data), ("calls", json.dumps(told).encode())):
        with open(f"{folder}/{name}", "wb") as file:
            file.write(content)
    ends = json.loads(output_of(["node", "run.js", "it.wasm", "calls"], cwd=folder))
    return [f"trap {TRAPS.get(it[5:], it[5:])}" if it.startswith("trap ") else it for it in ends]


def build(source, level):
    """The bytes of a module, and the text of its calls."""
    name = f"{os.path.basename(source)} at {level}"
    with tempfile.TemporaryDirectory() as folder:
        data = compiled(source, level, folder)
        try:
            module = read_module(data)
        except Unknown as error:
            raise Failed(f"{name}: {error}") from None
        found = counted(module, calls_in(source))
        ends = ends_in_v8(data, module, [call for _, call, _ in found], folder)
    for (_, call, end), other in zip(found, ends):
        if end != other:
            raise Failed(f"{name}: {call} ends by `{end}`, and in V8 by `{other}`")
    if not found:
        raise Failed(f"{name}: each call takes too many steps")
    return data, "".join(f"{steps}\t{' '.join(map(str, [call, *numbers]))}\t{end}\n"
                         for steps, (call, numbers), end in found)


def uncounted():
    """The lines of crates/test_reductions that name steps and are otherwise here."""
    at, instance = f"{ROOT}/crates/test_reductions", None
    with open(f"{at}/stdout", encoding="utf-8") as file:
        for line in file:
            words = line.split()
            if words[:1] == ["module"]:
                with open(f"{at}/data/modules/{words[1]}.wasm", "rb") as module:
                    instance = Instance(read_module(module.read()))
            elif words[:1] in (["count"], ["call"]) and "running" not in words:
                before = instance.steps
                call, _, end = line.rstrip("\n").partition(": ")
                name, *numbers = call.split(" ")[1:]
                got = instance.call(name, [int(it[4:]) for it in numbers])
                steps = f" after {instance.steps - before} steps" if words[0] == "count" else ""
                if end != got + steps:
                    yield f"{call}: {got}{steps}, and there {end}"


def is_same(path, content):
    if not os.path.exists(path):
        return False
    with open(path, "rb") as file:
        return file.read() == content


def main():
    asked = Words(__doc__)
    asked.add_argument("--check", action="store_true")
    asked.add_argument("names", nargs="*", metavar="NAME")
    args = asked.parse_args()
    sources = {os.path.basename(path).partition(".")[0]: path
               for path in sorted(glob.glob(f"{FOLDER}/*.c") + glob.glob(f"{FOLDER}/*.rs"))}
    sources.pop("pack")
    if not {*args.names} <= {*sources}:
        asked.error(f"the names are {', '.join(sources)}")
    sys.setrecursionlimit(100000)
    completed(["node", "--version"])
    os.makedirs(f"{FOLDER}/built", exist_ok=True)
    bad = 0
    for line in uncounted() if args.check else []:
        bad += 1
        print(line)
    for name in args.names or sources:
        for level in LEVELS[os.path.splitext(sources[name])[1]]:
            data, calls = build(sources[name], level)
            for ending, content in (("wasm", data), ("calls", calls.encode())):
                path = f"{FOLDER}/built/{name}.{level}.{ending}"
                if args.check and not is_same(path, content):
                    bad += 1
                    print(f"{name}.{level}.{ending} isn't as it is built")
                elif not args.check:
                    with open(path, "wb") as file:
                        file.write(content)
            lines = calls.splitlines()
            print(f"{name}.{level}: {len(data)} bytes, {len(lines)} calls, "
                  f"{sum(int(line.partition(chr(9))[0]) for line in lines)} steps", flush=True)
    return 1 if bad else 0


if __name__ == "__main__":
    sys.exit(ended(main))
