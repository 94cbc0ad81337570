#!/usr/bin/env python3
"""Compiles a program again whenever its source changes, and puts the new pack in the place of the old one at once.

    tools/watch.py SOURCE PLACE [--call "NAME ARG .."] [--program PATH] [--once]

SOURCE is a C source (compiled as examples/compile_c.sh does), a Rust source (as docs/use/FROM_RUST.md does), a module
in text (by `wat2wasm`) or a module. Products of 64 bits are done by tools/mul64.py. PLACE is the pack's folder, as
`world/datapacks/wk`, and its last part the namespace. The pack is written into a folder beside it and moved there
whole, so that PLACE never holds half of one; the pack that it held before goes, and what is no pack isn't touched.
With --call it tells what the call weighs, in one tick of 2,147,483,647, and by how much that is more or less than the
last time. `/reload` makes the game read the new pack, and docs/use/IN_A_WORLD.md says how it begins anew.

What can't be compiled is told, and PLACE stays as it is. With --once it compiles once, and its status is 1 where that
failed; else it goes on until it is interrupted.
"""
import ctypes
import os
import re
import shutil
import sys
import tempfile
import time

sys.dont_write_bytecode = True

from commands import ROOT, Failed, Words, ended, output_of

RUSTC = ["/usr/bin/rustc", "--edition", "2021", "--target", "wasm32-unknown-unknown", "--crate-type", "cdylib",
         "-C", "opt-level=2", "-C", "lto", "-C", "panic=abort", "-C", "llvm-args=-replexitval=never",
         "-C", "link-arg=--strip-all", "-C", "link-arg=--stack-first", "-C", "link-arg=-zstack-size=8192"]
EXCHANGE, HERE = 2, -100


def module_of(source, folder):
    """The module of a source, without products of 64 bits."""
    out = f"{folder}/module.wasm"
    kind = os.path.splitext(source)[1]
    if kind == ".c":
        flags = ["--target=wasm32", "-mcpu=mvp", "-msign-ext", "-Os", "-ffreestanding", "-Wall", "-mllvm",
                 "-replexitval=never", f"-I{ROOT}/examples"]
        output_of(["clang", *flags, "-c", "-o", f"{folder}/module.o", source])
        output_of(["wasm-ld", "--no-entry", "--strip-all", "--stack-first", "-z", "stack-size=4096", "-o", out,
                   f"{folder}/module.o"])
    elif kind == ".rs":
        output_of([*RUSTC, "-o", out, source])
    elif kind == ".wat":
        output_of(["wat2wasm", source, "-o", out])
    elif kind == ".wasm":
        shutil.copyfile(source, out)
    else:
        raise Failed(f"{source} is none of .c, .rs, .wat, .wasm")
    output_of([f"{ROOT}/tools/mul64.py", out, out])
    return out


def put(new, place):
    """Puts a folder in the place of another one, in one step where the system has one."""
    if not os.path.isdir(place):
        os.rename(new, place)
        return
    libc = ctypes.CDLL(None, use_errno=True)
    if libc.renameat2(HERE, os.fsencode(new), HERE, os.fsencode(place), EXCHANGE):
        os.rename(place, f"{new}.old")
        os.rename(new, place)
        new = f"{new}.old"
    shutil.rmtree(new)


def weight_of(program, place, call):
    """What a call weighs, in one tick, and what the pack answers."""
    with tempfile.TemporaryDirectory() as folder:
        both = []
        for lines in (["ticks 200 65536"], ["ticks 200 65536", f"call {call}", "tick 2147483647", "show"]):
            with open(f"{folder}/script", "w", encoding="utf-8") as file:
                file.write("".join(f"{line}\n" for line in lines))
            both.append(output_of([*program, "run", place, f"{folder}/script"]))
    found = [re.search(r"^ticks \d+ commands (\d+)$", it, re.M) for it in both]
    if None in found:
        raise Failed(f"{program[0]} tells no weight")
    return int(found[1][1]) - int(found[0][1]), both[1].splitlines()[0]


def compile_once(args, last):
    """Compiles, and gives the call's weight."""
    place = os.path.abspath(args.place)
    beside = os.path.dirname(place)
    os.makedirs(beside, exist_ok=True)
    with tempfile.TemporaryDirectory() as folder:
        module = module_of(args.source, folder)
        new = tempfile.mkdtemp(prefix=".dpwasm-", dir=beside)
        try:
            told = output_of([*args.program, "compile", module, new, os.path.basename(place)]).strip()
            weight, answer = weight_of(args.program, new, args.call) if args.call else (None, None)
            os.chmod(new, 0o755)
            put(new, place)
        finally:
            shutil.rmtree(new, ignore_errors=True)
    print(f"{time.strftime('%H:%M:%S')} {told}", end="")
    if args.call:
        change = "" if last is None else f", {weight - last:+,}"
        print(f"; {args.call}: {answer}, weight {weight:,}{change}", end="")
    print(flush=True)
    return weight


def is_of_others(place):
    """Whether something is there that isn't a pack, and so is nothing to put another one in the place of."""
    if not os.path.isdir(place):
        return os.path.lexists(place)
    names = os.listdir(place)
    return bool(names) and not {"pack.mcmeta", "dpwasm.json"} <= {*names}


def stamp(path):
    try:
        return os.stat(path).st_mtime_ns
    except OSError:
        return None


def main():
    asked = Words(__doc__)
    asked.add_argument("source", metavar="SOURCE")
    asked.add_argument("place", metavar="PLACE")
    asked.add_argument("--call", metavar="NAME ARG ..")
    asked.add_program()
    asked.add_argument("--once", action="store_true")
    args = asked.parse_args()
    if not os.path.isfile(args.source):
        asked.error(f"no such file: {args.source}")
    if not re.fullmatch(r"(?!minecraft$)[a-z0-9_]{1,16}", os.path.basename(os.path.abspath(args.place))):
        asked.error(f"the last part of {args.place} has to be a namespace, 1 to 16 of a to z, digits and _")
    if is_of_others(args.place):
        asked.error(f"{args.place} holds what is no pack of dpwasm")
    seen, last = None, None
    try:
        while True:
            now = stamp(args.source)
            if now is not None and now != seen:
                seen = now
                try:
                    last = compile_once(args, last)
                except (Failed, OSError) as error:
                    print(f"{time.strftime('%H:%M:%S')} {error}", file=sys.stderr, flush=True)
                    if args.once:
                        return 1
            if args.once:
                return 0
            time.sleep(0.3)
    except KeyboardInterrupt:
        return 0


if __name__ == "__main__":
    sys.exit(ended(main))
