#!/usr/bin/env python3
"""Runs each example with its script, and compares what it prints with its wanted lines.

  tools/examples.py [--program PATH] [NAME ..]

For each examples/NAME.wanted it runs `exec examples/NAME.wasm DIR wk examples/NAME.txt`, and for each
examples/join/NAME.wanted, whose name here is join/NAME, `join` with the words of examples/join/NAME.join, in its
folder. In a wanted line `*` stands for any characters. The program is ./dpwasm of the repository, or that of --program.
The status is 1 where a run differs.
"""
import glob
import os
import re
import subprocess
import sys
import tempfile

sys.dont_write_bytecode = True

from commands import ROOT, SECONDS, Words, ended


def is_like(wanted, got):
    pattern = ".*".join(re.escape(part) for part in wanted.split("*"))
    return re.fullmatch(pattern, got) is not None


def job(name, folder):
    """The words of an example's run, which writes its pack into the folder."""
    at = f"{ROOT}/examples/{name}"
    if not name.startswith("join/"):
        return ["exec", f"{at}.wasm", folder, "wk", f"{at}.txt"]
    with open(f"{at}.join", encoding="utf-8") as words:
        return ["join", *(folder if word == "DIR" else word for word in words.read().split())]


def run(program, name):
    with tempfile.TemporaryDirectory() as folder:
        words = [*program, *job(name, f"{folder}/pack")]
        where = os.path.dirname(f"{ROOT}/examples/{name}")
        try:
            return subprocess.run(words, capture_output=True, text=True, timeout=SECONDS, check=False, cwd=where)
        except subprocess.TimeoutExpired:
            return subprocess.CompletedProcess(words, 124, "", f"it ran for more than {SECONDS} seconds")


def main():
    asked = Words(__doc__)
    asked.add_program()
    asked.add_argument("names", nargs="*", metavar="NAME")
    args = asked.parse_args()
    paths = [*glob.glob(f"{ROOT}/examples/*.wanted"), *glob.glob(f"{ROOT}/examples/join/*.wanted")]
    found = sorted(os.path.relpath(path, f"{ROOT}/examples")[:-7] for path in paths)
    if not {*args.names} <= {*found}:
        asked.error(f"the names are {', '.join(found)}")
    bad = 0
    for name in args.names or found:
        with open(f"{ROOT}/examples/{name}.wanted", encoding="utf-8") as lines:
            wanted = lines.read().splitlines()
        ran = run(args.program, name)
        got = ran.stdout.splitlines()
        good = not ran.returncode and len(got) == len(wanted) and all(map(is_like, wanted, got))
        print(f"{name}: {'as wanted' if good else 'differs'}")
        if not good:
            bad += 1
            print(f"    status {ran.returncode}, wanted {wanted}, got {got}, {ran.stderr}")
    return 1 if bad else 0


if __name__ == "__main__":
    sys.exit(ended(main))
