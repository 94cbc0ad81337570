#!/usr/bin/env python3
"""Tries what a user may do wrong with the tools of this folder: each answers `--help` with what it does, and faulty
words, a file or a program that isn't there, one that runs too long, and an interrupt with a line on standard error.

  tools/tools_check.py [NAME ..]

NAME is a tool, as `pack.py`; without one, all are tried. No tool gets to its work. The status is 1 where one ends
otherwise.
"""
import os
import signal
import subprocess
import sys
import tempfile
import time

sys.dont_write_bytecode = True

from commands import ROOT, Failed, Words, completed, ended

NO_TOOLS = {"commands.py", "tools_check.py", "workload.py"}
ABSENT = "/nonexistent/it"
# Words that name nothing, by tool; the words of the others name examples, pages and the like.
FAULTY = {
    "links.py": [["none"], ["--seeds", "many"]],
    "maze.py": [["none"], []],
    "measure.py": [[ABSENT], ["SOME"], ["FOLDER"], ["--steps", "many"], ["--match", "none"]],
    "mul64.py": [[ABSENT, "OUT"], ["SOME", ABSENT], ["SOME", "OUT"], ["OUT"], []],
    "mul64_check.py": [[ABSENT, ABSENT], [ABSENT], ["SOME", "SOME"]],
    "pack.py": [[ABSENT, "OUT"], ["FOLDER", "OUT"], ["FOLDER"], []],
    "packs.py": [[ABSENT], ["SOME"], ["--seeds", "many"]],
    "places.py": [["none"], ["--seed", "many"]],
    "profile.py": [[ABSENT, "SOME"], ["SOME", ABSENT], ["SOME", "SOME"], ["--samples", "0", "SOME", "SOME"], []],
    "several.py": [["--get", "a:b", "c", ABSENT], ["--get", "a:b", "c"], ["FOLDER"], []],
    "storm.py": [["none"], ["--seeds", "many"]],
    "watch.py": [[ABSENT, "OUT"], ["SOME", "Out"], ["SOME", "FOLDER"], ["SOME"], []],
    "wanted.py": [["none"], ["--root", ABSENT]],
}
# Words with which a tool waits for a program.
WAITING = {
    "examples.py": ["first"], "gallery.py": ["maze"], "hostile.py": ["labels"], "pages.py": ["FROM_C.md"],
    "limits.py": ["shows"], "links.py": ["--seeds", "1"], "measure.py": ["--match", "md5.O1"],
    "packs.py": ["--seeds", "0"], "places.py": ["md5"], "profile_check.py": ["fib"],
    "robust.py": ["mutants"], "storm.py": ["sum"],
    "profile.py": ["--svg", "OUT", f"{ROOT}/examples/first.wasm", f"{ROOT}/examples/first.txt"],
    "watch.py": [f"{ROOT}/examples/first.wasm", "OUT"],
}
# What is always ended by an interrupt.
ENDED_SO = {"watch.py"}


class Tried:
    """The tries of a tool, in a folder with a file of text and one with another file."""

    def __init__(self, name, folder):
        self.name, self.bad = name, 0
        self.places = {"SOME": f"{folder}/some.wasm", "OUT": f"{folder}/out", "Out": f"{folder}/Out",
                       "FOLDER": f"{folder}/folder"}
        os.makedirs(self.places["FOLDER"])
        for path in (self.places["SOME"], f"{self.places['FOLDER']}/some"):
            with open(path, "w", encoding="utf-8") as file:
                file.write("no module\n")

    def words(self, words):
        return [f"{ROOT}/tools/{self.name}", *(self.places.get(it, it) for it in words)]

    def tell(self, words, wrong):
        if wrong:
            self.bad += 1
            print(f"{self.name} {' '.join(words)}: {wrong}")

    def helps(self):
        ran = completed(self.words(["--help"]))
        is_good = ran.returncode == 0 and f"tools/{self.name}" in ran.stdout and not ran.stderr
        self.tell(["--help"], "" if is_good else f"status {ran.returncode}, {ran.stdout}{ran.stderr}")

    def refuses(self, words):
        ran = completed(self.words(words), stdin=subprocess.DEVNULL)
        self.tell(words, why_not(ran.returncode, ran.stdout, ran.stderr))

    def is_interrupted(self, words):
        """Once its program has begun it is interrupted, as by a terminal."""
        begun = f"{self.places['OUT']}.begun"
        program = f"{self.places['OUT']}.program"
        with open(program, "w", encoding="utf-8") as file:
            file.write(f"#!/bin/sh\ntouch {begun}\nexec sleep 60\n")
        os.chmod(program, 0o700)
        how = {"stdout": subprocess.DEVNULL, "stderr": subprocess.PIPE, "text": True, "start_new_session": True}
        with subprocess.Popen(self.words(["--program", program, *words]), **how) as tool:
            while not os.path.exists(begun) and tool.poll() is None:
                time.sleep(0.05)
            if tool.poll() is None:
                os.killpg(tool.pid, signal.SIGINT)
            errors = tool.communicate()[1]
        is_good = self.name in ENDED_SO and tool.returncode == 0 and not errors
        self.tell(["interrupted"], "" if is_good else why_not(tool.returncode, "", errors))


def why_not(status, output, errors):
    """What is wrong with how a tool ended that could do nothing."""
    lines = errors.splitlines()
    if status <= 0 or output or len(lines) != 1 or "Traceback" in errors:
        return f"status {status}, {len(lines)} lines on standard error: {output}{errors}"
    return ""


def try_tool(name):
    with tempfile.TemporaryDirectory() as folder:
        tried = Tried(name, folder)
        tried.helps()
        has_program = "--program" in completed(tried.words(["--help"])).stdout
        for words in [["--none"], *FAULTY.get(name, [["none"]])]:
            tried.refuses(words)
        if has_program:
            tried.refuses(["--program", ABSENT, *WAITING[name]])
            tried.is_interrupted(WAITING[name])
    return tried.bad


def try_seconds():
    """A program that runs too long, by what all tools run programs with."""
    try:
        completed(["sleep", "60"], 0.1)
    except Failed as error:
        return 0 if str(error) == "sleep ran for more than 0.1 seconds" else 1
    return 1


def main():
    asked = Words(__doc__)
    asked.add_argument("names", nargs="*", metavar="NAME")
    args = asked.parse_args()
    tools = sorted({it for it in os.listdir(f"{ROOT}/tools") if it.endswith(".py")} - NO_TOOLS)
    if not {*args.names} <= {*tools}:
        asked.error(f"the tools are {', '.join(tools)}")
    bad = sum(map(try_tool, args.names or tools)) + try_seconds()
    print(f"{bad} tries of {len(args.names or tools)} tools ended otherwise than they may")
    return 1 if bad else 0


if __name__ == "__main__":
    sys.exit(ended(main))
