#!/usr/bin/env python3
"""Finds in a second or two what would stop the gate after minutes. It reads the repository's text alone, and proves
nothing.

    tools/before_gate.py [--wide] [CRATE ..]

It tells of
- crates that crates.txt lists and that aren't there, and folders that it doesn't list;
- source, definition and proof files that no `mod` line declares, and `mod` lines without a file;
- answers of functions that aren't there any more;
- imports from this repository of modules or names that don't exist, of crates that crates.txt doesn't list for the
  crate, and imports that nothing uses;
- edits of must-fail/ that don't apply, by the gate's rules; edits and files of crates that docs/ names and that aren't
  there;
- files over 800 lines, and with --wide lines over 120 columns, but for those of proofs.

Each finding is a line. The status is 1 where there is one, 2 where the words name no crate."""
import os
import re
import sys
from functools import lru_cache

sys.dont_write_bytecode = True

from commands import ROOT as TOP, ended

GENERATED = {"Goals", "Given", "Met", "Statement", "Invariants", "Answers", "Proof"}
WORD = re.compile(r"[^\s(){}\[\],;.\"|:<>&*!?]+")
# where a tactic finds a term, what is imported for it needn't stand in the text
TACTIC = re.compile(r"\b(search|grind|simp|assumption|cc|rules)\b")
MOST_LINES, MOST_COLUMNS = 800, 120


@lru_cache(maxsize=None)
def text(path):
    with open(path, encoding="utf-8") as it:
        return it.read()


def crates_listed():
    found = {}
    for line in text(f"{TOP}/crates.txt").splitlines():
        name, colon, uses = line.partition("#")[0].partition(":")
        if colon:
            found[name.split()[0]] = uses.split()
    return found


def files_below(folder, ending):
    for at, folders, names in os.walk(folder):
        folders[:] = sorted(it for it in folders if it != "out")
        yield from (os.path.join(at, it) for it in sorted(names) if it.endswith(ending))


def without_comments(body):
    return re.sub(r"--[^\n]*|//[^\n]*", "", body)


class Import:
    """`use PATH.{names}` or `use PATH as name` of an antt file, or of a `ghost use` of a Rattle file."""

    def __init__(self, path, names, alias, line):
        self.path, self.names, self.alias, self.line = path, names, alias, line


IMPORT = re.compile(r"^[ \t]*(?:pub )?(?:ghost )?use (Rattle\.[^\s{;]+?)(?:\.\{([^}]*)\}| as (\S+?))?;?[ \t]*$", re.M)


def imports_of(body):
    for it in IMPORT.finditer(body):
        names = [tuple(part.split(" as ")) for part in re.split(r"\s*,\s*", it[2].strip()) if part] if it[2] else []
        yield Import(it[1].split("."), [(n[0], n[-1]) for n in names], it[3], body.count("\n", 0, it.start()) + 1)


@lru_cache(maxsize=None)
def imports_in(path):
    return list(imports_of(text(path)))


@lru_cache(maxsize=None)
def names_in(path):
    """All names that a file of definitions or lemmas may declare."""
    found = set()
    for line in text(path).splitlines():
        found.update(line.partition(" : ")[0].replace("(", " ").replace("{", " ").split())
    for it in imports_in(path):
        found.update(last for _, last in it.names)
        found.add(it.alias or it.path[-1])
    return found


@lru_cache(maxsize=None)
def source_of(crate):
    return "\n".join(text(it) for it in files_below(f"{TOP}/crates/{crate}/src", ".rt"))


@lru_cache(maxsize=None)
def words_of_source(crate):
    return set(re.findall(r"\w+", source_of(crate)))


def missing_of_source(crate, names):
    # (Rattle makes of a type its folds and their laws, and of a type with a view the view's parts)
    made = re.compile(r"the_\w+|\w+(-\w+)+|Inside|invariant")
    return [n for n in names if n not in words_of_source(crate) and not made.fullmatch(n)]


class Check:
    def __init__(self, listed):
        self.listed, self.found = listed, []

    def tell(self, path, line, what):
        at = os.path.relpath(path, TOP)
        self.found.append(f"{at}:{line}: {what}" if line else f"{at}: {what}")

    # ---- files and their declarations

    def modules(self, crate):
        folder = f"{TOP}/crates/{crate}"
        self.source_modules(folder)
        for part in ("specs", "proofs"):
            if os.path.isdir(f"{folder}/{part}"):
                self.antt_modules(folder, part)

    def source_modules(self, folder):
        root = next((it for it in (f"{folder}/src/lib.rt", f"{folder}/src/main.rt") if os.path.isfile(it)), None)
        if not root:
            return self.tell(folder, 0, "has neither src/lib.rt nor src/main.rt")
        reached, left = {root}, [(root, f"{folder}/src")]
        while left:
            path, below = left.pop()
            for name in re.findall(r"^\s*(?:pub(?:\(crate\))? )?mod (\w+);", text(path), re.M):
                places = [f"{below}/{name}.rt", f"{below}/{name}/mod.rt"]
                place = next((it for it in places if os.path.isfile(it)), None)
                if place:
                    reached.add(place)
                    left.append((place, f"{below}/{name}"))
                else:
                    self.tell(path, 0, f"declares the module {name}, which has no file")
        for path in files_below(f"{folder}/src", ".rt"):
            if path not in reached:
                self.tell(path, 0, "is declared by no `mod` line")

    def antt_modules(self, folder, part):
        top = f"{folder}/{part}"
        declared, nodes = set(), [f"{top}/Lib.antt"] if os.path.isfile(f"{top}/Lib.antt") else []
        for node in nodes:
            below = top if node == f"{top}/Lib.antt" else node[: -len(".antt")]
            for name in re.findall(r"^\s*(?:pub )?mod (\S+)", text(node), re.M):
                place = f"{below}/{name}.antt"
                if os.path.isfile(place):
                    declared.add(place)
                    nodes.append(place)
                else:
                    self.tell(node, 0, f"declares {name}, which has no file")
        for path in files_below(top, ".antt"):
            if path in declared or path == f"{top}/Lib.antt":
                continue
            if part == "proofs" and os.path.basename(path)[: -len(".antt")] in GENERATED:
                self.answers(folder, path)
            elif not (part == "proofs" and os.path.isdir(path[: -len(".antt")]) and os.path.basename(path)[0].islower()):
                self.tell(path, 0, "is declared by no `mod` line")

    def answers(self, folder, path):
        parts = os.path.relpath(path, f"{folder}/proofs").split("/")[:-1]
        name = parts[-1].lstrip("+")
        if not parts[-1].startswith("+") and name[0].islower() and name not in words_of_source(os.path.basename(folder)):
            self.tell(path, 0, f"answers for a function {name} that isn't there")

    # ---- imports

    def imports(self, crate):
        folder = f"{TOP}/crates/{crate}"
        for path in [*files_below(folder, ".antt"), *files_below(f"{folder}/src", ".rt")]:
            body = text(path)
            found = imports_in(path)
            for it in found:
                self.exists(crate, path, it)
            rest = without_comments(IMPORT.sub("", body))
            if "pub use" in body or TACTIC.search(rest):
                continue
            words = set(WORD.findall(rest))
            for it in found:
                for _, last in it.names or [(None, it.alias or it.path[-1])]:
                    first = next(part for part in last.split("◌") if part)
                    is_word = first == last and WORD.fullmatch(last)
                    if first not in words and (is_word or first not in rest):
                        self.tell(path, it.line, f"imports {last}, which nothing uses")

    def exists(self, crate, path, it):
        library = it.path[1]
        if library not in self.listed:
            return
        if library != crate and library not in self.listed[crate]:
            return self.tell(path, it.line, f"imports from {library}, which crates.txt doesn't list for {crate}")
        part, rest = it.path[2] if len(it.path) > 2 else "", it.path[3:]
        if part not in ("specs", "proofs"):
            return
        if rest[:1] in (["declared"], ["contracts"]):
            for name in missing_of_source(library, [n for n, _ in it.names if n[0].isalpha()]):
                self.tell(path, it.line, f"imports {name}, which is not in the source of {library}")
            return
        self.in_files(path, it, library, part, rest)

    def in_files(self, path, it, library, part, rest):
        at, names = f"{TOP}/crates/{library}/{part}", [n for n, _ in it.names]
        while rest and os.path.isdir(f"{at}/{rest[0]}") and len(rest) > 1:
            at, rest = f"{at}/{rest[0]}", rest[1:]
        if any(word in GENERATED for word in rest) or any(name in GENERATED for name in names):
            return
        place = f"{at}/{rest[0]}.antt" if rest else f"{at}/Lib.antt"
        if not os.path.isfile(place):
            if not (rest and os.path.isdir(f"{at}/{rest[0]}")) and not (part == "proofs" and rest and rest[0][0].islower()):
                self.tell(path, it.line, f"imports {'.'.join(it.path)}, which is not there")
            return
        there = names_in(place)
        for name in [*rest[1:], *names]:
            if name not in there and name != "TheVariants":
                self.tell(path, it.line, f"imports {name}, which {os.path.relpath(place, TOP)} doesn't have")

    # ---- edits

    def edits(self, crate):
        folder = f"{TOP}/crates/{crate}"
        if not os.path.isdir(f"{folder}/must-fail"):
            return
        for name in sorted(os.listdir(f"{folder}/must-fail")):
            path = f"{folder}/must-fail/{name}"
            if not re.fullmatch(r"[\w.-]+\.edit", name):
                if not name.endswith(".md"):
                    self.tell(path, 0, "is no edit by its name")
                continue
            self.edit(folder, path)

    def edit(self, folder, path):
        file, old, texts = None, None, {}
        for number, line in enumerate(text(path).splitlines(), 1):
            word, _, rest = line.partition(":")
            rest = rest[1:] if rest.startswith(" ") else rest
            if word == "file":
                file = rest.strip()
                if not os.path.isfile(f"{folder}/{file}"):
                    return self.tell(path, number, f"names {file}, which is not there")
                texts.setdefault(file, text(f"{folder}/{file}"))
            elif word == "old":
                old = rest
            elif word == "new":
                if file is None or old is None:
                    return self.tell(path, number, "has a new text without a file or an old one")
                count = texts[file].count(old)
                if count != 1:
                    return self.tell(path, number, f"its old text stands {count} times in {file}")
                texts[file] = texts[file].replace(old, rest)
                old = None
        if not texts or old is not None:
            self.tell(path, 0, "is not whole")

    def named_in_docs(self):
        for path in files_below(f"{TOP}/docs", ".md"):
            for number, line in enumerate(text(path).splitlines(), 1):
                for name in re.findall(r"`(?:crates/)?(\w+/(?:src|specs|proofs)/[\w/]+\.(?:rt|antt))`", line):
                    if name.split("/")[0] in self.listed and not os.path.isfile(f"{TOP}/crates/{name}"):
                        self.tell(path, number, f"names {name}, which is not there")
                for crate, name in re.findall(r"`(\w+)/(\w+)`", line):
                    if crate in self.listed and name not in ("src", "specs", "proofs", "data"):
                        if not os.path.isfile(f"{TOP}/crates/{crate}/must-fail/{name}.edit"):
                            self.tell(path, number, f"names the edit {crate}/{name}, which is not there")

    # ---- sizes

    def sizes(self, crate, is_wide):
        folder = f"{TOP}/crates/{crate}"
        for path in [*files_below(folder, ".antt"), *files_below(f"{folder}/src", ".rt")]:
            lines = text(path).splitlines()
            if len(lines) > MOST_LINES:
                self.tell(path, 0, f"has {len(lines)} lines")
            if "/proofs/" in path or not is_wide:
                continue
            for number, line in enumerate(lines, 1):
                if len(line) > MOST_COLUMNS and not re.match(r"\s*(ghost )?use ", line):
                    self.tell(path, number, f"is {len(line)} columns wide")


def main(words):
    listed = crates_listed()
    if "--help" in words:
        print(__doc__)
        return 0
    is_wide, words = "--wide" in words, [it for it in words if it != "--wide"]
    if any(it not in listed for it in words):
        print(f"no such crate: {' '.join(it for it in words if it not in listed)}", file=sys.stderr)
        return 2
    check = Check(listed)
    for name in sorted(os.listdir(f"{TOP}/crates")):
        if name not in listed and os.path.isdir(f"{TOP}/crates/{name}/src"):
            check.tell(f"{TOP}/crates/{name}", 0, "is not in crates.txt")
    for name in words or listed:
        if not os.path.isdir(f"{TOP}/crates/{name}/src"):
            check.tell(f"{TOP}/crates/{name}", 0, "is in crates.txt, and not there")
            continue
        check.modules(name)
        check.imports(name)
        check.edits(name)
        check.sizes(name, is_wide)
    if not words:
        check.named_in_docs()
    for line in check.found:
        print(line)
    print(f"{len(check.found)} found in {len(words or listed)} crates")
    return 1 if check.found else 0


if __name__ == "__main__":
    sys.exit(ended(lambda: main(sys.argv[1:])))
