#!/usr/bin/env python3
"""Makes a zip of a pack's folder, with a function by name for each export.

    tools/pack.py DIR OUT.zip [--names EXPORT=NAME,NAME ..]

A data pack may lie in a world's folder `datapacks` as a folder or as a zip with `pack.mcmeta` at its top. Beside what
DIR holds the zip has `data/NS/functions/EXPORT.mcfunction` for each export, so that a player types `/function wk:carve
{seed:2026}` in place of setting `wk:io args` and running `wk:c0`. Its arguments are told by a macro, one number each,
and two for an i64, the low half first: NAME and NAME_high. They are called a, b, c and so on, or as `--names` says,
once for each export: `--names carve=seed`.

An export is passed over, and told, where its name can't be that of a function (a to z, digits and _, at most 64) or is
the name of one that the pack has. The zip is the same for the same folder. The status is 1, with a line that tells why,
where DIR holds no pack of dpwasm's form, where --names speaks of an export that isn't there or of other arguments than
it has, or where OUT.zip can't be written.
"""
import json
import os
import re
import sys
import zipfile

sys.dont_write_bytecode = True

from commands import Failed, Words, ended

NAME = re.compile(r"[a-z0-9_]{1,64}")
# zip files tell a time of each file; this is the earliest that they can
TIME = (1980, 1, 1, 0, 0, 0)


def index_of(folder):
    try:
        with open(f"{folder}/dpwasm.json", encoding="utf-8") as file:
            index = json.load(file)
        exports = [(it["name"], it["params"]) for it in index["exports"]]
        return index["namespace"], exports
    except FileNotFoundError:
        raise Failed(f"{folder} has no dpwasm.json") from None
    except (ValueError, KeyError, TypeError):
        raise Failed(f"{folder}/dpwasm.json is not of its form") from None


def arguments(params, names):
    """The names of the numbers that a call is told."""
    found = []
    for name, kind in zip(names, params):
        found += [name] if kind == "i32" else [name, f"{name}_high"]
    return found


def call(space, number, numbers):
    """The lines that call an export."""
    told = ",".join(f"$({name})" for name in numbers)
    given = f"$data modify storage {space}:io args set value [{told}]\n" if numbers else ""
    return f"{given}function {space}:c{number}\n"


def wanted_names(words, exports):
    """The names of arguments by export; letters where nothing is said."""
    found = {name: [chr(ord("a") + at) if at < 26 else f"a{at}" for at in range(len(params))]
             for name, params in exports}
    counts = {name: len(params) for name, params in exports}
    for word in words:
        export, _, told = word.partition("=")
        names = told.split(",") if told else []
        if export not in counts:
            raise Failed(f"--names speaks of {export}, and there is no such export")
        if len(names) != counts[export] or not all(map(NAME.fullmatch, names)) or len({*names}) < len(names):
            raise Failed(f"--names has to give {counts[export]} different names for {export}, of a to z, digits and _")
        found[export] = names
    return found


def files_of(folder):
    for at, folders, names in os.walk(folder):
        folders.sort()
        yield from (os.path.relpath(os.path.join(at, it), folder) for it in sorted(names))


def pack(folder, out, words):
    space, exports = index_of(folder)
    names = wanted_names(words, exports)
    files = list(files_of(folder))
    if "pack.mcmeta" not in files:
        raise Failed(f"{folder} has no pack.mcmeta")
    with zipfile.ZipFile(out, "w", zipfile.ZIP_DEFLATED) as made:
        def add(name, data):
            info = zipfile.ZipInfo(name, TIME)
            info.compress_type = zipfile.ZIP_DEFLATED
            made.writestr(info, data)

        for name in files:
            with open(f"{folder}/{name}", "rb") as file:
                add(name, file.read())
        taken = {*files}
        for number, (export, params) in enumerate(exports):
            name = f"data/{space}/functions/{export}.mcfunction"
            if not NAME.fullmatch(export) or name in taken:
                why = "the pack has a function of this name" if name in taken else "it can't be the name of a function"
                print(f"{export}: passed over, {why}; it is {space}:c{number}")
                continue
            taken.add(name)
            numbers = arguments(params, names[export])
            add(name, call(space, number, numbers))
            compound = f" {{{','.join(f'{it}:0' for it in numbers)}}}" if numbers else ""
            print(f"/function {space}:{export}{compound}")


def main():
    asked = Words(__doc__)
    asked.add_argument("folder", metavar="DIR")
    asked.add_argument("out", metavar="OUT.zip")
    asked.add_argument("--names", nargs="*", default=[], metavar="EXPORT=NAME,NAME")
    args = asked.parse_args()
    pack(args.folder, args.out, args.names)
    return 0


if __name__ == "__main__":
    sys.exit(ended(main))
