#!/usr/bin/env python3
"""edits.py: whether each edit that must fail fits its file: each `old:` text stands there once, after
the earlier ones were put in.

    edits.py [EDIT..]      looks at these, or at all of crates/*/must-fail and tests/wrong_bodies
    edits.py --put FOLDER EDIT      puts the edit into the files below the folder

As a module: puts an edit into a copy of its crate.
"""
import glob
import os
import re
import sys

TOP = os.path.dirname(os.path.dirname(os.path.abspath(__file__)))


def folder_of(top, crate):
    """The folder of a crate, which is one that is proved or one of tests/crates."""
    return next(it for it in (f"{top}/crates/{crate}", f"{top}/tests/crates/{crate}") if os.path.isdir(it))


def crate_of(edit):
    """The crate that a file of crates/CRATE/must-fail or of tests/wrong_bodies/CRATE edits."""
    return re.search(r"/crates/(\w+)/must-fail/|/wrong_bodies/(\w+)/", os.path.abspath(edit)).group(1, 2)


def edited(folder, edit):
    """The files of the crate in this folder as the edit makes them, by their paths; or else what is wrong."""
    texts, path, old = {}, None, None
    with open(edit, encoding="utf-8") as file:
        for kind, text in re.findall(r"^(file|old|new): (.*)$", file.read(), re.M):
            if kind == "file":
                path = f"{folder}/{text}"
                if not os.path.isfile(path):
                    # (a crate of tests/crates)
                    path = f"{os.path.splitext(path)[0]}.rattle"
                if not os.path.isfile(path):
                    return None, f"there is no {text}"
                if path not in texts:
                    with open(path, encoding="utf-8") as it:
                        texts[path] = it.read()
            elif kind == "old":
                old = text
            elif texts[path].count(old) != 1:
                return None, f"{texts[path].count(old)} times: {old}"
            else:
                texts[path] = texts[path].replace(old, text)
    return (texts, None) if old is not None else (None, "it has no line 'old:'")


def write(texts):
    """Writes these texts to the files of these paths."""
    for path, text in texts.items():
        with open(path, "w", encoding="utf-8") as file:
            file.write(text)


def put_in(folder, edit):
    """Puts an edit into the crate in this folder: what its files held before, by their paths; or else what is wrong."""
    texts, why = edited(folder, edit)
    before = {}
    for path in texts or {}:
        with open(path, encoding="utf-8") as file:
            before[path] = file.read()
    write(texts or {})
    return before, why


def main(words):
    if words[:1] == ["--put"]:
        _, why = put_in(*words[1:])
        if why:
            print(f"edits: {words[2]}: {why}")
        return 1 if why else 0
    edits = words or sorted(glob.glob(f"{TOP}/crates/*/must-fail/*.edit") + glob.glob(f"{TOP}/tests/wrong_bodies/*/*.edit"))
    bad = 0
    for edit in edits:
        crate = next(filter(None, crate_of(edit)))
        _, why = edited(folder_of(TOP, crate), edit)
        if why:
            bad += 1
            print(f"edits: {os.path.relpath(edit, TOP)}: {why}")
    print(f"edits: {len(edits) - bad} fit their files, {bad} do not")
    return 1 if bad else 0


if __name__ == "__main__":
    sys.exit(main(sys.argv[1:]))
