#!/usr/bin/env python3
"""texts_once.py [--list]: whether texts stand once. A text that a function writes is a `const` of its
module, which a definition imports; one that stands as a literal in crates/*/src and again as
`codes ".."` in crates/*/specs has to be changed in two places. Those of more than three bytes are
counted, and no more than MOST may be there. Whoever makes some of them constants lowers MOST.
"""
import glob
import os
import re
import sys

TOP = os.path.dirname(os.path.dirname(os.path.abspath(__file__)))
MOST = 56
LITERAL = r'"((?:[^"\\]|\\.)*)"'


def texts(pattern, found):
    """The texts that match in the files of a pattern, with the files that each is in."""
    places = {}
    for path in glob.glob(f"{TOP}/crates/{pattern}", recursive=True):
        with open(path, encoding="utf-8") as file:
            lines = (line for line in file if not re.match(r"\s*(//|--|#\[)", line))
            for text in re.findall(found, "".join(lines)):
                places.setdefault(text.removesuffix("\\0"), set()).add(os.path.relpath(path, f"{TOP}/crates"))
    return places


def main():
    code = texts("*/src/**/*.rt", LITERAL)
    specs = texts("*/specs/**/*.antt", rf"codes\s+{LITERAL}")
    twice = sorted(text for text in specs if text in code and len(text) > 3)
    if "--list" in sys.argv or len(twice) > MOST:
        for text in twice:
            print(f'texts_once: "{text}" in {", ".join(sorted(specs[text]))}')
    print(f"texts_once: {len(twice)} texts stand in code and in definitions, of {MOST} that may")
    return len(twice) > MOST


if __name__ == "__main__":
    sys.exit(main())
