#!/usr/bin/env python3
# SPDX-License-Identifier: MIT OR Apache-2.0
"""crates.py CRATE..: the lines of crates.txt of these crates and of those that they stand on.

As a module: what stands on what, among the repository's crates and those of the kit.
"""
import os
import re
import sys

TOP = os.path.dirname(os.path.dirname(os.path.abspath(__file__)))


def lines_of_crates(file=f"{TOP}/crates.txt"):
    """The line of each crate of crates.txt, or of another such file, by its name and in their order."""
    with open(file, encoding="utf-8") as file:
        lines = [line.partition("#")[0].strip() for line in file]
    return {re.match(r"\w+", line)[0]: line for line in lines if line}


def uses_of_crates(file=f"{TOP}/crates.txt"):
    """What each crate of crates.txt, or of another such file, uses."""
    return {name: line.partition(":")[2].split() for name, line in lines_of_crates(file).items()}


def uses_of_kit_crate(kit, name):
    """What a crate of the kit uses."""
    with open(f"{kit}/rlibs/{name}.rlib/format", encoding="utf-8") as file:
        return re.findall(r"^dep (\w+)$", file.read(), re.M)


def below(names, uses):
    """These crates and all that they stand on, where uses returns what one uses."""
    found = list(dict.fromkeys(names))
    for name in found:
        found += [it for it in uses(name) if it not in found]
    return found


if __name__ == "__main__":
    USES = uses_of_crates()
    WANTED = below(sys.argv[1:], lambda name: [it for it in USES[name] if it in USES])
    print("\n".join(line for name, line in lines_of_crates().items() if name in WANTED))
