# SPDX-License-Identifier: MIT OR Apache-2.0
"""Kernel stacks of what `perf script -F comm,ip` writes, and their names, for folded.py and
pprof.py."""

import argparse
import array
import sys
from typing import Iterable, Iterator, NamedTuple

import latchsym

KERNEL = 0xFFFF << 48  # addresses from here on are the kernel's


class Stack(NamedTuple):
    """A sample: the command, and the kernel's addresses from the innermost out."""

    command: str
    addresses: tuple[int, ...]


def read(lines: Iterable[str]) -> Iterator[Stack]:
    """The samples. The first address is where the sample was taken, and each other one is where a
    call returns to: of these the byte before is looked up, which is of the call."""
    command, addresses, place = None, [], 0
    for line in [*lines, ""]:
        words = line.split()
        if not line[:1].isspace() and words:
            command, addresses, place = line.strip(), [], 0
        elif words:
            addr = int(words[0], 16)
            if addr >= KERNEL:
                addresses.append(addr - (place > 0))
            place += 1
        elif command is not None:
            yield Stack(command, tuple(addresses))
            command = None


def names(catalog: latchsym.Catalog, addresses: Iterable[int]) -> dict[int, tuple[str, str]]:
    """The name of each address and its module; the name is asked for once for each symbol."""
    distinct = array.array("Q", set(addresses))
    answers = catalog.find_many(distinct)
    by_start: dict[int, tuple[str, str]] = {}
    named = {}
    for addr, offset in zip(distinct, answers.offsets):
        start = addr - offset
        if start not in by_start:
            symbol = catalog.find(addr)
            name = symbol.name if symbol and symbol.name else "[unknown]"
            by_start[start] = name, symbol.module if symbol else "-"
        named[addr] = by_start[start]
    return named


def asked_for(about: str) -> tuple[list[Stack], dict[int, tuple[str, str]]]:
    """The samples that the command line asks for, and the names of their addresses."""
    layout = argparse.RawDescriptionHelpFormatter
    parser = argparse.ArgumentParser(description=about, formatter_class=layout)
    parser.add_argument("script", nargs="?", help="what perf script wrote, else standard input")
    parser.add_argument("--kallsyms", default="/proc/kallsyms", help="%(default)s if not given")
    words = parser.parse_args()
    if words.script:
        with open(words.script, encoding="utf-8", errors="replace") as file:
            stacks = list(read(file))
    else:
        stacks = list(read(sys.stdin))
    with latchsym.Catalog.from_files(words.kallsyms) as catalog:
        return stacks, names(catalog, (addr for stack in stacks for addr in stack.addresses))
