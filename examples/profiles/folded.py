#!/usr/bin/env python3
# SPDX-License-Identifier: MIT OR Apache-2.0
"""Writes folded stacks, as flamegraph.pl and speedscope read them, of a profile's kernel part:

    perf record -a -g -- sleep 10
    perf script -F comm,ip | python3 folded.py > kernel.folded

A line has the command and the functions from the outermost in, and how many samples there were."""

import collections

import kernel_stacks


def main() -> None:
    stacks, names = kernel_stacks.asked_for(__doc__)
    counts: collections.Counter[str] = collections.Counter()
    for stack in stacks:
        functions = [names[addr] for addr in reversed(stack.addresses)]
        words = [name if module == "-" else f"{name} [{module}]" for name, module in functions]
        counts[";".join([stack.command.replace(";", ":"), *words])] += 1
    for line, count in sorted(counts.items()):
        print(line, count)


if __name__ == "__main__":
    main()
