#!/usr/bin/env python3
"""random_traces.py PROGRAM COUNT: the steps of random traces against a plain replay (replay.py).

Writers and readers of few nodes are mixed, so that updates are refused, nodes are used again and
readers are overtaken in each place. Ends with status 1 at the first trace whose steps are not its own.
"""
import json
import pathlib
import random
import subprocess
import sys
import tempfile

import replay


def item(draw, order):
    low = draw.randrange(0, 60)
    return low, low + draw.randrange(1 if order == "halfopen" else 0, 20), draw.choice([0, 7, 2**53 - 1, 2**53, 2**64 - 1])


KINDS = ["insert", "erase", "batch", *["write"] * 6, "start", "start", *["read"] * 6, "#", ""]


def line(draw, version, order, firsts):
    """A line, which mostly erases what was inserted; `firsts` has the first words of that."""
    kind = draw.choice(KINDS)
    first = draw.choice(firsts) if firsts and draw.randrange(4) else draw.randrange(0, 60)
    if kind == "batch" and version > 1:
        erase = [first for _ in range(draw.randrange(0, 3))]
        insert = [n for _ in range(draw.randrange(0, 3)) for n in item(draw, order)]
        firsts += insert[::3]
        return " ".join(map(str, ["batch", len(erase), len(insert) // 3, *erase, *insert]))
    if kind in ("insert", "batch"):
        words = item(draw, order)
        firsts.append(words[0])
        return "insert {} {:#x} {}".format(*words)
    if kind == "erase":
        return f"erase {first}"
    if kind == "write":
        return "write " + draw.choice(["flip", "flip", "end", "end", "1", "2", "5"])
    if kind == "start":
        return f"start {draw.randrange(1, 4)} {draw.randrange(0, 80)}"
    if kind == "read":
        return f"read {draw.randrange(1, 4)} {draw.choice([1, 2, 3, 9])}"
    return kind and "# a comment"


def trace(seed):
    draw = random.Random(seed)
    version, order = draw.randrange(1, 4), draw.choice(["halfopen", "closed"])
    greatest = replay.GREATEST[version]
    start = draw.choice([0, 0, 0, greatest - 4, greatest])
    header = f"latchtrace {version} {order} {draw.choice([1, 2, 3, 8])} {start}"
    firsts = []
    lines = [line(draw, version, order, firsts) for _ in range(draw.randrange(1, 160))]
    return "\n".join([header, *lines]) + "\n"


def main():
    program, count = sys.argv[1], int(sys.argv[2])
    kinds = {}
    with tempfile.TemporaryDirectory() as folder:
        file = pathlib.Path(folder) / "a.trace"
        for seed in range(count):
            file.write_text(trace(seed))
            done = subprocess.run([program, "trace", "--steps", file], capture_output=True, text=True, check=False)
            try:
                if done.returncode or done.stderr:
                    raise replay.Wrong(f"status {done.returncode}: {done.stderr}")
                replay.states(file.read_text(), done.stdout)
            except replay.Wrong as wrong:
                print(f"steps: random trace {seed}: {wrong}")
                return 1
            for text in done.stdout.splitlines():
                kind = json.loads(text)["kind"]
                kinds[kind] = kinds.get(kind, 0) + 1
    # a test of runs in which nothing happens would say nothing
    rare = [kind for kind in [*replay.KINDS, "refusal"] if kinds.get(kind, 0) < count // 2]
    if rare:
        print(f"steps: too few of {rare} in random traces: {kinds}")
        return 1
    print(f"steps: {count} random traces, {sum(kinds.values())} events as a plain replay has them")
    return 0


if __name__ == "__main__":
    sys.exit(main())
