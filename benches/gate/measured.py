#!/usr/bin/env python3
"""measured.py TABLE COMMAND..: runs a command that proves, and writes to TABLE what each crate took:
seconds and processor seconds of its proof, of its tests and of its edits, and most memory.

`rt ci` says nothing of time. So the prover's processes are looked at twice a second: the crate that
each is for stands in its command line, and whether it proves the crate, its tests or an edit that
must fail in its command line and in the folder that it works in.
"""
import collections
import os
import subprocess
import sys
import time

KINDS = ["proof", "tests", "edits"]
TICKS = os.sysconf("SC_CLK_TCK")


class Work:
    """What one crate's proof, tests or edits took: seconds, processor seconds and most KiB."""

    def __init__(self):
        self.begun, self.ended, self.cpu, self.memory = time.time(), time.time(), {}, 0

    def see(self, process, cpu, memory):
        self.ended = time.time()
        self.cpu[process] = cpu
        self.memory = max(self.memory, memory)


def kind_of(words, folder):
    """Whether these words, in this folder, prove a crate, its tests or one of its edits."""
    if "/rt-edit" in folder:
        return "edits"
    return "tests" if "--test" in words else "proof"


def parents():
    """The parent of each process that runs."""
    found = {}
    for process in filter(str.isdigit, os.listdir("/proc")):
        try:
            with open(f"/proc/{process}/stat", encoding="utf-8") as it:
                found[process] = it.read().rpartition(")")[2].split()[1]
        except OSError:
            pass
    return found


def is_below(process, top, parent_of):
    """Whether one process was started by another, or by one that was."""
    while process in parent_of and process != top:
        process = parent_of[process]
    return process == top


def look(works, top):
    """Adds up what the processes of the prover below this one have taken so far."""
    memory, parent_of = 0, parents()
    for process in parent_of:
        if not is_below(process, top, parent_of):
            continue
        try:
            with open(f"/proc/{process}/cmdline", "rb") as it:
                words = it.read().decode(errors="replace").split("\0")
            if os.path.basename(words[0]) != "rattle" or "--crate-name" not in words:
                continue
            with open(f"/proc/{process}/stat", encoding="utf-8") as it:
                fields = it.read().rpartition(")")[2].split()
            folder = os.readlink(f"/proc/{process}/cwd")
        except OSError:
            continue
        resident = int(fields[21]) * os.sysconf("SC_PAGE_SIZE") // 1024
        memory += resident
        name = words[words.index("--crate-name") + 1]
        cpu = (int(fields[11]) + int(fields[12])) / TICKS
        works[name, kind_of(words, folder)].see((process, fields[19]), cpu, resident)
    return memory


def lines_of(works, wall, most):
    """The table: a line for each crate, in the order in which their proofs began."""
    names = dict.fromkeys(name for name, _ in sorted(works, key=lambda it: works[it].begun))
    yield f"{'crate':14}" + "".join(f"{kind:>15}" for kind in KINDS) + f"{'MB':>7}"
    for name in names:
        line, memory = f"{name:14}", 0
        for kind in KINDS:
            work = works.get((name, kind))
            if work:
                took, memory = work.ended - work.begun, max(memory, work.memory)
                line += f"{f'{took:.0f}/{sum(work.cpu.values()):.0f}':>15}"
            else:
                line += " " * 15
        yield f"{line}{memory / 1024:7.0f}"
    cpu = {kind: sum(sum(work.cpu.values()) for (_, it), work in works.items() if it == kind) for kind in KINDS}
    parts = ", ".join(f"{kind} {cpu[kind] / 60:.0f}" for kind in KINDS)
    yield f"in all {wall / 60:.0f} minutes, {sum(cpu.values()) / 60:.0f} of processor time ({parts}), at most {most / 1024 / 1024:.1f} GB"


def main(table, command):
    works, begun, most = collections.defaultdict(Work), time.time(), 0
    running = subprocess.Popen(command)
    while running.poll() is None:
        most = max(most, look(works, str(running.pid)))
        with open(table, "w", encoding="utf-8") as it:
            print(*lines_of(works, time.time() - begun, most), sep="\n", file=it)
        time.sleep(0.5)
    return running.returncode


if __name__ == "__main__":
    if len(sys.argv) < 3:
        sys.exit("usage: measured.py TABLE COMMAND..")
    sys.exit(main(sys.argv[1], sys.argv[2:]))
