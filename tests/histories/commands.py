#!/usr/bin/env python3
"""commands.py PROGRAM RUNS SEED: compares what lookup, address and check write with --history and --at
with what they write with --kallsyms and the listing that plain.py finds at that time, for random
histories and times. Then annotate: each line of a random log with the one that it writes with the
listing at the time of this line."""
import os
import random
import re
import subprocess
import sys
import tempfile

import compared
import plain

# (one in each page of the random symbols)
ADDRESSES = [f"0xffffffff8100{page:x}fff" for page in range(16)]
BOUNDS = ["--kernel", "do_one", "a"]
COMMANDS = [["lookup", *BOUNDS, *ADDRESSES], ["lookup", "--json", "--callers", *ADDRESSES], ["address", *BOUNDS, "do_one", "a", "ext4:a"], ["check"]]


def written(program, folder, words, text):
    """What a command writes over the file h of a folder, what it says, and its status."""
    with open(f"{folder}/h", "wb") as file:
        file.write(text)
    ran = subprocess.run([program, *words], cwd=folder, stdin=subprocess.DEVNULL, capture_output=True, check=False)
    return ran.stdout, ran.stderr, ran.returncode


def line_of(parts):
    """The line of a check that says what a history has."""
    changes = sum(it.is_change for it in parts)
    span = b" from %s to %s" % (parts[0].written, parts[-1].written) if parts else b""
    return b"listings %d changes %d%s\n" % (len(parts) - changes, changes, span)


def wanted(program, folder, words, text, time):
    """What the command is to write over a history at a time."""
    try:
        parts = plain.read(text)
    except plain.NotUnderstood as fault:
        return b"", b"latchsym: h: line %d is not understood\n" % fault.args[0], 1
    listing = b"".join(line + b"\n" for line in plain.listing_at(parts, time))
    out, said, status = written(program, folder, [*words, "--kallsyms", "h"], listing)
    if words[0] == "check":
        at = out.index(b"modules ")
        out = out[:at] + line_of(parts) + out[at:]
    return out, said, status


# what a line of a 32-bit kernel begins with: a history is of one kernel
WIDE = re.compile(rb"(?m)^(c0|0) ")
UNTIMED = b"latchsym: note: log: no line has a time; only the kernel itself has names\n"


def random_log(pick):
    """A log with times in order or not, in which most lines have an address."""
    lines = []
    for _ in range(pick.randrange(1, 12)):
        time = b"%d.%06d" % (pick.randrange(10), pick.choice([0, 1, 360695, 500000, 999999]))
        before = pick.choice([b"", b"", b"[    %s] " % time, b"  perf 1 [000] %s: " % time, time + b" ", b"[%s] " % time[:-1]])
        after = pick.choice([b"plain", b"at [<ffffffff8100%04x>]" % pick.randrange(65536), b"ffffffffc000%x010 x" % pick.randrange(3)])
        lines.append(before + after)
    return b"\n".join(lines) + pick.choice([b"", b"\n"])


def named_history(pick):
    """A history of a kernel with modules at the same places, one after the other."""
    lines, at = [b"latchhistory 1"], 0
    for part in range(pick.randrange(1, 6)):
        at += pick.randrange(3)
        is_change = part > 0 and pick.random() < 0.8
        lines.append((b"change " if is_change else b"listing ") + compared.time_text(at, pick))
        at += 1
        if not is_change:
            lines += [b"ffffffff81000000 T _stext", b"ffffffff81000800 t do_one", b"ffffffff81002000 T _etext"]
        for _ in range(pick.randrange(3)):
            module = pick.choice(compared.MODULES[:5])
            lines.append(b"ffffffffc000%d000 t %s_a\t[%s]" % (pick.randrange(3), module, module))
        if is_change and pick.random() < 0.5:
            lines.append(b"gone " + pick.choice(compared.MODULES[:5]))
    return b"\n".join(lines) + b"\n"


def annotated(program, folder, words, log):
    """What annotate writes for a log, in lines, what it says, and its status."""
    ran = subprocess.run([program, "annotate", *words, "log"], cwd=folder, stdin=subprocess.DEVNULL, capture_output=True, check=False)
    return ran.stdout.splitlines(keepends=True), ran.stderr, ran.returncode


def wanted_log(program, folder, words, parts, log, at):
    """The lines that annotate is to write: each is taken from a run with the listing at its time."""
    runs, lines, time = {}, [], 0
    for number, line in enumerate(log.splitlines(keepends=True)):
        own = plain.line_time(line)
        time = time if own is None else own
        listing = b"".join(it + b"\n" for it in plain.listing_at(parts, time if at is None else at))
        if listing not in runs:
            with open(f"{folder}/h", "wb") as file:
                file.write(listing)
            runs[listing] = annotated(program, folder, [*words, "--kallsyms", "h"], log)[0]
        lines.append(runs[listing][number])
    return lines


def compare_log(program, folder, pick, run):
    """Compares one random log with a random history that is understood. Returns whether it has names
    of several listings."""
    text = pick.choice([compared.history, named_history, named_history])(pick)
    text, log = WIDE.sub(b"ffffffffc0000000 ", text), random_log(pick)
    try:
        parts = plain.read(text)
    except plain.NotUnderstood:
        return False
    with open(f"{folder}/log", "wb") as file:
        file.write(log)
    with open(f"{folder}/history", "wb") as file:
        file.write(text)
    words = [pick.choice(["--exact", "--callers"]), *pick.choice([[], BOUNDS])]
    at = pick.choice([None, None, None, compared.time_text(pick.randrange(9), pick)])
    asked = [*words, "--history", "history", *([] if at is None else ["--at", at.decode()])]
    got, said, status = annotated(program, folder, asked, log)
    time = None if at is None else plain.nanoseconds(*at.split(b"."))
    want = wanted_log(program, folder, words, parts, log, time)
    is_untimed = at is None and b"ffffffff" in log and all(plain.line_time(it) is None for it in log.splitlines())
    if (got, status, UNTIMED in said) != (want, 0, is_untimed):
        sys.exit(f"histories: log {run}, {' '.join(asked)}\n{text!r}\n{log!r}\nwanted {want} {is_untimed}\ngot    {got} {status} {said}")
    return any(b"+0x" in it for it in got)


def main(program, runs, seed):
    pick = random.Random(int(seed))
    named = 0
    with tempfile.TemporaryDirectory() as top:
        folders = [f"{top}/dated", f"{top}/listed"]
        for folder in folders:
            os.mkdir(folder)
        for run in range(int(runs)):
            text, words = compared.history(pick), pick.choice(COMMANDS)
            at = pick.choice([None, compared.time_text(pick.randrange(9), pick)])
            time = None if at is None else plain.nanoseconds(*at.split(b"."))
            asked = [*words, "--history", "h", *([] if at is None else ["--at", at.decode()])]
            got = written(program, folders[0], asked, text)
            want = wanted(program, folders[1], words, text, time)
            if got != want:
                sys.exit(f"histories: run {run} of seed {seed}, {' '.join(asked)}\n{text!r}\nwanted {want}\ngot    {got}")
            named += b"+0x" in got[0] or b'"symbol"' in got[0] or b" 0x" in got[0]
        logs = sum(compare_log(program, top, pick, run) for run in range(int(runs)))
    print(f"histories: {runs} commands, {named} with a name; {runs} logs, {logs} with a name")


if __name__ == "__main__":
    main(*sys.argv[1:])
