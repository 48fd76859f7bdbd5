"""What `latchsym annotate` has to write, by a plain slow program straight from the rules of
docs/FORMATS.md ("Annotated log"), compared with what it does write.

    annotated.py PROGRAM FOLDER RUNS SEED EXAMPLES

annotates the logs of the folder EXAMPLES, RUNS random logs by random listings of a few lines, and
then lines of about the greatest length. What was annotated is annotated again: by the rules too, and
where the log is of the form that kernels give them, that changes nothing. FOLDER is where the files
of a run lie; after one that differs they stay there, and the status is 1.
"""

import os
import random
import subprocess
import sys

sys.path.insert(0, os.path.join(os.path.dirname(os.path.abspath(__file__)), "..", "symbols_alone"))
from expected import asked, random_bounds, random_listing, read
from logs import kernel_log, random_log
from plain import ByModules, BySymbols, Rule
from rules import LONGEST, annotated, note_of

TWICE = 1000


def write(folder, **files):
    for name, content in files.items():
        with open(os.path.join(folder, name), "wb") as file:
            file.write(content)


def compare(program, folder, words, plain, rule, log):
    """Ends this program where the other one writes another log, or notes something else of it."""
    write(folder, log=log)
    words = [program, "annotate", "--kallsyms", "kallsyms", *words, *rule.words(), "log"]
    done = subprocess.run(words, cwd=folder, capture_output=True, timeout=600, close_fds=False)
    listings = (b"latchsym: note: kallsyms: ", b"latchsym: note: modules: ")
    said = [line for line in done.stderr.splitlines() if not line.startswith(listings)]
    wanted, written = annotated(log, plain, rule)
    if done.returncode == 0 and said == note_of(written, plain, rule) and done.stdout == wanted:
        return wanted, said
    write(folder, wanted=wanted)
    at = next((i for i, (a, b) in enumerate(zip(wanted, done.stdout)) if a != b), min(len(wanted), len(done.stdout)))
    print(f"random_logs: {' '.join(map(repr, words[1:]))}: status {done.returncode}")
    print(f"random_logs: {done.stderr[:300]!r} in place of {note_of(written, plain, rule)!r}")
    print(f"random_logs: at byte {at}, {done.stdout[at:at + 80]!r} in place of {wanted[at:at + 80]!r}")
    sys.exit(1)


def narrow(listing):
    """The listing as that of a 32-bit kernel, where its addresses are low."""
    lines = listing.split(b"\n")
    return b"\n".join(line[8:] if line.startswith(b"0" * 8) else line for line in lines)


def random_runs(program, folder, runs, draw):
    """How many random logs were changed, how many noted, and how many annotated twice for good."""
    changed = noted = twice = 0
    for run in range(runs):
        listing, bounds = random_listing(draw), random_bounds(draw)
        listing = narrow(listing) if draw.randrange(2) else listing
        rule = Rule(draw.choice([0, 0, 0, 1, 4096]), draw.choice(["", "", "", "", "--callers", "--exact"]))
        plain = BySymbols(listing, bounds)
        addresses = asked(read(listing)[0])
        log = random_log(draw, plain, rule, addresses)
        write(folder, kallsyms=listing)
        words = ["--kernel", *bounds] if bounds else []
        wanted, said = compare(program, folder, words, plain, rule, log)
        changed, noted = changed + (wanted != log), noted + bool(said)
        if run < TWICE:
            compare(program, folder, words, plain, rule, wanted)
            twice += kernel_twice(program, folder, draw)
    return changed, noted, twice


KERNEL = b"".join(
    b"%016x t %s\n" % line
    for line in [
        (0xFFFFFFFF81000000, b"_stext"), (0xFFFFFFFF81000100, b"do_one"), (0xFFFFFFFF81000100, b"do_alias"),
        (0xFFFFFFFF81000200, b"do_two.isra.0"), (0xFFFFFFFF81002000, b"_etext"),
        (0xFFFFFFFFC0000010, b"ext4_a\t[ext4]"), (0xFFFFFFFFC0000040, b"ext4_b\t[ext4]"),
    ]
)


def kernel_twice(program, folder, draw):
    """Annotates a log as kernels write them, and that log again, which changes nothing more."""
    plain = BySymbols(KERNEL, None)
    write(folder, kallsyms=KERNEL)
    rule = Rule(0, draw.choice(["", "", "", "", "--callers", "--exact"]))
    log = kernel_log(draw, asked(read(KERNEL)[0]))
    once, _ = compare(program, folder, [], plain, rule, log)
    again, _ = compare(program, folder, [], plain, rule, once)
    if again != once:
        print("random_logs: annotated twice, a log is another one")
        sys.exit(1)
    return once != log


def long_lines(program, folder):
    """Lines of about the greatest length, with and without an end, between lines of a trace."""
    plain = BySymbols(KERNEL, None)
    write(folder, kallsyms=KERNEL)
    address = b"[<ffffffff81000100>]"
    for length in (LONGEST - 1, LONGEST, LONGEST + 1, 2 * LONGEST, 5 * LONGEST + 3):
        for end in (b"", b"\n", b"\n " + address, b"\n " + address + b"\n"):
            for first in (b"", b" " + address + b"\n", b"RIP\n", b"User PSW\n"):
                filler = b"a " * (length // 2)
                for line in (b" " + address + filler, filler + address, b"User PSW" + filler):
                    line = line[-length:] if line.endswith(b"]") else line[:length]
                    log = first + line + end
                    compare(program, folder, [], plain, Rule(0, ""), log)
                    compare(program, folder, [], plain, Rule(0, ""), first + line[:-1] + end)


def read_file(*path):
    path = os.path.join(*path)
    if not os.path.exists(path):
        return None
    with open(path, "rb") as file:
        return file.read()


def examples(program, folder, logs):
    """Annotates the examples, once and again, and looks that the files beside them are what it gives."""
    names = sorted(name[:-4] for name in os.listdir(logs) if name.endswith(".log"))
    for name in names:
        listed = os.path.join(logs, name)
        if not os.path.exists(listed + ".kallsyms"):
            listed = os.path.join(logs, "..", "listings", "basic")
        kallsyms, modules = read_file(listed + ".kallsyms"), read_file(listed + ".modules")
        write(folder, kallsyms=kallsyms, modules=modules or b"")
        plain = ByModules(kallsyms, modules) if modules else BySymbols(kallsyms, None)
        words = ["--modules", "modules"] if modules else []
        for beside, callers in (("expected", ""), ("exact", "--exact"), ("callers", "--callers")):
            log = read_file(logs, name + ".log")
            wanted, _ = compare(program, folder, words, plain, Rule(0, callers), log)
            again, _ = compare(program, folder, words, plain, Rule(0, callers), wanted)
            if wanted != read_file(logs, f"{name}.{beside}") or again != wanted:
                write(folder, wanted=wanted)
                print(f"random_logs: {name}.{beside} is another log, or changes where it is annotated")
                sys.exit(1)
    return len(names)


def main():
    program, folder, runs, seed, logs = sys.argv[1:]
    count = examples(program, folder, logs)
    changed, noted, twice = random_runs(program, folder, int(runs), random.Random(int(seed)))
    long_lines(program, folder)
    print(
        f"random_logs: {count} examples; {runs} logs, {changed} of them changed, {noted} noted; "
        f"{twice} annotated twice; and lines of about {LONGEST} bytes"
    )


main()
