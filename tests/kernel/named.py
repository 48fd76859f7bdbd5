#!/usr/bin/env python3
"""named.py PROGRAM FOLDER CONSOLE: looks at what tests/kernel/init has left of a boot in a folder, and at
what came out of its console."""
import re
import subprocess
import sys

# (a function that ran and its address, as the kernel names it at that time; and its caller)
FRAME = re.compile(r"(\d+\.\d{6}): (\S+) <([0-9a-f]{16})> <-")
NAMED = re.compile(r"\[<([0-9a-f]{16})>\](?: (\S+?)\+0x[0-9a-f]+/0x[0-9a-f]+(?: \[(\w+)\])?)?$")


def fail(text):
    sys.exit(f"kernel: {text}")


def read(folder, name):
    with open(f"{folder}/{name}", encoding="utf-8", errors="replace") as file:
        return file.read()


def named(program, words, log):
    """The names that a log gets, a line each."""
    ran = subprocess.run([program, "annotate", *words], input=log, capture_output=True, text=True, check=True)
    return [NAMED.search(line).groups()[1:] for line in ran.stdout.splitlines()]


def late_loads(history):
    """When a module was there whose load was read too late, as on a busy machine: from a change that has it
    as gone, though it did not stand, up to the next one that names it."""
    standing, begun, spans = set(), {}, []
    parts = iter(re.split(r"^(listing|change) (\S+)\n", history, flags=re.M)[1:])
    for kind, time, body in zip(parts, parts, parts):
        listed = set(re.findall(r"\t\[(\w+)\]$", body, re.M))
        gone = set(re.findall(r"^gone (\S+)$", body, re.M))
        ended = set(begun) if kind == "listing" else set(begun) & (listed | gone)
        spans += [(begun.pop(module), float(time)) for module in ended]
        begun.update((module, float(time)) for module in gone - standing)
        standing = listed if kind == "listing" else standing - gone | listed
    return spans + [(begin, float("inf")) for begin in begun.values()]


def is_within(time, spans):
    return any(begin <= time < end for begin, end in spans)


def main(program, folder, console):
    if read(folder, "record.err") or read(folder, "record.status") != "0\n" or read(folder, "instances"):
        fail(f"recorded: {read(folder, 'record.err')} status {read(folder, 'record.status')} {read(folder, 'instances')}")
    frames = FRAME.findall(read(folder, "frames"))
    log = "".join(f"{time}: [<{address}>]\n" for time, _, address in frames)
    by_time = named(program, ["--history", f"{folder}/history"], log)
    by_last = named(program, ["--kallsyms", f"{folder}/kallsyms"], log)
    modules = {module for _, module in by_time if module}
    if len(frames) < 20 or not {"zram", "loop", "brd", "dummy"} <= modules:
        fail(f"{len(frames)} functions ran in {modules}")
    wrong = [(frame, got) for frame, got in zip(frames, by_time) if got[0] not in (frame[1], None)]
    if wrong:
        fail(f"{len(wrong)} of {len(frames)} functions have another name than at their time: {wrong[:3]}")
    nameless = by_time.count((None, None))
    late = late_loads(read(folder, "history"))
    lost = [frame for frame, got in zip(frames, by_time) if got[0] is None and not is_within(float(frame[0]), late)]
    if lost or nameless > len(frames) // 10:
        fail(f"{nameless} of {len(frames)} functions have no name, and {len(lost)} of them ran in a module that was read: {lost[:3]}")
    others = sum(got not in (want, (None, None)) for got, want in zip(by_last, by_time))
    if not others:
        fail("by the last listing no function has another name")
    if not re.search(r"zram_reset_device\+0x0/\S+ \[zram\]", read(folder, "lookup")):
        fail(f"a lookup: {read(folder, 'lookup')}")
    if not re.search(r"^modules [1-9]", read(folder, "check"), re.M):
        fail(f"a check: {read(folder, 'check')}")
    if "Linux version" not in read(folder, "dmesg"):
        fail("dmesg")
    panic = subprocess.run([program, "annotate", "--history", f"{folder}/history", console], capture_output=True, check=True)
    # (it has names of its own, and says where its kernel lay)
    if b"Kernel Offset: 0x" not in panic.stdout or re.search(rb"disagree|boot|build|moved", panic.stderr):
        fail(f"the panic: {panic.stderr.decode()}")
    print(
        f"kernel: {len(frames) - nameless} of {len(frames)} functions of {len(modules)} modules have their names by their times, "
        f"and none a wrong one; by the last listing {others} have others"
    )


if __name__ == "__main__":
    main(*sys.argv[1:])
