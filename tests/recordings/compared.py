#!/usr/bin/env python3
"""compared.py PROGRAM RUNS SEED: compares what tests/crates/recorded_blocks records with what plain.py
does, for random blocks of events and listings. Then what was recorded is read again as a history: at the
time of each event it has the lines that the listing had of its module."""
import random
import subprocess
import sys

import plain

MODULES = [b"ext4", b"ext", b"xfs", b"bpf", b"__builtin__ftrace", b"nf"]


def listing(pick, before):
    """A listing, often one that is like the one before."""
    if pick.random() < 0.02:
        return None
    lines = [] if before is None else before.split(b"\n")[:-1]
    if not lines or pick.random() < 0.1:
        lines = [b"ffffffff81000108 T do_one"]
    for _ in range(pick.randrange(4)):
        how = pick.random()
        if how < 0.4:
            name = pick.choice(MODULES)
            lines = [line for line in lines if plain.module_of(line) != name]
        elif how < 0.9:
            name = pick.choice(MODULES) if pick.random() < 0.97 else b"two words"
            at = pick.randrange(len(lines) + 1)
            if pick.random() < 0.7:
                at = next((place for place, line in enumerate(lines) if plain.module_of(line) == name), at)
            lines.insert(at, b"ffffffffc000%04x t a\t[%s]" % (pick.randrange(65536), name))
        else:
            lines.insert(pick.randrange(len(lines) + 1), pick.choice([b"listing 1.0", b"change", b"gone x", b"#", b"", b"gone\tx", b"listings", b"0000000000000000 t h\t[nf]"]))
    text = b"".join(line + b"\n" for line in lines)
    if pick.random() < 0.02:
        text = b"0000000000000000 t a\n0000000000000000 t b\t[nf]\n"
    return text[:-1] if pick.random() < 0.1 else text


def event(pick, at):
    """A line of ftrace at about this time, or something like it."""
    time = b"%d.%s" % (max(0, at + pick.choice([0, 0, 0, 0, -1])), pick.choice([b"5", b"000001", b"360695", b"360695123"]))
    name = pick.choice(MODULES)
    told = pick.choice([b"module_load: " + name, b"module_load: " + name + b" OE", b"module_free: " + name, b"tracing_mark_write: latchsym", b"tracing_mark_write: latchsym " + name])
    line = b"   sh-1   [000] ..... " + time + b": " + told
    if pick.random() < 0.1:
        line = pick.choice([b"CPU:1 [LOST 5 EVENTS]", b"x", b"", line + b" ", line + b"\t", time + b": " + told, line.replace(b": ", b":"), line + b" LOST", line[:-1], b"\t" + time + b": " + told])
    if pick.random() < 0.05:
        line = b" 1.5: 2.5: " + line + pick.choice([b"", line])
    if pick.random() < 0.003:
        line += b" " * pick.choice([65535 - len(line), 65536 - len(line), 70000, 140000])
    return line + b"\n"


def run(pick):
    """Blocks of events, and the listing of each."""
    text, at = b"", 0
    if pick.random() < 0.2:
        text = event(pick, at)
    text += b" m-1 [001] 0.5: tracing_mark_write: latchsym\n" if pick.random() < 0.9 else b""
    for _ in range(pick.randrange(12)):
        at += pick.choice([0, 0, 1, 1, 3])
        text += event(pick, at)
    if pick.random() < 0.1:
        text = text[:-1]
    blocks, listings, now = [], [], listing(pick, None)
    while text:
        size = pick.choice([1, 5, 40, 100, 200, 500, 65536])
        if pick.random() < 0.6:
            size = text.find(b"\n", size) + 1 or len(text)
        size = min(size, 65536)
        blocks.append(text[:size])
        text = text[size:]
        listings.append(now)
        now = listing(pick, now) if pick.random() < 0.6 else now
    return blocks, listings, pick.random() < 0.2


def request(blocks, listings, appends):
    """The run as the program is asked for it."""
    out = b"record %d\n" % appends
    for block, text in zip(blocks, listings):
        out += b"listing -\n" if text is None else b"listing %d\n" % len(text) + text
        out += b"block %d\n" % len(block) + block
    return out


def answer(writes, readings, end):
    """What the program is to answer."""
    out = b"".join(b"write %d\n" % len(text) + text + b"\nflush\n" for text in writes)
    return out + b"read" + b"".join(b" %d" % number for number in readings) + b"\n" + end + b"\n"


def look_at_history(blocks, listings, writes, readings):
    """What a history says wrongly of a module at the time of its event, if it does. Looked at are those
    events before which all are earlier, and after which all are later."""
    parts = plain.histories.read(b"".join(writes))
    events = []
    for number, lines in enumerate(plain.ended_lines(blocks), 1):
        events += [(event, min(number, len(blocks))) for event in (plain.said_by(line)[0] for line in lines) if event]
    times = [event.at for event, _ in events]
    for place, (event, number) in enumerate(events):
        is_known = max([-1, *times[:place]]) < event.at < min([2**64, *times[place + 1 :]]) and parts and event.at >= parts[0].time
        if not is_known or not event.name or event.kind != "freed" and number not in readings:
            continue
        now = [] if event.kind == "freed" and number not in readings else plain.histories.lines_of(listings[number - 1])
        listed = any(it.time == event.at and not it.is_change for it in parts)
        wanted = [] if event.kind == "freed" and not listed else plain.of(now, event.name)
        if plain.of(plain.histories.listing_at(parts, event.at), event.name) != wanted:
            return f"at {event.at} the history has other lines of {event.name!r} than {wanted!r}"
    return None


def main(program, runs, seed):
    pick = random.Random(int(seed))
    asked = [run(pick) for _ in range(int(runs))]
    ran = subprocess.run([program], input=b"".join(request(*it) for it in asked), stdout=subprocess.PIPE, check=True)
    at, changes = 0, 0
    for number, (blocks, listings, appends) in enumerate(asked):
        writes, readings, end = plain.recorded(blocks, listings, appends)
        wanted = answer(writes, readings, end)
        said = ran.stdout[at : at + len(wanted)]
        if said != wanted:
            sys.exit(f"recordings: run {number} of seed {seed}: {request(blocks, listings, appends)!r}\nwanted {wanted!r}\ngot    {ran.stdout[at:at + len(wanted) + 40]!r}")
        at += len(wanted)
        changes += wanted.count(b"\nchange ")
        if not appends and end == b"status 0":
            wrong = look_at_history(blocks, listings, writes, readings)
            if wrong:
                sys.exit(f"recordings: run {number} of seed {seed}: {wrong}\n{blocks!r}\n{writes!r}")
    if at != len(ran.stdout):
        sys.exit(f"recordings: the program says more: {ran.stdout[at:at + 80]!r}")
    print(f"recordings: {runs} recordings compared, with {changes} changes")


if __name__ == "__main__":
    main(*sys.argv[1:])
