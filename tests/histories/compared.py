#!/usr/bin/env python3
"""compared.py PROGRAM RUNS SEED: compares the answers of tests/crates/history_answers with those of
plain.py, for random histories, times and lines of logs."""
import random
import subprocess
import sys

import plain

MODULES = [b"ext4", b"ext", b"xfs", b"bpf", b"nf", b"]["]


def time_text(at, pick):
    """A TIME of about this many seconds, with some of its decimals."""
    decimals = pick.choice([b"0", b"5", b"360695", b"360695000", b"000001", b"999999999"])
    return b"%d.%s" % (at, decimals)


def symbol(pick, with_module):
    """A line of a listing, or of something like it."""
    address = pick.choice([b"ffffffff8100%04x" % pick.randrange(65536), b"0", b"0" * 16, b"c0"])
    line = address + b" " + pick.choice([b"t", b"T", b"t", b"d"]) + b" " + pick.choice([b"do_one", b"a", b"$x", b"two words"])
    if with_module:
        line += b"\t[" + pick.choice(MODULES) + b"]"
    if pick.random() < 0.08:
        at = pick.randrange(len(line))
        line = pick.choice([line[:at], line[:at] + b"\t" + line[at:], line + b" ", b"", b"#", line[:at] + b" " + line[at:]])
    if pick.random() < 0.02:
        line += b"x" * pick.choice([4096 - len(line), 4097 - len(line)])
    return line


def history(pick):
    """A history; one in some has a line that is not understood."""
    lines, at = [b"latchhistory 1"], pick.randrange(3)
    for _ in range(pick.randrange(7)):
        is_change = len(lines) > 1 and pick.random() < 0.7
        lines.append((b"change " if is_change else b"listing ") + time_text(at, pick))
        at += pick.choice([0, 0, 1, 1, 5])
        for _ in range(pick.randrange(5)):
            if is_change and pick.random() < 0.3:
                lines.append(b"gone " + pick.choice(MODULES))
            else:
                lines.append(symbol(pick, is_change or pick.random() < 0.6))
    if pick.random() < 0.3:
        spoil(lines, pick)
    text = b"\n".join(lines)
    return text if pick.random() < 0.2 else text + b"\n"


def spoil(lines, pick):
    """Changes a line, leaves one out or puts one in."""
    at = pick.randrange(len(lines))
    how = pick.randrange(3)
    if how == 0:
        del lines[at]
    elif how == 1:
        words = [b"gone ext4", b"gone", b"gone a b", b"gone ext4\t", b"listing", b"listing 1", b"change x.1", b"listing  2.0", b"change 12345678901.5"]
        words += [b"listing 0.1234567890", b"changes 1.0", b"listing 3.0 ", b"change 0.0", b"listing 9999999999.999999999", b"latchhistory 1", b"\tgone x"]
        lines.insert(at, pick.choice(words))
    else:
        line = lines[at]
        cut = pick.randrange(len(line) + 1)
        lines[at] = line[:cut] + pick.choice([b"", b" ", b"\t", b"0", b".", b"\r"]) + line[cut + pick.randrange(2) :]


def log_line(pick):
    """A line of a log, made of what times are made of."""
    pieces = [b"[", b"]", b" ", b" ", b"\t", b":", b".", b"52", b"104290", b"1.5", b"52.104290", b"52.104290123", b"7.1234567", b"12345678901.123456"]
    pieces += [b"x", b"6.1.0", b"[   52.104290]", b" 42.519426:", b"perf  1234 [002]", b"0", b"9.999999", b"\r", b"v2.123456", b"1.2.123456"]
    line = b"".join(pick.choice(pieces) for _ in range(pick.randrange(9)))
    return line + pick.choice([b"", b"\n"])


def asked_of(pick):
    """Requests about a random history, each with the answer that it should have."""
    text = history(pick)
    yield b"history %d\n" % len(text) + text, answer_of_history(text)
    try:
        parts = plain.read(text)
    except plain.NotUnderstood:
        parts = None
    times = [it.time for it in parts or []] + [0, 10**9, 4 * 10**9, 2**64 - 1]
    kept = None
    for _ in range(5):
        time = pick.choice([None, *times]) if kept is None else pick.choice(times)
        if time:
            time += pick.choice([0, 0, -1, 1]) if time < 2**64 - 1 else 0
        if kept is None or pick.random() < 0.2:
            request, said = b"at %s\n" % (b"-" if time is None else b"%d" % time), b""
        else:
            time = time or 0
            request = b"move %d\n" % time
            said = b"same " if count_at(parts, time) == kept else b"other "
        if parts is None:
            yield request, b"none\n"
            continue
        ends = text.endswith(b"\n")
        kept = count_at(parts, time)
        yield request, said + listing_text(parts, time, ends)
    before, is_known = 0, False
    for _ in range(6):
        line = log_line(pick)
        time = plain.line_time(line)
        before, is_known = (before, is_known) if time is None else (time, True)
        yield b"line %d\n" % len(line) + line, b"%s %s %d\n" % (b"none" if time is None else b"%d" % time, b"known" if is_known else b"unknown", before)


def count_at(parts, time):
    """How many parts have come by a time."""
    return None if parts is None else sum(time is None or it.time <= time for it in parts)


def listing_text(parts, time, ends):
    """The listing at a time as it is written: the last line of a file may lack its end."""
    lines = plain.listing_at(parts, time)
    text = b"".join(line + b"\n" for line in lines)
    last = parts[-1].lines[-1:] if parts else []
    now = [it for it in parts if time is None or it.time <= time] or parts[:1]
    if not ends and now and now[-1] is parts[-1] and last and lines and lines[-1] is last[0]:
        text = text[:-1]
    return b"%d\n%s\n" % (len(text), text)


def answer_of_history(text):
    """What is to be answered to a history."""
    try:
        parts = plain.read(text)
    except plain.NotUnderstood as fault:
        return b"bad %d\n" % fault.args[0]
    changes = sum(it.is_change for it in parts)
    said = b"history %d %d" % (len(parts) - changes, changes)
    return said + (b" %s %s\n" % (parts[0].written, parts[-1].written) if parts else b"\n")


def main(program, runs, seed):
    pick = random.Random(int(seed))
    asked = [it for _ in range(int(runs)) for it in asked_of(pick)]
    ran = subprocess.run([program], input=b"".join(it for it, _ in asked), stdout=subprocess.PIPE, check=True)
    at, understood = 0, 0
    for request, wanted in asked:
        said = ran.stdout[at : at + len(wanted)]
        if said != wanted:
            sys.exit(f"histories: to {request!r}\n  the program says {ran.stdout[at : at + len(wanted) + 40]!r}\n  and not {wanted!r}")
        at += len(wanted)
        understood += wanted.startswith(b"history")
    if at != len(ran.stdout):
        sys.exit(f"histories: the program says more: {ran.stdout[at:at + 80]!r}")
    print(f"histories: {len(asked)} answers compared, of {runs} histories, {understood} of them understood")


if __name__ == "__main__":
    main(*sys.argv[1:])
