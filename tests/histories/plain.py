"""Histories, plainly and slowly: the grammar of the file, the listing at a time, the time of a line.

Each rule is one regular expression or one loop over all the lines, and nothing is kept from one
question to the next. It shares nothing with the program.
"""
import re

TIME = rb"(\d{1,10})\.(\d{1,9})"
HEADER = re.compile(rb"(listing|change) " + TIME)
GONE = re.compile(rb"gone ([^ \t\n]+)")
RESERVED = re.compile(rb"(listing|change|gone)(?![^ \t])")
SYMBOL = re.compile(rb"([0-9a-fA-F]{1,16}) [^ \t] [^\t]+(?:\t\[([^\t]+)\])?", re.DOTALL)


class NotUnderstood(Exception):
    """A line is not understood; the argument is its number."""


def nanoseconds(seconds, decimals):
    """The nanoseconds of a time of which these digits are written."""
    return int(seconds) * 10**9 + int(decimals.ljust(9, b"0"))


def lines_of(text):
    """The lines, without their ends."""
    lines = text.split(b"\n")
    return lines[:-1] if lines[-1] == b"" else lines


def row(line):
    """Whether a line of a listing is well formed, and its module, if it has one."""
    found = SYMBOL.fullmatch(line) if len(line) <= 4096 else None
    return found is not None, found[2] if found else None


class Part:
    """A listing or a change, with its lines."""

    def __init__(self, kind, written, time):
        self.is_change, self.written, self.time, self.lines = kind == b"change", written, time, []


def read(text):
    """The parts of a history."""
    lines, parts = lines_of(text), []
    if not lines or lines[0] != b"latchhistory 1":
        raise NotUnderstood(1)
    for number, line in enumerate(lines[1:], 2):
        header = HEADER.fullmatch(line)
        if header:
            part = Part(header[1], line.split(b" ")[1], nanoseconds(header[2], header[3]))
            if part.is_change and not parts or parts and part.time < parts[-1].time:
                raise NotUnderstood(number)
            parts.append(part)
            continue
        is_gone = GONE.fullmatch(line) and parts and parts[-1].is_change
        if not parts or RESERVED.match(line) and not is_gone:
            raise NotUnderstood(number)
        if parts[-1].is_change and row(line) == (True, None):
            raise NotUnderstood(number)
        parts[-1].lines.append(line)
    return parts


def listing_at(parts, time):
    """The lines of the listing that stands at a time, or of the last one."""
    now = [it for it in parts if time is None or it.time <= time]
    if not now:
        return [line for line in parts[0].lines if row(line) == (True, None)] if parts else []
    listing = []
    for part in now:
        if not part.is_change:
            listing = list(part.lines)
            continue
        gone = [GONE.fullmatch(line) for line in part.lines]
        named = {it[1] for it in gone if it} | {row(line)[1] for line in part.lines if row(line)[1]}
        listing = [line for line in listing if row(line)[1] not in named]
        listing += [line for line, is_gone in zip(part.lines, gone) if not is_gone]
    return listing


FORMS = [
    re.compile(it)
    for it in (
        rb"\[ *" + TIME + rb"\]",
        rb"(?:\A|(?<=[ \t]))" + TIME + rb":",
        rb"\A[ \t]*" + TIME + rb"(?=[ \t\r\n]|\Z)",
    )
]


def line_time(line):
    """The time of a line: the first that it has in one of the three forms, with 6 or 9 decimals."""
    found = []
    for at in range(len(line)):
        for form in FORMS:
            it = form.match(line, at)
            if it and len(it[2]) in (6, 9):
                found.append((it.start(1), nanoseconds(it[1], it[2])))
    return min(found)[1] if found else None
