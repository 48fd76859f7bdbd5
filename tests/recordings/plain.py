"""Recordings, plainly and slowly: what the lines of ftrace say, and what is written for them.

Each rule is one regular expression or one loop over all lines. It shares nothing with the program;
of tests/histories it has what a line of a listing is.
"""
import importlib.util
import os
import re

WHERE = os.path.join(os.path.dirname(os.path.abspath(__file__)), "..", "histories", "plain.py")
SPEC = importlib.util.spec_from_file_location("histories_plain", WHERE)
histories = importlib.util.module_from_spec(SPEC)
SPEC.loader.exec_module(histories)

EVENT = re.compile(
    rb"(?<=[ \t])(?P<time>(\d{1,10})\.(\d{1,9})): (?:"
    rb"tracing_mark_write: latchsym(?: (?P<of>[^ \t]+))?\Z"
    rb"|module_load: (?P<loaded>[^ \t]+)(?= |\Z)"
    rb"|module_free: (?P<freed>[^ \t]+)(?= |\Z))"
)
LONGEST = 65536


class Event:
    """What a line says: `time` as it is written, `at` in nanoseconds, the module or none, and which."""

    def __init__(self, found):
        self.time, self.at = found["time"], histories.nanoseconds(found[2], found[3])
        self.kind = "freed" if found["freed"] else "loaded" if found["loaded"] else "of" if found["of"] else "mark"
        self.name = found["freed"] or found["loaded"] or found["of"]


def said_by(line):
    """The event of a line with its end, if it has one, and whether events were lost."""
    if len(line) > LONGEST:
        return None, False
    found = EVENT.search(line[:-1] if line.endswith(b"\n") else line)
    return Event(found) if found else None, b"LOST" in line


def ended_lines(blocks):
    """For each block the lines that have their end in it, and then the last line, if it has none."""
    text, done = b"", 0
    for block in blocks:
        text += block
        end = text.rfind(b"\n") + 1
        yield [line + b"\n" for line in text[done:end].split(b"\n")[:-1]]
        done = max(done, end)
    yield [text[done:]] if text[done:] else []


def is_shown(listing):
    """Whether a listing has no hidden line, or a symbol whose address is shown."""
    lines = [line for line in histories.lines_of(listing) if histories.row(line)[0]]
    return not lines or any(int(line.split(b" ")[0], 16) for line in lines)


def module_of(line):
    """The module of a line of a listing, if it is well formed and has one."""
    return histories.row(line)[1]


def of(lines, name):
    """The lines of the module of this name."""
    return [line for line in lines if module_of(line) == name]


def modules_of(lines):
    """The modules of which there are lines, each once."""
    return list(dict.fromkeys(it for it in map(module_of, lines) if it))


class Unread(Exception):
    """The listing cannot be read."""


class Hidden(Exception):
    """The listing shows no address."""


class Recording:
    """What is carried on: the lines that the history has, the last time, and whether events were lost."""

    def __init__(self):
        self.lines, self.last, self.is_lost = None, (0, b""), False

    def asks(self, said):
        """Whether one of these lines asks for the listing."""
        is_lost = self.is_lost
        for event, has_lost in said:
            if event and (is_lost or event.kind == "mark" or self.lines is not None and event.kind != "freed"):
                return True
            is_lost = is_lost or has_lost
        return False

    def written(self, said, listing):
        """What is written for these lines, behind which the listing was read, if it was."""
        if listing is not None:
            listing = [line for line in histories.lines_of(listing) if not histories.RESERVED.match(line)]
        named, out, is_first = {event.name for event, _ in said if event}, [], listing is not None
        for event, has_lost in said:
            lines = self.of_event(event, listing, named, is_first) if event else None
            if lines:
                out += lines
                is_first = is_first and not lines[0].startswith(b"change")
            self.is_lost = self.is_lost or has_lost
        return b"".join(line + b"\n" for line in out)

    def of_event(self, event, listing, named, is_first):
        """The lines that are written for an event, if any are."""
        time = self.last if event.at < self.last[0] else (event.at, event.time)
        if self.is_lost or event.kind == "mark":
            self.lines, self.is_lost, self.last = listing, False, time
            return [b"listing " + time[1], *listing]
        if self.lines is None:
            return None
        own = [] if event.kind == "freed" else of(listing, event.name)
        if event.kind == "of" and own == of(self.lines, event.name):
            return None
        changed = []
        if is_first:
            asked = modules_of(listing) + modules_of(self.lines)
            changed = [it for it in dict.fromkeys(asked) if it not in named and of(listing, it) != of(self.lines, it)]
        others = [line for line in listing or [] if module_of(line) in changed]
        gone = [b"gone " + it for it in changed if not of(listing, it) and b" " not in it]
        self.lines = [line for line in self.lines if module_of(line) not in {event.name, *changed}] + own + others
        self.last = time
        return [b"change " + time[1], *(own or [b"gone " + event.name]), *others, *gone]


def recorded(blocks, listings, appends):
    """What is written, each write by itself, after which blocks the listing was read, and the end.

    The listing of each block is the one that it has when the block was read; None cannot be read.
    """
    writes, readings, recording = [] if appends else [b"latchhistory 1\n"], [], Recording()
    for number, lines in enumerate(ended_lines(blocks), 1):
        said = [said_by(line) for line in lines]
        listing = None
        if recording.asks(said):
            readings.append(min(number, len(blocks)))
            listing = listings[min(number, len(blocks)) - 1]
            if listing is None:
                return writes, readings, b"fault 1"
            if not is_shown(listing):
                return writes, readings, b"status 1 hidden"
        text = recording.written(said, listing)
        if text:
            writes.append(text)
    return writes, readings, b"status 0"
