"""The rules of docs/FORMATS.md ("Annotated log") as a plain slow program, line by line: which words
of a line are addresses, how each is taken, what is inserted after it, and what is noted of the log.
"""

import re
from dataclasses import dataclass, field

LONGEST = 65536
WORD = re.compile(rb"[0-9A-Za-z_]+")
WIDE = re.compile(rb"0[xX][0-9a-fA-F]{9,16}|[0-9a-fA-F]{16}")
NARROW = re.compile(rb"(?:0[xX])?[0-9a-fA-F]{8}")
CLOSERS = re.compile(rb"[>\])]*")
MARKS = re.compile(rb"[(\[<]*\Z")

# what ends a prefix; and what may stand between it and the first address word of a line
RECORD = re.compile(rb"[^ \t;,]*,[^ \t;,]*,[^ \t;]*;")
PREFIXES = [
    re.compile(rb"(?<![0-9A-Za-z_])kernel:"),
    re.compile(rb"(?<![0-9:])[0-9][0-9]:[0-9][0-9]:[0-9][0-9](?!:)[^ \t]*"),
    re.compile(rb"\[[^\[\]]*[0-9][.:][0-9][^\[\]]*\]"),
]
LEAD = re.compile(
    rb"(?:[ \t\r?>]|\x1b\[[0-9;]*m|=>|#[0-9]+|<[0-9A-Za-z_/#]+>|\[(?=[^\[\]<>]*[0-9])[^\[\]<>]*\])*"
)
NUMBERED = re.compile(rb"[ \t]*#[0-9]")

# what says that an address is a caller's
LABEL = re.compile(
    rb"(?:<-|\[<0>\] *|(?<![0-9A-Za-z_])(?:(?:ra|lr|LR|from)(?: is at)?[ :=(\[<]+|(?:at|in):[ :=(\[<]*))\Z"
)
AT = re.compile(rb"(?<![0-9A-Za-z_])at[ :=(\[<]+\Z")

USER, KERNEL, TRACE, PLACE = (
    re.compile(rb"(?<![0-9A-Za-z_])(?:%s)(?![0-9A-Za-z_])" % words)
    for words in (rb"User PSW", rb"Krnl", rb"Call Trace", rb"RIP|EIP|NIP")
)

# what is not of a 32-bit kernel: a label's value, and all behind some words
BUS = re.compile(rb"(?<![0-9A-Za-z_])(?:MMIO|mem|port|Cause|Status|Config|PrId)[ :]*\Z")
BEHIND = re.compile(rb"Code:|ACPI:")
DUMP = re.compile(rb": [0-9a-fA-F]{2} ")

# what ends a trace
HEADING = re.compile(rb"(?:\].*|.*(?::|\[|==)|)\Z", re.DOTALL)

# what the log itself says of an address, and its form; and the offset of an answer
SAID = re.compile(rb" (?:\? |\(|(?!\? |\())([^\x00- ()]+)")
FORM = re.compile(rb"([^+]+)(?:\+0x([0-9a-fA-F]{1,16})(/0x[0-9a-fA-F]+)?)?")
OFFSET = re.compile(rb".*\+0x([0-9a-f]+)/0x", re.DOTALL)

# what a line says of the kernel that wrote it: where it lay, and how long a function is
LAY = re.compile(rb"Kernel Offset: 0x([0-9a-fA-F]{1,16}) from 0x([0-9a-fA-F]{1,16})(?![0-9a-fA-F])")
IN_NAMES = b"0123456789ABCDEFGHIJKLMNOPQRSTUVWXYZabcdefghijklmnopqrstuvwxyz_.$"
SIZE = re.compile(rb"\+0x[0-9a-fA-F]+/0x([0-9a-fA-F]+)")
MODULE = re.compile(rb" \[[0-9A-Za-z_]")
STEP = 0x200000


@dataclass
class Address:
    """An address word of a line."""

    start: int
    end: int
    value: int
    marks: bytes
    begins: bool = False
    is_frame: bool = False
    is_caller: bool = False


@dataclass
class Carried:
    """What is carried from line to line: how a frame is taken, and whether registers are a program's."""

    had_frame: bool = False
    had_place: bool = False
    is_user: bool = False


@dataclass
class Written:
    """The log with what is inserted, and what is counted of it."""

    lines: list = field(default_factory=list)
    words: int = 0
    answered: int = 0
    agreeing: int = 0
    disagreeing: int = 0
    functions: int = 0
    resized: int = 0
    lay: tuple = None


def is_glued(line, word):
    """Whether one `-` joins the word to another one, or `@` or a suffix is glued to it."""
    before, behind = line[: word.start()], line[word.end() :]
    return bool(re.search(rb"(?:[0-9A-Za-z_]-|@)\Z", before) or re.match(rb"-[0-9A-Za-z_]|\.[A-Za-z]", behind))


def prefix_end(gap, at_start):
    """Where the last prefix ends in these bytes, which begin the line or not, if one is there."""
    ends = [found.end() for form in PREFIXES for found in form.finditer(gap)]
    if at_start and RECORD.match(gap):
        ends.append(RECORD.match(gap).end())
    return max(ends, default=None)


def addresses_of(line, is_narrow, carried):
    """The address words of the line, with how each is taken."""
    found, is_numbered = [], False
    for word in WORD.finditer(line):
        if not (NARROW if is_narrow else WIDE).fullmatch(word[0]) or is_glued(line, word):
            continue
        before = line[: word.start()]
        marks = MARKS.search(before)[0]
        last = found[-1] if found else None
        gap = before[last.end if last else 0 : len(before) - len(marks)]
        behind = prefix_end(gap, last is None)
        if behind is not None or last is None:
            is_numbered = bool(NUMBERED.match(gap[behind or 0 :]))
        address = Address(word.start(), word.end(), int(word[0], 16), marks)
        if behind is not None or last is None:
            address.begins = bool(LEAD.fullmatch(gap[behind or 0 :]))
        is_trace = marks.endswith(b"[<") or before.endswith(b"\t") or word[0][:2] in (b"0x", b"0X")
        is_pair = last and last.begins and last.marks == marks == b"[" and re.fullmatch(rb"\] *", gap)
        is_row = line[word.end() : word.end() + 1] == b":"
        address.is_frame = bool(address.begins and is_trace or is_pair) and not is_row
        is_folded = before.endswith(b";") and line[word.end() : word.end() + 1] == b";"
        if LABEL.search(before) or is_folded or is_numbered and AT.search(before):
            address.is_caller = True
        elif last and last.value == address.value and not re.search(rb"[:=]", before[last.end :]):
            address.is_caller = last.is_caller
        else:
            address.is_caller = address.is_frame and (carried.had_frame or carried.had_place)
        found.append(address)
    return found


def is_foreign(line, address, is_narrow, is_user):
    """Whether the address word is one of a program, or of a 32-bit kernel's code."""
    before = line[: address.start]
    if is_user or USER.search(before) or DUMP.match(line[address.end :]):
        return True
    return bool(is_narrow and (BEHIND.search(before) or BUS.search(before)))


def text_behind(rest, text):
    """What is inserted before the rest of a line: nothing where it has the text itself."""
    said = text[:-1] if text.endswith(b"]") else text
    return b"" if rest.startswith((b" " + said, b" ? " + said, b" (" + said)) else b" " + text


def own_reading(plain, rule, value, rest):
    """Which readings have the name that the log has itself, and whether one has its offset too."""
    said = SAID.match(rest)
    form = said and FORM.fullmatch(said[1])
    readings, has_offset = [], False
    for is_caller in (False, True):
        answer = rule.answer(plain, value, is_caller)
        if form and answer != b"-" and rule.agrees(plain, value, is_caller, form[1]):
            readings.append(is_caller)
            offset = OFFSET.match(answer)
            has_offset |= bool(form[2] and int(form[2], 16) == int(offset[1], 16))
    return readings, has_offset


def report_line(written, line, plain):
    """Counts what the line says of the kernel that wrote the log."""
    lay = LAY.search(line)
    if lay and not written.lay:
        written.lay = tuple(int(number, 16) for number in lay.groups())
    for size in SIZE.finditer(line):
        # (a search for a name up to the size would begin at each byte of a long word)
        before = line[: size.start()]
        name = before[len(before.rstrip(IN_NAMES)) :]
        if not name or len(size[1]) > 16 or MODULE.match(line[size.end() :]):
            continue
        sizes = plain.sizes(name)
        written.functions += bool(sizes)
        written.resized += bool(sizes) and int(size[1], 16) not in sizes


def annotate_line(written, line, plain, rule, is_narrow, carried):
    """Writes the line with the answers behind its addresses, and returns what is carried on."""
    is_user = carried.is_user and not KERNEL.search(line) and not TRACE.search(line)
    addresses = addresses_of(line, is_narrow, carried)
    pieces, done = [], 0
    for address in addresses:
        written.words += rule.is_in_range(plain, address.value)
        if is_foreign(line, address, is_narrow, is_user):
            continue
        place = CLOSERS.match(line, address.end).end()
        readings, is_told = own_reading(plain, rule, address.value, line[place:])
        forced = {"--callers": True, "--exact": False}
        address.is_caller = address.is_caller and not rule.is_data(plain, address.value)
        by_place = rule.answer(plain, address.value, forced.get(rule.callers, address.is_caller))
        if len(readings) == 1 and (by_place == b"-" or text_behind(line[place:], by_place)):
            address.is_caller = readings[0]
        is_caller = forced.get(rule.callers, address.is_caller)
        text = rule.answer(plain, address.value, is_caller)
        if text == b"-":
            continue
        written.answered += 1
        said = SAID.match(line[place:])
        own = said and FORM.fullmatch(said[1])
        if own and own[3]:
            agrees = any(
                rule.answer(plain, address.value, r) != b"-" and rule.agrees(plain, address.value, r, own[1])
                for r in {address.is_caller, is_caller}
            )
            written.agreeing += agrees
            written.disagreeing += not agrees
        pieces += [line[done:place], b"" if is_told else text_behind(line[place:], text)]
        done = place
    written.lines.append(b"".join([*pieces, line[done:]]))
    report_line(written, line, plain)
    has_frame = any(address.is_frame for address in addresses)
    had_place = not has_frame and (carried.had_place or bool(PLACE.search(line)))
    goes_on = carried.had_frame and not had_place and not HEADING.fullmatch(line.rstrip(b" \t\r\n"))
    return Carried(has_frame or goes_on, had_place, is_user or bool(USER.search(line)))


def annotated(log, plain, rule):
    """The annotated log, with what is counted of it."""
    written, carried = Written(), Carried()
    for line in re.findall(rb"[^\n]*\n|[^\n]+", log):
        if len(line) > LONGEST:
            written.lines.append(line)
        else:
            carried = annotate_line(written, line, plain, rule, plain.is_narrow(), carried)
    return b"".join(written.lines), written


def note_of_place(lay, listed, offset):
    """What is noted of where the kernel lay, by that of the listing."""
    moved, start = lay
    place, here = (start + moved) % 2**64, (listed + offset) % 2**64
    if place == here or (place - here) % 2**64 % STEP:
        return []
    if here == start:
        text = b"its kernel was moved by 0x%x; give --offset 0x%x" % (moved, (moved + offset) % 2**64)
    else:
        text = b"its kernel lay at 0x%x, that of the listing at 0x%x; the listing is of another boot" % (place, here)
    return [b"latchsym: note: log: " + text]


def note_of(written, plain, rule):
    """What is noted of the log behind it: the first that applies."""
    head = b"".join(written.lines)[:2]
    if head == b"\x1f\x8b":
        return [b"latchsym: note: log: is compressed by gzip; unpack it first"]
    if head in (b"\xff\xfe", b"\xfe\xff"):
        return [b"latchsym: note: log: is UTF-16; convert it first"]
    if written.resized >= 2:
        told = b"%d of %d functions in it have another size in the listing; the listing is of another build"
        return [b"latchsym: note: log: " + told % (written.resized, written.functions)]
    if written.lay and plain.base() is not None:
        note = note_of_place(written.lay, plain.base(), rule.offset)
        if note:
            return note
    if written.disagreeing >= 5 and written.disagreeing > written.agreeing:
        names = written.agreeing + written.disagreeing
        told = b"its own names disagree with the listing (%d of %d); is the listing of this boot?"
        return [b"latchsym: note: log: " + told % (written.disagreeing, names)]
    if written.words and not written.answered:
        return [b"latchsym: note: log: none of its %d addresses has a name in the listing" % written.words]
    return []
