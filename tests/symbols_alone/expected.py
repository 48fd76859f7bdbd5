"""What `latchsym lookup --modules-from-symbols` has to write, by a plain slow program straight from
the definitions of docs/FORMATS.md ("Modules from the symbols"), compared with what it does write.

    expected.py PROGRAM FOLDER RUNS SEED [LISTING]

looks addresses up in RUNS random listings of a few lines, and in the LISTING. FOLDER is where the
files of a run lie; after one that differs they stay there, and the status is 1.
"""

import bisect
import collections
import os
import random
import re
import subprocess
import sys

REACH = 1048576
PAGE = 4096
GREATEST = 2**64 - 1
LONGEST = 4096
MAPPING = (b"$", b".L", b"L0")
LINE = re.compile(rb"([0-9a-fA-F]{1,16}) ([^ \t]) ([^\t]+)(\t\[([^\t]+)\])?", re.DOTALL)

Symbol = collections.namedtuple("Symbol", "address letter name module")


def read(text):
    """The symbols of a listing, and how many lines are skipped while it is read, by cause."""
    symbols, skipped = [], {"hidden": 0, "long": 0, "malformed": 0}
    lines = text.split(b"\n")
    for line in lines if lines[-1] else lines[:-1]:
        said = LINE.fullmatch(line)
        if len(line) > LONGEST:
            skipped["long"] += 1
        elif not said:
            skipped["malformed"] += 1
        elif int(said[1], 16) == 0:
            skipped["hidden"] += 1
        else:
            symbols.append(Symbol(int(said[1], 16), said[2], said[3], said[5]))
    return symbols, skipped


def kernel_of(symbols, bounds):
    """The regions of the kernel itself: that between the symbols of these names, or else the usual ones."""

    def between(*names):
        found = [next((s.address for s in symbols if s.module is None and s.name == name), None) for name in names]
        return [range(*found)] if None not in found and found[0] < found[1] else []

    if bounds:
        return between(*bounds)
    code, start = between(b"_stext", b"_etext"), between(b"_sinittext", b"_einittext")
    if code and start and code[0].start < start[0].stop and start[0].start < code[0].stop:
        start = []
    return between(b"_stext", b"_end") or code + start


def page_end(address):
    """Where the page of the address ends."""
    return (address // PAGE + 1) * PAGE


class Plain:
    """What a listing of symbols says, whose an address is being asked for each one anew."""

    def __init__(self, text, bounds):
        symbols, self.skipped = read(text)
        self.listed = symbols
        self.named = [symbol for symbol in symbols if not symbol.name.startswith(MAPPING)]
        self.kernel = kernel_of(symbols, bounds)
        self.first_post = {}
        for symbol in filter(self.is_post, self.named):
            self.first_post.setdefault(symbol.address, symbol)
        self.posts = sorted(self.first_post)
        self.kept = [s for s in self.named if self.is_kept(s)]
        self.stray = len(symbols) - len(self.kept)
        # where the owner may change: at a post, and where its page ends
        self.edges = sorted({edge for post in self.posts for edge in (post, page_end(post)) if edge < GREATEST})
        self.edges.append(GREATEST)

    def region_of_kernel(self, address):
        """The region of the kernel itself that the address lies in."""
        return next((region for region in self.kernel if address in region), None)

    def is_narrow(self):
        """Whether the listing is that of a 32-bit kernel."""
        return bool(self.listed) and all(symbol.address < 2**32 for symbol in self.listed)

    def is_post(self, symbol):
        if symbol.module is None:
            return self.region_of_kernel(symbol.address) is not None
        return self.region_of_kernel(symbol.address) is None and symbol.address < GREATEST

    def owner(self, address):
        """The module whose the address is."""
        below = bisect.bisect_right(self.posts, address)
        if below == 0 or address >= GREATEST:
            return None
        post = self.first_post[self.posts[below - 1]]
        if post.address // PAGE == address // PAGE:
            return post.module
        above = self.first_post[self.posts[below]] if below < len(self.posts) else None
        goes_on = above is not None and above.module == post.module and above.address - post.address < REACH
        return post.module if goes_on else None

    def is_kept(self, symbol):
        return self.is_post(symbol) and (symbol.module is None or self.owner(symbol.address) == symbol.module)

    def region(self, address):
        """The longest run of addresses about this one that are its module's."""
        owner = self.owner(address)
        above = bisect.bisect_right(self.edges, address)
        end = next(edge for edge in self.edges[above:] if self.owner(edge) != owner)
        start = next(edge for edge in reversed(self.edges[:above]) if self.owner(edge - 1) != owner)
        return range(start, end)

    def starts(self):
        """Where the regions of modules begin."""
        return [e for e in self.edges if self.owner(e) is not None and self.owner(e) != self.owner(e - 1)]

    def answer(self, address, told=None):
        """The text of the address's answer, or of TOLD, which is looked up by ADDRESS."""
        owner = self.owner(address)
        region = self.region_of_kernel(address) if owner is None else self.region(address)
        if region is None:
            return b"-"
        symbols = [s for s in self.kept if s.module == owner and s.address in region]
        nearest = max(s.address for s in symbols if s.address <= address)
        name = next(s.name for s in symbols if s.address == nearest)
        end = min((s.address for s in symbols if s.address > nearest), default=region.stop)
        offset = (address if told is None else told) - nearest
        text = b"%s+0x%x/0x%x" % (name, offset, end - nearest)
        return text if owner is None else text + b" [%s]" % owner

    def output(self, addresses):
        lines = [b"0x%x %s" % (address, self.answer(address)) for address in addresses]
        modules = {s.module for s in self.kept if s.module is not None}
        lines.append(b"modules %d regions %d" % (len(modules), len(self.starts())))
        lines.append(
            b"symbols %d hidden %d stray %d long %d malformed %d"
            % (len(self.kept), self.skipped["hidden"], self.stray, self.skipped["long"], self.skipped["malformed"])
        )
        return b"".join(line + b"\n" for line in lines)


STEPS = [0, 0, 1, 16, 100, PAGE - 1, PAGE, 3 * PAGE, REACH - 1, REACH, REACH + 1, 2 * REACH]
BASES = [1, 4096, 2**40, 2**63 - REACH, GREATEST - 4 * REACH, GREATEST - REACH - 3, GREATEST - 20]
MODULES = [None, None, None, b"ext4", b"nfs", b"bpf", b"-", b"a]", b"__builtin__ftrace"]
STARTS = [b"_stext", b"_sinittext", b"_text", b"a"]
ENDS = [b"_end", b"_einittext", b"_etext", b"b"]
LETTERS = [b"t", b"T", b"\xff", b"t", b"T", b"W", b"d", b"D", b"r", b"R", b"b", b"B", b"v"]
NAMES = [b"run", b"init", b"data", b"a b [c]", b"L", b".", b"x$", b"1.L"] * 3 + STARTS + ENDS
NAMES += [b"$x", b"$d", b".L12", b"L0", b"$a.1", b"$", b"L0\x01", b".L"]
HIDDEN = [b"0 t a", b"0 T _stext", b"0000000000000000 t a\t[ext4]"]
MALFORMED = [b"", b"1000 t", b"1000  a", b"10g0 t a", b"1000 t a\t[]", b"1000 t a\t[m] ", b"00000000000001000 t a"]
LONG = [b"1000 t " + b"a" * (LONGEST - 7), b"1000 t " + b"a" * (LONGEST - 6)]


def random_lines(draw):
    """Lines at addresses that rise and fall by steps of note, up to the greatest address."""
    address, lines = draw.choice(BASES), []
    for _ in range(draw.randrange(21)):
        step = draw.choice(STEPS)
        address += -step if draw.randrange(4) == 0 else step
        address = max(1, min(address, GREATEST))
        if draw.randrange(30) == 0:
            address = GREATEST
        form = draw.choice([b"%x", b"%016x", b"%X"])
        line = form % address + b" " + draw.choice(LETTERS) + b" " + draw.choice(NAMES)
        module = draw.choice(MODULES)
        lines.append(line if module is None else line + b"\t[%s]" % module)
    return lines


def with_kernel(draw, lines):
    """The lines with names of bounds at the addresses of some of them, mostly in order."""
    names = [(draw.choice(STARTS[:1] * 8 + STARTS), draw.choice(ENDS))]
    if draw.randrange(2):
        names = [(b"_stext", b"_etext"), (b"_sinittext", b"_einittext")]
    for start, end in names:
        pair = [draw.choice(lines).split(b" ")[0] for _ in range(2)]
        if draw.randrange(4):
            pair.sort(key=lambda address: int(address, 16))
        for line in (pair[0] + b" T " + start, pair[1] + b" B " + end):
            if draw.randrange(8):
                lines.insert(draw.randrange(len(lines) // 2 + 1), line)
    return lines


def random_listing(draw):
    lines = random_lines(draw)
    if lines and draw.randrange(6):
        lines = with_kernel(draw, lines)
    for _ in range(draw.choice([0, 0, 0, 1, 2])):
        lines.insert(draw.randrange(len(lines) + 1), draw.choice(HIDDEN + MALFORMED + LONG))
    if draw.randrange(4) == 0:
        draw.shuffle(lines)
    text = b"".join(line + b"\n" for line in lines)
    return text if draw.randrange(8) else text[:-1]


def asked(symbols):
    """The addresses about each symbol, about the end of its page, and where none goes on."""
    edges = {edge for s in symbols for edge in (s.address, page_end(s.address), s.address + REACH)}
    near = {edge + by for edge in edges for by in (-1, 0, 1)}
    return sorted(address for address in near | {0, GREATEST} if 0 <= address <= GREATEST)


def random_bounds(draw):
    return None if draw.randrange(4) else (draw.choice(STARTS), draw.choice(ENDS))


def compare(program, folder, text, bounds, addresses):
    """The lines that the program has to write, where it does; else this program ends."""
    for name, content in (("kallsyms", text), ("addresses", b"".join(b"0x%x\n" % a for a in addresses))):
        with open(os.path.join(folder, name), "wb") as file:
            file.write(content)
    words = [program, "lookup", "--modules-from-symbols", "--kallsyms", "kallsyms", "--addresses", "addresses"]
    words += ["--kernel", *bounds] if bounds else []
    done = subprocess.run(words, cwd=folder, capture_output=True, timeout=600)
    noted = all(line.startswith(b"latchsym: note: kallsyms: ") for line in done.stderr.splitlines())
    expected = Plain(text, bounds).output(addresses)
    if done.returncode == 0 and noted and done.stdout == expected:
        return expected.splitlines()
    with open(os.path.join(folder, "expected"), "wb") as file:
        file.write(expected)
    wrong = [pair for pair in zip(expected.splitlines(), done.stdout.splitlines()) if pair[0] != pair[1]]
    print(f"symbols_alone: {' '.join(map(repr, words[1:]))}: status {done.returncode}, {done.stderr[:200]!r}")
    for line in wrong[:1]:
        print(f"symbols_alone: {line[1]!r} in place of {line[0]!r}")
    sys.exit(1)


def main():
    program, folder, runs, seed, *listings = sys.argv[1:]
    draw = random.Random(int(seed))
    kinds = collections.Counter()
    for _ in range(int(runs)):
        text = random_listing(draw)
        bounds = random_bounds(draw)
        for line in compare(program, folder, text, bounds, asked(read(text)[0]))[:-2]:
            kinds["none" if line.endswith(b" -") else "module" if line.endswith(b"]") else "kernel"] += 1
    told = f"symbols_alone: {runs} listings, in which {kinds['module']} addresses are of modules, "
    told += f"{kinds['kernel']} of the kernel and {kinds['none']} of neither"
    for listing in listings:
        with open(listing, "rb") as file:
            text = file.read()
        symbols = read(text)[0]
        of_modules = [s for s in symbols if s.module is not None]
        some = draw.sample(symbols, min(15, len(symbols))) + draw.sample(of_modules, min(15, len(of_modules)))
        compare(program, folder, text, None, asked(some))
        told += f"; and the {len(symbols)} symbols of this machine"
    print(told)


if __name__ == "__main__":
    main()
