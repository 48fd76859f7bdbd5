"""What `latchsym address` has to write where the modules come from the symbols, by the plain slow
program of tests/symbols_alone, compared with what it does write.

    names.py PROGRAM FOLDER RUNS SEED [LISTING]

asks for names in RUNS random listings of a few lines, and for all names of the LISTING, whose
addresses are then looked up: each answer has to be the symbol that was asked for, or the first of
those at its address. FOLDER is where the files of a run lie; after one that differs they stay there,
and the status is 1.
"""

import collections
import os
import random
import re
import subprocess
import sys

sys.path.insert(0, os.path.join(os.path.dirname(os.path.abspath(__file__)), "..", "symbols_alone"))
import expected as plain  # noqa: E402

OFFSETS = [b"+0x0/0x10", b"+0x1/0x1", b"+0x10/0x10", b"+0x1/1", b"+0x1000/0x1000", b"+0x11/0x10", b"/0x10"]
OFFSETS += [b"", b"", b"", b"", b"+0x0", b"+0x1", b"+0xf", b"+0x10", b"+0xFFF", b"+0xfffff", b"+0x100000", b"+0x", b"+1", b"+0x12345678123456789"]
BEHIND = [b"", b"", b"", b"", b" [ext4]", b" [nfs]", b" [-]", b" []", b"[ext4]", b" [ext4] "]
OWNERS = [b"", b"", b"", b"-:", b"ext4:", b"nfs:", b"a]:", b"none:", b":"]
NAMES = plain.NAMES + [b"nothing", b"", b"a:b", b"a+b", b"-x"]
BATCH = 4000


def parts(word):
    """The module, the symbol, the offset and the size that a word asks for."""
    behind = re.fullmatch(rb"(.*) \[([^\[]*)\]", word, re.DOTALL)
    owner, colon, rest = word.partition(b":")
    if behind:
        rest, owner = behind[1], behind[2]
    elif not colon:
        owner, rest = None, word
    number = rb"0x([0-9a-fA-F]{1,16})"
    said = re.fullmatch(rb"(.*)\+%s(?:/%s)?" % (number, number), rest, re.DOTALL)
    if not said:
        return owner, rest, 0, None
    return owner, said[1], int(said[2], 16), said[3] and int(said[3], 16)


def size_at(listing, symbol):
    """How far the symbol reaches, by the answer for its own address."""
    answer = listing.answer(symbol.address)
    if symbol.module is not None:
        answer = answer[: -len(b" [%s]" % symbol.module)]
    return int(answer.rpartition(b"/0x")[2], 16)


def lines_of(word, symbols, size, higher=0):
    """What has to be written for a word, where these are the kept symbols of its name."""
    owner, _, offset, wanted = parts(word)
    lines = []
    for symbol in symbols:
        if owner is not None and (symbol.module if symbol.module is not None else b"-") != owner:
            continue
        if owner == b"-" and symbol.module is not None:
            continue
        if offset >= size(symbol) if wanted is None else wanted != size(symbol) or offset > wanted:
            continue
        if symbol.address + offset + higher > plain.GREATEST:
            continue
        line = b"%s 0x%x 0x%x" % (word, symbol.address + offset + higher, size(symbol))
        lines.append(line if symbol.module is None else line + b" [%s]" % symbol.module)
    return lines or [word + b" -"]


def asked(program, folder, words, bounds=None, higher=0):
    """The lines that the program writes for words; this program ends if its status is not that of the lines."""
    line = [program, "address", "--kallsyms", "kallsyms"]
    line += ["--kernel", *bounds] if bounds else []
    line += ["--offset", hex(higher)] * bool(higher)
    done = subprocess.run(line + ["--", *words], cwd=folder, capture_output=True, timeout=600)
    noted = all(note.startswith(b"latchsym: note: kallsyms: ") for note in done.stderr.splitlines())
    written = done.stdout.split(b"\n")[:-1]
    none = all(line.endswith(b" -") for line in written)
    if done.returncode != (1 if none else 0) or not noted:
        sys.exit(f"address: {words[:5]}: status {done.returncode}, {done.stderr[:200]!r}")
    return written


def compare(words, expected, written):
    if expected == written:
        return
    wrong = [pair for pair in zip(expected, written) if pair[0] != pair[1]]
    print(f"address: {len(expected)} lines wanted, {len(written)} written, for {words[:20]}")
    for pair in wrong[:1]:
        print(f"address: {pair[1]!r} in place of {pair[0]!r}")
    sys.exit(1)


def put(folder, name, content):
    with open(os.path.join(folder, name), "wb") as file:
        file.write(content)


def random_run(program, folder, draw, kinds):
    text, bounds = plain.random_listing(draw), plain.random_bounds(draw)
    put(folder, "kallsyms", text)
    listing = plain.Plain(text, bounds)
    words = [draw.choice(OWNERS) + draw.choice(NAMES) + draw.choice(OFFSETS) + draw.choice(BEHIND) for _ in range(draw.randrange(1, 20))]
    for symbol in draw.sample(listing.kept, min(3, len(listing.kept))):
        size = size_at(listing, symbol)
        said = b"+0x%x/0x%x" % (draw.choice([0, max(size - 1, 0), size, size + 1]), size + (draw.randrange(8) == 0))
        behind = b"" if symbol.module is None or draw.randrange(2) else b" [%s]" % symbol.module
        words.append(symbol.name + said + behind)
    higher = draw.choice([0, 0, 1, 2**32, 2**63])
    expected = []
    for word in words:
        symbols = [s for s in listing.kept if s.name == parts(word)[1]]
        expected += lines_of(word, symbols, lambda s: size_at(listing, s), higher)
    compare(words, expected, asked(program, folder, words, bounds, higher))
    kinds["none"] += sum(line.endswith(b" -") for line in expected)
    kinds["some"] += sum(not line.endswith(b" -") for line in expected)


def looked_up(program, folder, addresses):
    """The answers of lookups, by address."""
    put(folder, "addresses", b"".join(b"0x%x\n" % address for address in addresses))
    line = [program, "lookup", "--modules-from-symbols", "--kallsyms", "kallsyms", "--addresses", "addresses"]
    done = subprocess.run(line, cwd=folder, capture_output=True, timeout=600)
    return dict(answer.split(b" ", 1) for answer in done.stdout.split(b"\n")[:-3])


def whole_listing(program, folder, text):
    """Asks for every name of a listing, and looks every address up."""
    put(folder, "kallsyms", text)
    listing = plain.Plain(text, None)
    answers = looked_up(program, folder, sorted({s.address for s in listing.kept}))
    by_name, first = collections.defaultdict(list), {}
    for symbol in listing.kept:
        by_name[symbol.name].append(symbol)
        first.setdefault((symbol.address, symbol.module), symbol)
    sizes = {}
    for (address, module), symbol in first.items():
        form = re.escape(symbol.name) + rb"\+0x0/0x([0-9a-f]+)"
        form += b"" if module is None else re.escape(b" [%s]" % module)
        said = re.fullmatch(form, answers[b"0x%x" % address], re.DOTALL)
        if not said:
            sys.exit(f"address: 0x{address:x} is looked up as {answers[b'0x%x' % address]!r}")
        sizes[address, module] = int(said[1], 16)
    names = [name for name in by_name if not re.search(rb"[:+]| \[", name)]
    for start in range(0, len(names), BATCH):
        words, expected = names[start : start + BATCH], []
        for word in words:
            expected += lines_of(word, by_name[word], lambda s: sizes[s.address, s.module])
        compare(words, expected, asked(program, folder, words))
    return len(names), len(listing.kept)


def main():
    program, folder, runs, seed, *listings = sys.argv[1:]
    draw = random.Random(int(seed))
    kinds = collections.Counter()
    for _ in range(int(runs)):
        random_run(program, folder, draw, kinds)
    told = f"address: {runs} listings, with {kinds['some']} lines of symbols and {kinds['none']} without one"
    for path in listings:
        with open(path, "rb") as file:
            names, symbols = whole_listing(program, folder, file.read())
        told += f"; and {names} names of the {symbols} symbols of this machine, both ways"
    print(told)


if __name__ == "__main__":
    main()
