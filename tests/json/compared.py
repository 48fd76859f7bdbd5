"""Compares the objects that `latchsym lookup --json` and `latchsym address --json` write with the
lines that they write without.

compared.py PROGRAM FOLDER RUNS SEED: makes RUNS random listings in FOLDER, whose names have bytes of
every kind but blanks and ends of lines.
"""
import json
import os
import pathlib
import random
import re
import subprocess
import sys

sys.path.insert(0, os.path.join(os.path.dirname(os.path.abspath(__file__)), "..", "address"))
import names as plain  # noqa: E402

PIECES = [b"$", b".L", b"L0", b'"', b"\\", b"/", b"a", b"_z", b"+0x", "é".encode(), "€".encode(), "\U0001f600".encode(), "\u2028".encode()]
ANSWER = re.compile(rb"(.*)\+0x([0-9a-f]+)/0x([0-9a-f]+)", re.S)


def name(rng):
    """A name without blanks: pieces of text, of characters cut short, and single bytes."""
    parts = []
    for _ in range(rng.randint(1, 6)):
        piece = rng.choice(PIECES) if rng.random() < 0.6 else bytes([rng.choice(sorted(set(range(256)) - {9, 10, 32}))])
        parts.append(piece[: rng.randint(1, len(piece))] if rng.random() < 0.3 else piece)
    return b"".join(parts)


def text_of(name):
    """The name as text: U+FFFD for each byte that is no part of a character."""
    text, at = "", 0
    while at < len(name):
        for length in range(1, 5):
            try:
                character = name[at : at + length].decode("utf-8")
            except UnicodeDecodeError:
                continue
            break
        else:
            character, length = "\ufffd", 1
        text += character
        at += length
    return text


def number(n):
    return n if n < 2**53 else str(n)


def wanted(line):
    """The members that a line of text stands for."""
    address, answer = line.split(b" ", 1)
    members = [("address", address.decode())]
    module = None
    if b" [" in answer:
        answer, module = answer.split(b" [", 1)
    if answer not in (b"-", b"?"):
        symbol, offset, size = ANSWER.fullmatch(answer).groups()
        members += [("symbol", text_of(symbol)), ("offset", number(int(offset, 16))), ("size", number(int(size, 16)))]
    if module is not None:
        members.append(("module", text_of(module[:-1])))
    return members


def counts(lines):
    """The object of lines of counts."""
    objects = []
    for line in lines:
        words = line.decode().split()
        pairs = [(words[i], int(words[i + 1])) for i in range(0, len(words), 2)]
        objects.append((words[0], [("kept", pairs[0][1])] + pairs[1:]))
    return objects


def run(program, arguments):
    """What a lookup writes."""
    return subprocess.run([program, "lookup", *arguments], stdout=subprocess.PIPE, stderr=subprocess.DEVNULL, check=True).stdout


def asked(program, arguments):
    """The lines that are written for words, and the status: 0 or 1."""
    done = subprocess.run([program, "address", *arguments], stdout=subprocess.PIPE, stderr=subprocess.DEVNULL)
    assert done.returncode in (0, 1), done
    return lines(done.stdout), done.returncode


def lines(written):
    assert written.endswith(b"\n") or not written
    return written.split(b"\n")[:-1]


def compare(program, arguments, addresses, last):
    """Whether the objects for these addresses are those of the lines, of which the last are counts."""
    text = lines(run(program, [*arguments, *addresses]))
    assert len(text) == len(addresses) + last
    answers = text[: len(addresses)]
    read = [json.loads(line.decode("utf-8"), object_pairs_hook=list) for line in lines(run(program, [*arguments, "--json", *addresses]))]
    alone = lines(run(program, [*arguments, "--no-counts", *addresses]))
    objects = lines(run(program, ["--no-counts", *arguments, "--json", *addresses]))
    return (
        read == [wanted(line) for line in answers] + [counts(text[len(addresses) :])]
        and alone == answers
        and [json.loads(line, object_pairs_hook=list) for line in objects] == read[:-1]
    )


def wanted_of(word, answer):
    """The members that a line of text for a word stands for, by what stands behind the word in it."""
    owner, symbol, offset, _ = plain.parts(word)
    members, size, module = [], [], None if owner == b"-" else owner
    if answer != b"-":
        address, size, *rest = answer.split(b" ", 2)
        members = [("address", address.decode())]
        size = [("size", number(int(size, 16)))]
        module = rest[0][1:-1] if rest else None
    members += [("symbol", text_of(symbol)), ("offset", number(offset)), *size]
    return members if module is None else [*members, ("module", text_of(module))]


def compare_names(program, arguments, words):
    """Whether the objects for these words are those of the lines, with status 1 if none has an address."""
    text, status = asked(program, [*arguments, "--", *words])
    objects, again = asked(program, [*arguments, "--json", "--", *words])
    both, third = asked(program, ["--no-counts", *arguments, "--json", "--", *words])
    expected, at = [], 0
    for word in words:
        while at < len(text) and text[at].startswith(word + b" "):
            expected.append(wanted_of(word, text[at][len(word) + 1 :]))
            at += 1
    read = [json.loads(line.decode("utf-8"), object_pairs_hook=list) for line in objects]
    found = 0 if any(dict(members).get("address") for members in expected) else 1
    return at == len(text) and read == expected and both == objects and status == again == third == found


def words_of(rng, symbols):
    """Words that ask for these symbols, and for none, each once."""
    words = {b"nothing", b"-:nothing+0x1", b"none:+0x", b"a:b+0xffffffffffffffff", '"\\\x01é:x'.encode()}
    for _, word, module in symbols:
        owner = rng.choice([b"", b"", b"-:", b"" if module is None else module + b":"])
        words.add(owner + word + rng.choice([b"", b"", b"+0x0", b"+0x7F", b"+0x20000000000000"]))
    words = [word for word in words if b"\0" not in word and word.decode("utf-8", "replace").encode() == word]
    return sorted(words, key=lambda word: rng.random())


def listings(rng, folder):
    """Random listings in a folder, and addresses and words for what they list."""
    top = rng.choice([0x4000, 2**54, 2**64 - 1])
    modules = [name(rng) for _ in range(3)]
    bases = [0x3000, 0x3400, 0x3800]
    symbols = [(0x1000, b"_stext", None), (0x2000, b"_end", None)]
    symbols += [(rng.randint(0x1000, 0x2100), name(rng), None) for _ in range(4)]
    symbols += [(base + rng.randint(0, 0x400), name(rng), module) for module, base in zip(modules, bases) for _ in range(3)]
    symbols += [(rng.randint(0x1000, 0x4000), word, rng.choice([None, *modules])) for _, word, _ in symbols[2:6]]
    symbols.append((0, b"hidden", None))
    listed = b"".join(b"%x t %s%s\n" % (at, word, b"\t[%s]" % module if module else b"") for at, word, module in symbols)
    sizes = [0x400, 0x400, top - 0x3800]
    (folder / "kallsyms").write_bytes(listed + b"bad\n")
    (folder / "modules").write_bytes(b"".join(b"%s %d 1 - Live 0x%x\n" % m for m in zip(modules, sizes, bases)))
    parts = [(b"core", base, 0x200) for base in bases] + [(b"init", base + 0x300, 0x80) for base in bases]
    (folder / "regions").write_bytes(
        b"latchregions 1\n" + b"".join(b"%s %s 0x%x %d\n" % (m, *part) for m, part in zip(modules * 2, parts))
    )
    near = [at + step for at, _, _ in symbols for step in (-1, 0, 1) if at + step >= 0]
    return [hex(at) for at in near + [top - 1, top, 0x3800 + 2**53 - 1, 0x3800 + 2**53, 2**64 - 1]], words_of(rng, symbols)


def main():
    program, folder, runs, seed = sys.argv[1], pathlib.Path(sys.argv[2]), int(sys.argv[3]), int(sys.argv[4])
    rng = random.Random(seed)
    for turn in range(runs):
        addresses, words = listings(rng, folder)
        symbols = ["--kallsyms", str(folder / "kallsyms")]
        both = [*symbols, "--modules", str(folder / "modules")]
        kinds = [
            (both, 2),
            ([*both, "--callers", "--offset", "3"], 2),
            ([*both, "--regions", str(folder / "regions")], 3),
            ([*symbols, "--modules-from-symbols"], 2),
        ]
        for arguments, last in kinds:
            if not compare(program, arguments, addresses, last):
                print(f"json: run {turn} of seed {seed}: other objects than lines for {' '.join(arguments)}")
                sys.exit(1)
        for arguments in (both, [*both, "--regions", str(folder / "regions")], symbols):
            if not compare_names(program, arguments, words):
                print(f"json: run {turn} of seed {seed}: other objects than lines for names, {' '.join(arguments)}")
                sys.exit(1)
    print(f"json: {runs} listings, by modules and by symbols alone, addresses and names")


main()
