#!/usr/bin/env python3
"""wrap_proofs.py [--check] [FILE..]: breaks the lines of more than 100 columns of these files, or
of all .antt files of crates/, where they can be broken; with --check it only names the files that
it would change, and fails if there are any.

Such a line cannot be read in a diff or beside another. `rattle fmt` decides in which column a line
begins, and leaves it to the writer where one is broken. So this chooses the places, the outermost
first, and has `rattle fmt` lay out the file, until no line is left that it can break. The words of
a file stay as they are, but that a long `use` becomes several of the same module: if its braces go
over several lines, `rattle fmt` gives each name a line.
"""
import concurrent.futures
import glob
import os
import re
import subprocess
import sys
import tempfile
import textwrap

TOP = os.path.dirname(os.path.dirname(os.path.dirname(os.path.abspath(__file__))))
WIDTH = 100
# how far in `rattle fmt` has the rest of a broken line, at most
STEP = 4
# what a break costs, one bracket further in, and one between a function and its arguments
BREAK, DEEPER, ARGUMENT, TOO_LONG = 10, 20, 9, 1000
# and one before an operator: the looser it binds, the less
OPERATORS = {
    **{"→": 0, "↔": 0, "∙": 0, "⊎": 1, "×": 2, "≡": 3, "≢": 3, "≤": 3, "<": 3},
    **{"||": 4, "&&": 4, "∷": 5, "++": 5},
}
USE = re.compile(r"^((?:pub )?use [^{\n]*)\{([^{}\n]*)\}$", re.M)


def price(before, after, in_binder):
    """What a break between two words costs beside BREAK; None if there may be none."""
    if in_binder:
        return BREAK + ARGUMENT if after.startswith("(") else None
    if re.fullmatch(r"let|:|as|record|elim|[(\[{]*(λ|∀|pub|¬)?", before):
        return None
    if after in ("in", "where", "as", ":", "=", "↦", "(", "[", "{"):
        return None
    if before == "in":
        return -BREAK - 5
    if before == "=":
        return 1 - BREAK
    if before.endswith("."):
        return -2 if after == "let" else 1
    if after in OPERATORS:
        return OPERATORS[after]
    if before == "$":
        return 1
    if not re.search(r"[\w)\]}⊥]$", before):
        return None
    return ARGUMENT if re.match(r"[\w(\[{«\"⊥]", after) else 7


def scanned(line):
    """The spaces of a line outside quotes, each with its depth in brackets, and its lists: brackets
    with parts, each of which `rattle fmt` gives a line if there is a break between them. Of lists
    in lists it is the outermost."""
    spaces, lists, open_at, quoted, depth = [], [], [], False, 0
    for at, mark in enumerate(line):
        if mark == '"':
            quoted = not quoted
        elif quoted:
            continue
        elif mark in "([{":
            is_record = re.search(r"\brecord (\S+ |\([^()]*\) )?$", line[:at]) is not None
            open_at.append([at, is_record])
            depth += 1
        elif mark in ")]}":
            depth -= 1
            if open_at:
                start, is_list = open_at.pop()
                lists += [(start, at)] if is_list else []
        elif open_at and (mark in ",;" or (mark == "↦" and line[open_at[-1][0]] == "[")):
            open_at[-1][1] = True
        elif mark == " ":
            spaces.append((at, depth))
    inner = {it for it in lists for other in lists if other[0] < it[0] and it[1] < other[1]}
    return spaces, [it for it in lists if it not in inner]


def places(line, indent):
    """The places where a line may be broken, each with its price, and the lists of the line."""
    spaces, lists = scanned(line)
    spaces = [it for it in spaces if it[0] > indent]
    edges = [indent - 1, *(at for at, _ in spaces), len(line)]
    least = min((depth for _, depth in spaces), default=0)
    # (operands are parted before a call's arguments are)
    parted = {depth for at, depth in spaces if line[at + 1:].split(" ", 1)[0] in OPERATORS}
    found, binder = [], None
    for number, (at, depth) in enumerate(spaces):
        before, after = line[edges[number] + 1:at], line[at + 1:edges[number + 2]]
        if binder is None and re.fullmatch(r"[(\[{]*[λ∀]", before):
            binder = depth
        elif binder is not None and before.endswith(".") and depth <= binder:
            binder = None
        cost = price(before, after, binder is not None)
        is_inside = any(start < at < end for start, end in lists)
        if cost is None or is_inside or re.search(r"\{\w+ =$", line[:at]):
            continue
        cost += ARGUMENT if cost == ARGUMENT and depth in parted else 0
        found.append((at, BREAK + cost + DEEPER * (depth - least)))
    return found, lists


def breaks(line):
    """Where to break a line: in the lists that no line can hold, or else where it costs least."""
    indent = len(line) - len(line.lstrip())
    found, lists = places(line, indent)
    wide = [start + 1 for start, end in lists if end - start >= WIDTH - indent - STEP]
    if wide:
        return wide
    # (the cheapest way to each place: what it costs, and the places of its breaks, late ones first)
    ways = {indent: (0, [])}
    for at, cost in [*found, (len(line), 0)]:
        ways[at] = min(
            (paid + cost + (TOO_LONG + 10 * (end - WIDTH) if end > WIDTH else 0), [*taken, -at])
            for start, (paid, taken) in ways.items()
            for end in [at - start + indent + (0 if start == indent else STEP - 1)]
        )
    taken = [-at for at in ways[len(line)][1][:-1]]
    return taken or [start + 1 for start, _ in sorted(lists, key=lambda it: it[0] - it[1])[:1]]


def broken(line):
    """A line, broken into several; as it is if it has no place for that."""
    indent = len(line) - len(line.lstrip())
    use = USE.fullmatch(line)
    if use:
        # (a name keeps its `as`)
        names = use[2].replace(" as ", "\u00a0as\u00a0") + ","
        lines = textwrap.wrap(
            names, WIDTH - len(use[1]) - 1, break_on_hyphens=False, break_long_words=False
        )
        return "\n".join(f"{use[1]}{{{it[:-1]}}}" for it in lines).replace("\u00a0", " ")
    if re.match(r"(pub )?use ", line):
        return line.replace(" as ", f"\n{' ' * STEP}as ")
    for at in reversed(breaks(line)):
        line = f"{line[:at].rstrip()}\n{' ' * (indent + STEP)}{line[at:].lstrip()}"
    return line


def comment_broken(block):
    """A comment of several lines, of which those from the first long one on are filled anew."""
    lines = block[0].split("\n")[:-1]
    first = next((at for at, line in enumerate(lines) if len(line) > WIDTH), len(lines))
    head = f"{block[1]}-- "
    words = " ".join(line[len(head):] for line in lines[first:])
    new = textwrap.wrap(words, WIDTH - len(head), break_on_hyphens=False)
    return "".join(f"{line}\n" for line in [*lines[:first], *(head + it for it in new)])


def laid_out(text):
    """A text as `rattle fmt` lays it out; None if it does not parse."""
    with tempfile.NamedTemporaryFile("w", suffix=".antt", encoding="utf-8") as file:
        file.write(text)
        file.flush()
        run = subprocess.run(["rattle", "fmt", file.name], capture_output=True, encoding="utf-8")
    return run.stdout if run.returncode == 0 else None


def bare(text):
    """What a text says: without white space, the marks of comments and what ends a list over
    several lines, and with a `use` of each name."""
    text = re.sub(r"^ *--", "", text, flags=re.M)
    each = lambda use: "".join(f"{use[1]}{name}," for name in re.split(r", *", use[2]))
    return re.sub(r"(?<=\[)\||[,;](?=[)\]}])", "", re.sub(r"\s", "", USE.sub(each, text)))


def wrapped(text):
    """A text with its long lines broken, and the number of those that cannot be."""
    text = re.sub(r"^( *)-- .*\n(?:\1-- .*\n)*", comment_broken, text, flags=re.M)
    left = set()
    while True:
        lines = text.split("\n")
        long = [at for at, line in enumerate(lines) if len(line) > WIDTH and line not in left]
        if not long:
            return text, len([line for line in lines if len(line) > WIDTH])
        new = [broken(line) if at in long else line for at, line in enumerate(lines)]
        result = laid_out("\n".join(new))
        if result is not None and bare(result) == bare(text):
            left.update({lines[at] for at in long}.intersection(result.split("\n")))
            text = result
            continue
        # a break is wrong: that line stays, or if each is right alone, all do
        wrong = set()
        for at in long:
            alone = laid_out("\n".join([*lines[:at], new[at], *lines[at + 1:]]))
            if alone is None or bare(alone) != bare(text):
                wrong.add(lines[at])
        left.update(wrong or {lines[at] for at in long})


def wrap(path, check):
    """Wraps a file, and returns whether it changes and how many lines stay long."""
    with open(path, encoding="utf-8") as file:
        text = file.read()
    result, left = wrapped(text)
    if result != text and not check:
        with open(path, "w", encoding="utf-8") as file:
            file.write(result)
    return result != text, left


def main(words):
    check = words[:1] == ["--check"]
    paths = words[check:] or sorted(glob.glob(f"{TOP}/crates/**/*.antt", recursive=True))
    with concurrent.futures.ThreadPoolExecutor(os.cpu_count()) as pool:
        results = dict(zip(paths, pool.map(lambda path: wrap(path, check), paths)))
    changed = [path for path in paths if results[path][0]]
    for path in changed if check else []:
        print(f"wrap_proofs: {os.path.relpath(path, TOP)} has lines to be broken")
    left = sum(number for _, number in results.values())
    done = "would change" if check else "are changed"
    print(f"wrap_proofs: {len(changed)} files {done}, {left} lines stay long")
    return bool(check and changed)


if __name__ == "__main__":
    sys.exit(main(sys.argv[1:]))
