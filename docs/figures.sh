#!/usr/bin/env bash
# SPDX-License-Identifier: MIT OR Apache-2.0
# The numbers and lists of the pages that follow from the files: docs/figures.sh writes numbers into
# docs/PROOF.md and README.md, the lists of docs/PROOF.md into docs/reading.txt, and the definitions of
# the headline into docs/headline.txt; --check says which of them are no longer so. Needs python3.
#
# How long a list is stands below a line `<!-- read NAME -->`; PATHS says what it is of. A block
# below a line `<!-- quoted: FILE FUNCTION -->` has clauses of that function. A number stands between
# `<!-- NAME -->` and `<!-- -->`.
set -euo pipefail
cd "$(dirname "$0")/.."
python3 - "$@" <<'PYTHON'
import glob, itertools, re, sys, textwrap

CHECK = sys.argv[1:] == ["--check"]
WORD = re.compile(r"[^\s(){}\[\],;:.`λ→×⊎≡≢≤<>=+*/∷|&]+")


class Definition:
    """A definition of specs/: its file, its name, its place there, its lines, the comment above it, and the parameters of
    the modules that it stands in."""

    def __init__(self, file, name, place, lines, about, parameters):
        self.file, self.name, self.place, self.lines = file, name, place, len(lines)
        self.text, self.parameters = "\n".join(lines), parameters
        self.about = about


def imports_of(text):
    """The names that a file brings in: each with the module and the name that it has there."""
    found = {}
    for module, names in re.findall(r"\buse Rattle\.(\S+?)\.\{([^}]*)\}", text):
        for name in names.split(","):
            there, _, here = name.strip().partition(" as ")
            found[here.strip() or there] = (module, there)
    return found


def definitions_of(file, text):
    """The definitions of a file. A line that begins another one ends it; a comment and an empty line are none of it. One in
    a module with parameters rests on what these name, too."""
    found, name, lines, about, comment, modules = [], None, [], [], [], []
    head = re.compile(r"(?:(?:abbrev |unfoldable |record |data |pub )+|(?: {2})+(?:pub )?(?:abbrev |unfoldable |record |data )(?:pub )?)([^\s{]\S*)")
    for line in [*text.split("\n"), "end"]:
        bare = re.sub(r"--.*", "", line).rstrip()
        depth = len(bare) - len(bare.lstrip())
        begins, module = head.match(bare), re.match(r" *module _", bare)
        if begins or module or bare == "end" or bare.startswith(("use ", "pub use ")):
            if name:
                parameters = "\n".join(header for _, header in modules)
                found.append(Definition(file, name, len(found), lines, about, parameters))
            name, lines, about = begins[1] if begins else None, [], comment
            modules = [it for it in modules if it[0] < depth]
        if module or (modules and not modules[-1][1].endswith("where")):
            modules = [*modules, (depth, bare)] if module else [*modules[:-1], (modules[-1][0], modules[-1][1] + "\n" + bare)]
        elif bare and name:
            lines.append(bare)
        comment = [*comment, line] if line.lstrip().startswith("--") else []
    return found


SPECS = {}
for path in glob.glob("crates/*/specs/*.antt"):
    crate, _, stem = path[7:-5].split("/")
    with open(path, encoding="utf-8") as it:
        text = it.read()
    SPECS[f"{crate}.specs.{stem}"] = (imports_of(text), {it.name: it for it in definitions_of(path, text)})


def named(module, name):
    """The definition that a module has under a name, if it is one of the repository's."""
    imports, here = SPECS.get(module, ({}, {}))
    if name in here:
        return here[name]
    return named(*imports[name]) if name in imports else None


def behind(definition):
    """The definitions that one names."""
    crate, _, stem = definition.file[7:-5].split("/")
    module = f"{crate}.specs.{stem}"
    found = (named(module, it) for it in WORD.findall(definition.parameters + definition.text))
    return {it for it in found if it and it is not definition}


def clauses_of(file, function):
    """The text of a file, and the clauses of one of its functions."""
    with open(f"crates/{file}", encoding="utf-8") as it:
        text = it.read()
    found = re.search(rf"fn {function}\b.*?^ *\{{", text, re.DOTALL | re.MULTILINE)
    if not found:
        sys.exit(f"figures: crates/{file} has no function {function}")
    at = re.search(r"^\s*(requires|ensures)\b", found[0], re.MULTILINE)
    return text, found[0][at.start():] if at else ""


# What each list is of, FILE FUNCTION.. [FILE FUNCTION..].. [but WORD..] [beyond NAME..]: the definitions
# that the clauses of these functions rest on, each before its use. `but` leaves out what stands behind
# these words alone, `beyond` what the lists of these names have.
PATHS = {
    "headline": "latch_steps/src/runs.rt run but IsTraceOf MayOpen IsOpeningRefused",
    "steps": """latch_steps/src/runs.rt run drive
        latch_steps/src/laws.rt every_answer_is_remembered beyond headline""",
    "lookup": "command_tables/src/lookup.rt lookup_engine but json_line json_counts notes_of symbol_note",
    "json": "command_tables/src/lookup.rt lookup_engine beyond lookup",
    "annotate": "command_listings/src/annotations.rt annotate_engine beyond lookup json",
    "table": """latch_table/src/readers/seated.rt try_find recall
        latch_table/src/writers/updates.rt begin step finish latch_table/src/writers/lookups.rt find
        latch_table/src/meeting.rt meet latch_table/src/enlarging.rt enlarge
        latch_table/src/adding.rt add_reader beyond headline steps""",
    "weak": """latch_weak/src/laws.rt every_attempt_is_right answers_from_memory_are_right
        generations_never_fall attempts_without_flip_return own_processor_returns rising_loads_are_right
        write_barriers_are_needed orders_of_loads_are_needed beyond headline steps""",
    "library": """latchsym_ffi/src/catalogs.rt latchsym_catalog_open_nonnull latchsym_catalog_find
        latchsym_ffi/src/lookups.rt latchsym_reader_try_find
        latchsym_ffi/src/updates.rt latchsym_writer_step
        beyond headline steps lookup json annotate table""",
}

# The list whose definitions docs/headline.txt spells out.
SPELLED = "headline"


def parts_of(words):
    """The words of a path by what they are for: its functions, each with its file, and those after `but` and `beyond`."""
    functions, after, kind, file = [], {"but": [], "beyond": []}, None, None
    for word in words:
        if word in after:
            kind = word
        elif kind:
            after[kind].append(word)
        elif "/" in word:
            file = word
        else:
            functions.append((file, word))
    return functions, after["but"], after["beyond"]


def rested_on(functions, but):
    """The definitions that the clauses rest on."""
    todo, found = [], set()
    for file, function in functions:
        text, clauses = clauses_of(file, function)
        imports = imports_of(text)
        todo += [named(*imports[it]) for it in WORD.findall(clauses) if it in imports]
    while todo:
        definition = todo.pop()
        if definition and definition not in found:
            found.add(definition)
            todo += [] if definition.name in but else behind(definition)
    return found


def in_order(found):
    """The files of these definitions, each behind those that it rests on."""
    files, done = {}, []
    for it in found:
        files.setdefault(it.file, []).append(it)

    def visit(file):
        if file not in done:
            for other in sorted({it.file for one in files[file] for it in behind(one)} - {file}):
                if other in files:
                    visit(other)
            if file not in done:
                done.append(file)

    for file in sorted(files):
        visit(file)
    return [(file, files[file]) for file in done]


def filled(text):
    """The text in lines."""
    return textwrap.fill(text, 100, break_long_words=False, break_on_hyphens=False)


def stem_of(path):
    """What a file of definitions is called in its crate."""
    return path.rsplit("/", 1)[1][:-5]


def files_of(found):
    """The files of these definitions; a crate is named once for its files in a row."""
    runs = itertools.groupby(in_order(found), lambda it: it[0].split("/")[1])
    return "; ".join(f"`{crate}` " + ", ".join(stem_of(path) for path, _ in run) for crate, run in runs)


def expect_order(found, but):
    """Fails where one of these definitions, but for the words after `but`, comes before one that it names."""
    met = set()
    for path, here in in_order(found):
        for it in sorted(here, key=lambda it: it.place):
            if it.name not in but and not behind(it) <= met:
                sys.exit(f"figures: {path} has {it.name} before a definition that it names")
            met.add(it)


LISTS = {}
READING = ["""\
The files of definitions of each list of docs/PROOF.md, in the order in which to read them, without
what earlier lists have. docs/figures.sh writes this file from the sources."""]


def listed(name):
    """The list of a reading path."""
    functions, but, beyond = parts_of(PATHS[name].split())
    found = LISTS[name] = rested_on(functions, but)
    found = found.difference(*(LISTS[it] for it in beyond))
    if name == SPELLED:
        expect_order(found, but)
    READING.append(filled(f"{name}: {files_of(found)}."))
    return f"{len(found)} definitions in {sum(it.lines for it in found)} lines."


HEADLINE = """\
The definitions that the headline of docs/PROOF.md rests on, each before its use and below a sentence
that says it in words, and then its clauses. docs/figures.sh writes this file from the sources.

The notation:

- f x y, λ x. e: f of x and y; the function that makes e of x
- ℕ, List X, Option X: the numbers from 0 on; lists; Some X or None
- [], x ∷ xs, xs ++ ys: the empty list; x and then xs; one list after the other
- take n xs, drop n xs: the first n of a list; the others
- .. → Type 0: a statement, told case by case; other definitions are values
- record: all of its fields hold, or together make a value
- A × B, A ⊎ B, A → ⊥: both, one of the two, not A
- A → B, (x : T) → B, (x : T) × B: if A then B; B for every x; some x with B
- x ≡ y, x ≢ y: equal, different
- AllByRecursion P xs: P of each in the list
- x.old, x.new, x.now: what a &mut argument held before and after the call; what a &
  argument holds
- IfOk r P, IfErr r P: where r is Ok (Err), its value has P
- Unit, ⊥ as a case: nothing is said; this result never comes
"""


def spelled(found, quoted):
    """The definitions of a list in their order, each with the comment above it, and then the clauses."""
    parts = [HEADLINE]
    for path, here in in_order(found):
        parts.append(f"==== {path}\n")
        parts += ["\n".join([*it.about, it.text]) + "\n" for it in sorted(here, key=lambda it: it.place)]
    return "\n".join([*parts, *(f"==== crates/{file}, {function}\n\n{block}" for file, function, block in quoted)])


NUMBERS = {
    "edits of the gate": len(glob.glob("crates/*/must-fail/*.edit")),
    "further edits": len(glob.glob("tests/wrong_bodies/*/*.edit")),
    "tested edits": sum("test:" in (line[:5] for line in open(it, encoding="utf-8")) for it in glob.glob("tests/wrong_bodies/*/*.edit")),
}


def renewed(text):
    """The text of a page with its lists and numbers made anew."""
    of_list = r"(<!-- read (\w+) -->\n\n)(?:.+\n)*"
    text = re.sub(of_list, lambda it: f"{it[1]}{listed(it[2])}\n", text)
    return re.sub(r"(<!-- ([a-z ]+) -->)[^<]*(<!-- -->)", lambda it: f"{it[1]}{NUMBERS[it[2]]}{it[3]}", text)


failed = False


def keep(page, new):
    """Writes a page where it is to be another, or says so."""
    global failed
    try:
        with open(page, encoding="utf-8") as it:
            old = it.read()
    except FileNotFoundError:
        old = None
    if new != old and CHECK:
        print(f"figures: {page} has other numbers or definitions than the files: run docs/figures.sh")
        failed = True
    elif new != old:
        with open(page, "w", encoding="utf-8") as it:
            it.write(new)


for page in ("docs/PROOF.md", "README.md"):
    with open(page, encoding="utf-8") as it:
        new = renewed(it.read())
    keep(page, new)
    quoted = re.findall(r"<!-- quoted: (\S+) (\S+) -->\n\n((?:    .*\n)+)", new)
    if page == "docs/PROOF.md":
        keep("docs/headline.txt", spelled(LISTS[SPELLED], quoted))
        keep("docs/reading.txt", "\n\n".join(READING) + "\n")
    for file, function, block in quoted:
        clauses = " ".join(clauses_of(file, function)[1].split())
        for line in block.splitlines():
            if " ".join(line.split()) not in clauses:
                print(f"figures: {page} quotes of {function} what it does not say: {line.strip()}")
                failed = True
sys.exit(failed)
PYTHON
