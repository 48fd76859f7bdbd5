#!/usr/bin/env python3
"""Writes what is made from the rows of crates/command_line/src/rows.rt: the completions for bash,
zsh and fish, the synopses of docs/FORMATS.md and docs/latchsym.1, and in the latter an entry, with
the help as its text, for an option that has none.

    completions/write.py            # writes them
    completions/write.py --check    # writes nothing, and fails if one of them would change
    completions/write.py --rows     # prints the options of each command
"""
import difflib
import re
import sys
import textwrap
from collections import namedtuple
from pathlib import Path

TOP = Path(__file__).resolve().parent.parent
# what a shell says in place of the first part of the help, if that says too little or too much, and
# what zsh calls a value if not by the name of its row
BRIEF = {
    "The symbols": "The symbols, in the form of /proc/kallsyms",
    "Subtract N from each address": "Subtract N before the lookup",
    "Write answers and counts as JSON, one object per line": "Write JSON, one object per line",
    "Write what each step did instead": "Write what each step did, as JSON",
    "Accepted for compatibility with lookup": "Leave out the counts",
}
CALLED = {"kallsyms": "symbols", "at": "seconds", "offset": "bytes", "readers": "number", "file": "trace"}

Row = namedtuple("Row", "kind name values help required excluded_by needs")
Command = namedtuple("Command", "about rows options")


def commands():
    """Each command with what the help says of it and its rows, in the order of the help."""
    text = (TOP / "crates/command_line/src/rows.rt").read_text().replace("\\\n", "")
    conflicts = dict(re.findall(r'const (\w+): Option<Conflict> = conflict!\("([\w-]+)"', text))
    row = r'row!\((\w+) "([\w-]+)" \[(.*?)\]:\s+"(.*?)"((?:,\s+\w+: [\w"/-]+)*)\)'

    def read(kind, name, values, help, fields):
        field = dict(re.findall(r"(\w+): (\w+)", fields))
        conflict = (conflicts.get(field.get(it)) for it in ("excluded_by", "needs"))
        return Row(kind, name, " ".join(re.findall(r"\w+", values)), help, "is_required" in field, *conflict)

    named = {name: read(*parts) for name, *parts in re.findall(r"const (\w+): Argument = " + row, text)}
    tables = {
        table: [named.get(name) or read(*parts) for *parts, name in re.findall(row + r"|(\b[A-Z]+\b)", lines)]
        for table, lines in re.findall(r"const (\w+): &\[Argument\] = &\[(.*?)\];\n", text, re.DOTALL)
    }
    text = (TOP / "crates/command_line/src/parser.rt").read_text()
    abouts = dict(re.findall(r'const (\w+): &str = "(.*)";', text))
    for name, table in re.findall(r'alloc, command, "(\w+)", (\w+)\)', text):
        yield name, Command(abouts[table], tables[table], [it for it in tables[table] if "Oper" not in it.kind])


COMMANDS = dict(commands())
NAMES = " ".join([*COMMANDS, "help"])
made = {}


def put(path, pattern, text):
    """Puts a text in place of what the group of a pattern matches in a file."""
    old = made.get(path) or (TOP / path).read_text()
    found = re.search(pattern, old) or sys.exit(f"write.py: {path} has no {pattern}")
    made[path] = old[: found.start(1)] + text + old[found.end(1) :]


def reads_file(command):
    return command.rows[-1].kind == "Operand"


def brief(row):
    """The first part of the help, or what is said in its place."""
    part = re.split(r";|, (?:as|and|for|instead|not) ", row.help)[0]
    return BRIEF.get(part, part)


def bash(path="completions/latchsym.bash"):
    def with_value(*values):
        return " | ".join(dict.fromkeys(f"--{it.name}" for command in COMMANDS.values() for it in command.options if it.values in values))

    put(path, "-W '(.*) -h --help -V --version'", NAMES)
    put(path, r"help\)\n.*-W '(.*)' --", NAMES)
    put(path, r"\[1\]} in\n((?:.*\n)*?) +help\)", "".join(
        f"        {name}) options='{' '.join(f'--{it.name}' for it in command.options)} -h --help' ;;\n" for name, command in COMMANDS.items()))
    put(path, r"\$before in\n +(.*)\)\n", with_value("FILE"))
    put(path, r"\n +(--.*)\) return ;;\n", with_value("N", "TIME"))
    others = (f" || ${{COMP_WORDS[1]}} = {name}" for name, command in COMMANDS.items() if not reads_file(command))
    put(path, r"\$word = -\*(.*) \]\]; then", "".join(others))


def zsh(path="completions/_latchsym"):
    def asked(row):
        called = CALLED.get(row.name, row.name)
        if "Oper" in row.kind:
            return f"'1:{called}:_files'" if row.kind == "Operand" else f"'*:{called}: '"
        one = {"": "", "FILE": f":{called}:_files", "N": f":{called}: ", "TIME": f":{called}: "}
        value = one.get(row.values, ":start:(_stext):end:(_end _einittext _etext)")
        return f"'--{row.name}{'=' * (row.values in ('FILE', 'N', 'TIME'))}[{brief(row)}]{value}'"

    put(path, r"commands=\(\n((?:.*\n)*?) +'help:", "".join(f"        '{name}:{command.about}'\n" for name, command in COMMANDS.items()))
    lines = []
    for name, command in COMMANDS.items():
        words = [asked(it) for it in command.options] + ["'(- *)'{-h,--help}'[Print help]'"]
        words += [asked(it) for it in command.rows if it not in command.options]
        lines.append(f"        {name})\n            _arguments \\\n" + " \\\n".join(f"                {it}" for it in words) + "\n            ;;\n")
    put(path, r"\$words\[1\] in\n((?:.*\n)*?) +help\)", "".join(lines))


def fish(path="completions/latchsym.fish"):
    line, seen = "complete -c latchsym -n ", "__fish_seen_subcommand_from"
    value = {"": "", "FILE": " -r -F", "N": " -x", "TIME": " -x", "START END": " -x -a _stext"}
    about = {**{name: command.about for name, command in COMMANDS.items()}, "help": "Print help"}
    lines = [f"{line}__fish_use_subcommand -a {name} -d '{it}'\n" for name, it in about.items()] + ["\n"]
    offered = {}
    for name, command in COMMANDS.items():
        for it in command.options:
            offered.setdefault(f"-l {it.name}{value[it.values]} -d '{brief(it)}'", []).append(name)
    offered["-F"] = [name for name, command in COMMANDS.items() if reads_file(command)]
    offered["-s h -l help -d 'Print help'"] = [*COMMANDS]
    lines += [f"{line}'{seen} {' '.join(names)}' {it}\n" for it, names in offered.items()]
    put(path, r"-d 'Print version'\n((?:.*\n)*)", "".join([*lines, f"{line}'{seen} help' -a '{NAMES}'\n"]))


def synopsis(command, said, repeated):
    """The arguments of a command: one that needs another one within its brackets, a flag that
    excludes one beside it."""
    flags = {it.excluded_by for it in command.rows}
    for it in command.rows:
        if it.needs or it.name in flags:
            continue
        text = said(it) + "".join(f" [{said(other)}]" for other in command.rows if other.needs == it.name)
        flag = "".join(f" | {said(other)}" for other in command.options if other.name == it.excluded_by)
        yield (text if it.required else f"[{text}{flag}]") + repeated * (it.kind == "Operands")


def formats(path="docs/FORMATS.md"):
    for name, command in COMMANDS.items():
        said = synopsis(command, lambda it: f"--{it.name} {it.values}".strip() if it in command.options else it.values, "..")
        # (lines are broken between arguments alone)
        text = " ".join([f"latchsym {name}", *(it.replace(" ", "\0") for it in said)])
        lines = textwrap.wrap(text, 96, subsequent_indent="    ", break_on_hyphens=False)
        put(path, rf"\n(    latchsym {name}\b.*\n(?:        .*\n)*)", "".join(f"    {it}\n" for it in lines).replace("\0", " "))


def man(path="docs/latchsym.1"):
    def option(row):
        return f"--{row.name}".replace("-", r"\-")

    def said(row):
        return r"\~".join([rf"\fB{option(row)}\fP"] * ("Oper" not in row.kind) + [rf"\fI{it}\fP" for it in row.values.split()])

    lines = [f".SY latchsym\n.B {name}\n" + "".join(f"{it}\n" for it in synopsis(command, said, "...")) for name, command in COMMANDS.items()]
    put(path, r"\.SH SYNOPSIS\n((?:.*\n)*?)\.SY latchsym\n\.B help", "".join(lines))
    for name, command in COMMANDS.items():
        for it in command.options:
            head = rf"\%{option(it)}"
            if not re.search(rf"^\.BI? {re.escape(head)}(\\~|$)", made[path], re.MULTILINE):
                entry = f".BI {head}\\~ {it.values}" if it.values else f".B {head}"
                put(path, rf"\n\.SS \w+ \({name}\)\n(?:(?!\.S[SH]).*\n)*()", f".TP\n{entry}\n{it.help}.\n")


def main(words):
    if words == ["--rows"]:
        print(*(f"{name} --{it.name} {it.values}".strip() for name, command in COMMANDS.items() for it in command.options), sep="\n")
        return 0
    if words not in ([], ["--check"]):
        sys.exit(__doc__)
    for make in (bash, zsh, fish, formats, man):
        make()
    stale = [path for path, text in made.items() if text != (TOP / path).read_text()]
    for path in stale:
        if words:
            sys.stdout.writelines(difflib.unified_diff((TOP / path).read_text().splitlines(True), made[path].splitlines(True), path, "from the rows"))
        else:
            (TOP / path).write_text(made[path])
            print(f"{path} is written")
    return 1 if words and stale else 0


if __name__ == "__main__":
    sys.exit(main(sys.argv[1:]))
