#!/usr/bin/env python3
# SPDX-License-Identifier: MIT OR Apache-2.0
"""Writes what follows from include/latchsym.h: the declarations for Rust and Python, the export map,
Debian's list of symbols, the calls and numbers of docs/latchsym.3 and the numbers of tests/c/numbers.c.
In the header the comment of a number begins with its text, and that of a call, or of its section, says
"since 1.2" where version 1.0 had none of it.

    bindings/write.py            # writes them
    bindings/write.py --check    # writes nothing, and fails if one of them would change

Both compare the header with what is written by hand, and fail if it has other types or other calls:
the exports of crates/latchsym_ffi, the structs that the crate for Rust itself shows, latchsym.hpp.
"""
import difflib
import re
import sys
import textwrap
from collections import namedtuple
from pathlib import Path

TOP = Path(__file__).resolve().parent.parent
MADE = "made of include/latchsym.h by bindings/write.py"
# the functions of the header's own that the page has
OWN = "text pool_fill pool_open pool_try_find pool_enlarge pool_close pool_follow pool_enlarge_follower".split()
# the calls that latchsym.hpp makes by others, and the structs that the crate for Rust shows itself
NOT_OF_CPP = ("latchsym_place_of_text", "latchsym_catalog_name")
SHOWN = {"Told": "Answer", "Counts": "Counts", "Item": "Item"}
RUST = {"uint8_t": "u8", "uint32_t": "u32", "uint64_t": "u64", "size_t": "usize", "void": "u8"}
PYTHON = {"u8": "c_char", "u32": "c_uint32", "u64": "c_uint64", "usize": "c_size_t"}

# A field or an argument, with its type as in Rust, and what stands before that: *const, *mut or nothing
Value = namedtuple("Value", "name type pointer")
# A call, its name in the library, its arguments, also as in the header, and the section of the header
Call = namedtuple("Call", "name exported returns values text since section is_own")
made, faults = {}, []


def read(path):
    return (TOP / path).read_text(encoding="utf-8") if (TOP / path).exists() else ""


def put(path, pattern, text):
    """Puts a text in place of what the group of a pattern matches in a file."""
    old = made.get(path) or read(path)
    found = re.search(pattern, old, re.DOTALL) or sys.exit(f"write.py: {path} has no {pattern}")
    made[path] = old[: found.start(1)] + text + old[found.end(1) :]


# ---- the header ----


def type_of(base):
    """The type in Rust of one of C. The handle of each kind is a handle."""
    name = "latchsym_handle" if base in HANDLES else base
    return RUST.get(name) or "".join(map(str.capitalize, name.split("_")[1:]))


def value_of(text):
    """The value of a declaration in C. One without a name has that of its struct."""
    const, base, star, name = re.fullmatch(r"(const )?(?:struct )?(\w+) ?(\*?)(\w*)", text).groups()
    return Value(name or base.removeprefix("latchsym_"), type_of(base), star and ("*const " if const else "*mut "))


def fields_of(text):
    """The fields of a struct of C."""
    for line in re.sub(r"/\*.*?\*/|\s+", " ", text, flags=re.DOTALL).split(";")[:-1]:
        first, *others = line.strip().split(",")
        yield from [value_of(first), *(value_of(first.rsplit(" ", 1)[0] + it) for it in others)]


def calls_of(header):
    """The calls of the header in their order."""
    call = r"^/\*(.*?)\*/|^(static inline )?(const char \*|\w+ )(latchsym_(\w+?)(?:_nonnull)?)\(([^)]*)\)(?=;| \{)"
    for comment, own, returns, exported, name, values in re.findall(call, header, re.DOTALL | re.MULTILINE):
        if not name:
            since = re.search(r"[Ss]ince (\d\.\d+)", comment)
            if comment.startswith(" ----"):
                section, since_section, since = comment, since, None
        elif not own or name in OWN:
            text, version = " ".join(values.split()), (since or since_section or ["", "1.0"])[1]
            known = [] if own or text == "void" else [value_of(it) for it in text.split(", ")]
            yield Call(f"latchsym_{name}", exported, returns, known, text, version, section, bool(own))


HEADER = read("include/latchsym.h")
VERSION = read("VERSION").strip()
NUMBERS = [(name, number, re.sub(r"\s*\n[ *]+", " ", text)) for name, number, text in
           re.findall(r"^    LATCHSYM_(\w+) = (\d+),? +/\* (.*?) \*/", HEADER, re.DOTALL | re.MULTILINE)]
# (of a note the text alone is asked for)
RETURNED = [(name, number) for name, number, _ in NUMBERS if not name.startswith("NOTE_")]
HANDLES = re.findall(r"^struct (\w+) \{ struct latchsym_handle handle; \};", HEADER, re.MULTILINE)
# (a pool is the header's own)
STRUCTS = {type_of(name): list(fields_of(fields)) for name, fields in
           re.findall(r"^struct (latchsym_(?!pool)\w+) \{(.*?)\};", HEADER, re.DOTALL | re.MULTILINE)
           if name not in HANDLES}
DECLARED = list(calls_of(HEADER))
CALLS = [it for it in DECLARED if not it.is_own]
NUMBERED = [it for it in CALLS if it.returns == "uint32_t "]


def flat(fields):
    """The fields, with those of a place in its stead."""
    for it in fields:
        is_place = it.type == "Place"
        yield from [Value(f"{it.name}_at", "u8", "*const "), Value(f"{it.name}_len", "usize", "")] if is_place else [it]


# ---- what follows from it ----


def rust(path="bindings/rust/src/sys.rs"):
    def declared(values, public=""):
        return ", ".join(f"{public}{it.name}: {it.pointer}{it.type}" for it in values)

    def nothing(it):
        """What stands there before a call has written it: a pointer is null in a handle alone."""
        if it.pointer:
            return "null_mut()" if it.pointer == "*mut " else "NonNull::dangling().as_ptr()"
        return f"{it.type}::NONE" if it.type in STRUCTS else "0"

    shown = ", ".join(mine if it == mine else f"{mine} as {it}" for it, mine in SHOWN.items())
    lines = [f"// {MADE}", "// SPDX-License-Identifier: MIT OR Apache-2.0", f"use crate::{{{shown}}};",
             "use std::ptr::{null_mut, NonNull};", "", *(f"pub const {name}: u32 = {number};" for name, number in RETURNED), ""]
    for name in [it for it in STRUCTS if it not in SHOWN]:
        copy, public, none = ("", "", "CLOSED") if name == "Handle" else (" #[derive(Clone, Copy)]", "pub ", "NONE")
        values = ", ".join(f"{it.name}: {nothing(it)}" for it in STRUCTS[name])
        lines += [f"#[repr(C)]{copy} pub struct {name} {{ {declared(STRUCTS[name], public)} }}",
                  f"impl {name} {{ pub const {none}: {name} = {name} {{ {values} }}; }}"]
    lines += ["", 'extern "C" {']
    for it in CALLS:
        link = "" if it.name == it.exported else f'#[link_name = "{it.exported}"] '
        lines.append(f"    {link}pub fn {it.name}({declared(it.values)}){' -> u32' * (it in NUMBERED)};")
    made[path] = "\n".join([*lines, "}", ""])


def python(path="python/src/latchsym/_header.py"):
    def kind(it, pointer):
        name = PYTHON.get(it.type, it.type)
        return pointer.format(name) if it.pointer else name

    lines = [f"# {MADE}", "# SPDX-License-Identifier: MIT OR Apache-2.0",
             "from ctypes import POINTER, Structure, c_char, c_size_t, c_uint32, c_uint64, c_void_p", "",
             f"MAJOR = {VERSION.split('.')[0]}", *(f"{name} = {number}" for name, number in RETURNED), ""]
    for name, fields in STRUCTS.items():
        # (the fields of a symbol's places as its own, which are sooner read)
        fields = ", ".join(f'("{it.name}", {kind(it, "c_void_p")})' for it in (flat(fields) if name == "Symbol" else fields))
        lines.append(f"class {name}(Structure): _fields_ = [{fields}]")
    lines += ["", "# what each call takes, and whether it returns a number", "CALLS = {"]
    for it in CALLS:
        lines.append(f'    "{it.name}": ([{", ".join(kind(value, "POINTER({})") for value in it.values)}], {it in NUMBERED}),')
    names = " ".join(it.name for it in CALLS if it.name != it.exported)
    lines += ["}", "# those that have names in _nonnull, and take no null pointers", f'NONNULL = set("""']
    made[path] = "\n".join([*lines, *textwrap.wrap(names, 100), '""".split())', ""])


def node(since):
    return f"LATCHSYM_{since.removesuffix('.0')}"


def symbols(path="packaging/debian/liblatchsym1.symbols"):
    before, newest = dict(re.findall(r" (\w+)@(\S+)", read(path))), node(VERSION.rpartition(".")[0])
    known = [(it.exported, node(it.since), before.get(it.exported, newest)) for it in CALLS]
    faults.extend(f"{name} is of {old}, and of {new} by its comment" for name, new, old in known if old != new)
    lines = sorted({(name, it.since) for it in CALLS for name in (node(it.since), it.exported)})
    made[path] = f"# {MADE}\nliblatchsym.so.1 liblatchsym1 #MINVER#\n" + "".join(
        f" {name}@{node(since)} {since}.0\n" for name, since in lines)


def export_map(path="packaging/liblatchsym.map"):
    text, older = f"# {MADE}: what the shared library shows, by version\n", ""
    for since in sorted({it.since for it in CALLS}, key=lambda it: [*map(int, it.split("."))]):
        names = "".join(f"        {name};\n" for name in sorted(it.exported for it in CALLS if it.since == since))
        text += f"{node(since)} {{\n    global:\n{names}" + ("" if older else "    local: *;\n") + f"}}{older};\n"
        older = f" {node(since)}"
    made[path] = text


def man(path="docs/latchsym.3"):
    text, section = f'.\\" {MADE}\n', None
    for it in DECLARED:
        # (lines are broken between arguments alone)
        words = f"{it.returns}{it.name}({it.text});".replace(" ", "\0").replace(",\0", ", ")
        first, *others = textwrap.wrap(words, 73, subsequent_indent=" " * 13, break_long_words=False)
        text += ".PP\n" * (it.section != section) + f".B {first}\n" + "".join(f'.B "{it}"\n' for it in others)
        section = it.section
    put(path, r"#include <latchsym.h>\n(.*?)\.PP\n\.B #include <latchsym_read", text.replace("\0", " "))
    entries = [rf"{number} \fBLATCHSYM_{name}\fP" + f"\n{said[0].upper()}{said[1:]}{'.' * (said[-1] != '?')}\n".replace("-", r"\-")
               for name, number, said in NUMBERS if number != "0"]
    put(path, r"\n\.SH ERRORS\n(.*?)\.SH", f'.\\" {MADE}\n.TP 8\n' + ".TP\n".join(entries))


def numbers(path="tests/c/numbers.c"):
    lines = [f'    {{LATCHSYM_{name}, "{said.split(". ")[0]}"}},\n' for name, _, said in NUMBERS]
    put(path, r" texts\[\] = \{\n(.*?)\};", f"    /* {MADE} */\n" + "".join(lines))


# ---- what is written by hand ----


def values_of_rust(text):
    """The fields or arguments of Rust: of a slice a pointer and a length, and none of what is no machine's."""
    text = re.sub(r"<[^<>]*>|'\w+ |^\s*(///|ghost ).*$|pub |\w+: Global,?", "", text, flags=re.MULTILINE)
    for name, pointer, slice_of, base in re.findall(r"(\w+): (&mut |&|\*mut |)(\[?)(\w+)", text):
        yield Value(name, base, {"&": "*const ", "&mut ": "*mut "}.get(pointer, pointer))
        yield from [Value(f"{name}_len", "usize", "")] * bool(slice_of)


def sources(folder):
    """The text of a crate, and its structs that are laid out as in C."""
    text = "\n".join(it.read_text(encoding="utf-8") for it in sorted((TOP / folder).glob("*.r[ts]")))
    struct = r"#\[repr\(C\)\]\n(?:#\[.*\n)*pub struct (\w+)(?:<.*>)? \{((?:\n .*|\n)*)\n\}"
    return text, {name: list(values_of_rust(fields)) for name, fields in re.findall(struct, text)}


def leaves(values, structs):
    """What values are made of, each with its name; a pointer with the leaves of what it leads to."""
    for it in values:
        if it.pointer:
            yield (it.pointer, *leaves([it._replace(pointer="")], structs)), it.name
        elif it.type in structs:
            yield from leaves(structs[it.type], structs)
        else:
            yield it.type, it.name


def are_alike(ours, theirs):
    """Whether leaves have the same types in the same order, and no name at two places."""
    names, others = [[name for _, name in it] for it in (ours, theirs)]
    return len(ours) == len(theirs) and all(
        (name == other or name not in others or other not in names) and
        (are_alike(kind[1:], like[1:]) and kind[0] == like[0] if type(kind) == type(like) == tuple else kind == like)
        for (kind, name), (like, other) in zip(ours, theirs))


def compare():
    mine = {name: list(flat(fields)) for name, fields in STRUCTS.items()}
    text, structs = sources("crates/latchsym_ffi/src")
    export = r'#\[unsafe\(no_mangle\)\]\npub extern "C" fn (\w+)(?:<[^>]*>)?\(([^)]*)\)(?: -> (\w+))?'
    exports, calls = {it[0]: it[1:] for it in re.findall(export, text)}, {it.exported: it for it in CALLS}
    faults.extend(f"{name} is not in the header" for name in sorted({*exports} - {*calls}))
    faults.extend(f"{name} is no export of latchsym_ffi" for name in sorted({*calls} - {*exports}))
    for name in sorted({*calls} & {*exports}):
        call, (values, result) = calls[name], exports[name]
        ours, theirs = leaves(call.values, mine), leaves(values_of_rust(values), structs)
        if not are_alike([*ours], [*theirs]) or result != "u32" * (call in NUMBERED):
            values = " ".join(values.split())
            faults.append(f"{name}: the header has {call.returns}({call.text}), and latchsym_ffi ({values}) -> {result or '()'}")
    _, structs = sources("bindings/rust/src")
    faults.extend(f"{it} of the crate for Rust has other fields than the struct of the header" for name, it in SHOWN.items()
                  if not are_alike([*leaves(STRUCTS[name], mine)], [*leaves(structs[it], structs)]))
    named = re.findall(r"\w+", read("include/latchsym.hpp"))
    faults.extend(f"latchsym.hpp has no {it.name}" for it in CALLS if it.name not in NOT_OF_CPP and it.name not in named)


def main(words):
    if words not in ([], ["--check"]):
        sys.exit(__doc__)
    for each in (compare, rust, python, symbols, export_map, man, numbers):
        each()
    stale = [path for path, text in made.items() if text != read(path)]
    for path in stale:
        if words:
            sys.stdout.writelines(difflib.unified_diff(read(path).splitlines(True), made[path].splitlines(True), path, "from the header"))
        else:
            (TOP / path).write_text(made[path], encoding="utf-8")
            print(f"{path} is written")
    print(*(f"write.py: {it}\n" for it in faults), sep="", end="")
    return 1 if faults or words and stale else 0


if __name__ == "__main__":
    sys.exit(main(sys.argv[1:]))
