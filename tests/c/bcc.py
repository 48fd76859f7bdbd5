"""Compares the answers of examples/c/bcc_syms.h with those of libbcc, if that is given.

    bcc.py LIVE OF_FILE [LIBBCC]

Each is a program of tests/c/bcc.c: LIVE reads /proc/kallsyms, OF_FILE the file `kallsyms` of the folder
that it runs in, and LIBBCC has libbcc's own header. Of 10,000 addresses in code the symbol told has to
begin where the last one below is listed, and to be the first listed there. Where libbcc names another,
both have to begin at one address.
"""
import os, pathlib, random, subprocess, sys, tempfile

COUNT = 10000
MAPPING = ("$", ".L", "L0")  # names of no code (is_mapping_symbol, Linux 6.x)
KERNEL = [f"ffffffff8100{place:02x}00 T {name}\n" for place, name in enumerate(("_stext", "one", "two", "_end"))]
MODULE, OTHER = (f"ffffffffc0000010 t {name}\t[m]\nffffffffc0000020 t last_of_{name}\t[m]" for name in ("old", "new"))


def listed():
    """Address, type, name and owner of each symbol of code's regions, by address and line: the owner is the region of
    the kernel that has it, by its first symbol, or a module."""
    with open("/proc/kallsyms", encoding="utf-8") as file:
        lines = [line.split() for line in file]
    at = {words[2]: int(words[0], 16) for words in lines if len(words) == 3}
    bounds = [("_stext", "_end")] if "_end" in at else [("_stext", "_etext"), ("_sinittext", "_einittext")]
    bounds = [(at.get(start, 0), at.get(end, 0), start) for start, end in bounds]
    rows = []
    for addr, kind, name, *module in lines:
        addr = int(addr, 16)
        owners = module or [name_of for start, end, name_of in bounds if start <= addr < end]
        if owners and addr and not name.startswith(MAPPING):
            rows.append((addr, kind, name, owners[0]))
    return sorted(rows, key=lambda row: row[0])


def answers(program, lines, folder="."):
    text = "".join(line + "\n" for line in lines)
    out = subprocess.run([program], input=text, capture_output=True, text=True, check=True, cwd=folder).stdout
    return out.splitlines()


def check_live(live, libbcc):
    rows, draw = listed(), random.Random(7)
    if not rows:
        print("bcc: /proc/kallsyms is not to be read, so nothing is looked up in it")
        return
    code = [
        place for place, (row, above) in enumerate(zip(rows, rows[1:]))
        if row[1] in "tTwW" and row[0] < above[0] and row[3] == above[3]]
    first = {}
    for addr, _, name, owner in rows:
        first.setdefault((addr, owner), name)
    chosen, wanted = [], []
    for place in draw.choices(code, k=COUNT):
        addr, _, _, owner = rows[place]
        offset = draw.randrange(min(rows[place + 1][0] - addr, 4096 - addr % 4096))
        chosen.append(addr + offset)
        wanted.append(f"0x{offset:x} {first[addr, owner]} {owner.strip('[]') if owner[0] == '[' else 'kernel'}")
    lines = [f"{addr:x}" for addr in chosen]
    ours = answers(live, lines)
    wrong = [(addr, text, right) for addr, text, right in zip(lines, ours, wanted) if text != right]
    assert len(ours) == COUNT and not wrong, wrong[:5]
    names = sorted({text.split()[1] for text in ours})[:100]
    addresses = {}
    for addr, _, name, _ in rows:
        addresses.setdefault(name, set()).add(addr)
    for name, text in zip(names, answers(live, [f"name {name}" for name in names])):
        assert int(text, 16) in addresses[name], (name, text)
    print(f"bcc: {COUNT} addresses and {len(names)} names of /proc/kallsyms")
    if libbcc:
        check_beside(lines, ours, answers(libbcc, lines))


def check_beside(lines, ours, theirs):
    """Both have the same names, but where two symbols of one address, in one module, are told."""
    aliases = 0
    assert len(ours) == len(theirs)
    for addr, one, other in zip(lines, ours, theirs):
        aliases += one != other
        # (offset, name and module)
        assert one == other or one.split()[::2] == other.split()[::2], (addr, one, other)
    print(f"bcc: as libbcc, but for {aliases} aliases")


def check_refresh(of_file):
    """What is told after a refresh: of a changed listing, of useless ones, and of none."""
    asked = ["ffffffffc0000018", "ffffffffc0000028", "ffffffff81000108", "name last_of_old", "name last_of_new", "1000"]
    kernel = ["0x8 one kernel"]
    old, new = (["0x8 " + name + " m", "0x8 last_of_" + name + " m"] for name in ("old", "new"))
    old += kernel + ["0xffffffffc0000020", "-", "-"]
    new += kernel + ["-", "0xffffffffc0000020", "-"]
    none = ["-"] * len(asked)
    with tempfile.TemporaryDirectory() as folder:
        file = pathlib.Path(folder, "kallsyms")
        whole = "".join(KERNEL) + MODULE
        file.write_text(whole, encoding="utf-8")
        process = subprocess.Popen([of_file], stdin=subprocess.PIPE, stdout=subprocess.PIPE, text=True, cwd=folder)

        def told(wanted, *lines):
            for line in lines:
                process.stdin.write(line + "\n")
            process.stdin.flush()
            got = [process.stdout.readline().rstrip("\n") for _ in lines]
            got = [text for text in got if text != "refreshed"]
            assert got == wanted, (got, wanted)

        told(old, *asked)
        file.write_text(whole.replace(MODULE, OTHER), encoding="utf-8")
        told(old, *asked)
        told(new, "refresh", *asked)
        told(new, "refresh", *asked)
        hidden = "".join("0" * 16 + line[16:] for line in KERNEL)
        for useless in (hidden, "", *KERNEL[:-1]):
            file.write_text(useless, encoding="utf-8")
            told(new, "refresh", *asked)
        os.remove(file)
        told(new, "refresh", *asked)
        file.write_text(whole, encoding="utf-8")
        told(old, "refresh", *asked)
        process.stdin.close()
        assert process.wait() == 0
        os.remove(file)
        assert answers(of_file, asked, folder) == none
    print("bcc: refreshed")


def main(live, of_file, libbcc=None):
    check_live(live, libbcc)
    check_refresh(of_file)


if __name__ == "__main__":
    main(*sys.argv[1:])
