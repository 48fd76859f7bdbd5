#!/usr/bin/env python3
"""of_python.py RUNS SEED: compares the answers of latchsym.History with those of a catalog of the
listing that plain.py finds at the time, for random histories, times in any order and addresses, and
the lines that are not understood; and the catalog that each change of a history leaves of the one
before it with that of the listing."""
import pathlib
import random
import sys
import tempfile

import commands
import compared
import latchsym
import plain

ADDRESSES = [0xFFFFFFFF81000010, 0xFFFFFFFF81000810, 0xC8, *(int(it, 16) for it in commands.ADDRESSES)]
ADDRESSES += [0xFFFFFFFFC0000008 + page * 0x1000 for page in range(3)]


def fault_of(read, text):
    """The number of the line that is not understood, and what was read otherwise."""
    try:
        return None, read(text)
    except plain.NotUnderstood as fault:
        return fault.args[0], None
    except latchsym.BadListing as fault:
        return fault.line, None


def time_of(parts, pick):
    """A time in nanoseconds: of a part, beside it, or any; or none."""
    times = [it.time for it in parts] + [0, 10**9, 4 * 10**9]
    return pick.choice([None, *(it + beside for it in times for beside in (0, 0, 1, -1))])


def text_of(lines):
    return b"".join(line + b"\n" for line in lines)


def all_of(catalog):
    """What a catalog has: its modules with their regions and symbols, and what it finds."""
    modules = [(it, [*catalog.regions(it.number)], [*catalog.symbols(it.number)]) for it in catalog.modules()]
    return modules, [(catalog.find(it), catalog.find_caller(it)) for it in ADDRESSES]


def check_changes(parts):
    """Makes each catalog of the one before it, by the change; returns how many were compared."""
    catalog, count = None, 0
    for end, part in enumerate(parts, 1):
        text = text_of(part.lines)
        catalog = catalog.change(text) if part.is_change else latchsym.Catalog(text)
        with latchsym.Catalog(text_of(plain.listing_at(parts[:end], None))) as wanted:
            if all_of(catalog) != all_of(wanted):
                sys.exit(f"histories: {[it.lines for it in parts[:end]]}\nwanted {all_of(wanted)}\ngot    {all_of(catalog)}")
        count += part.is_change
    return count


def main(runs, seed):
    pick = random.Random(int(seed))
    understood = asked = named = changed = 0
    with tempfile.TemporaryDirectory() as folder:
        file = pathlib.Path(folder, "history")
        for run in range(int(runs)):
            text = pick.choice([compared.history, commands.named_history])(pick)
            file.write_bytes(text)
            (wanted, parts), (fault, history) = fault_of(plain.read, text), fault_of(lambda _: latchsym.History(file), text)
            if fault != wanted:
                sys.exit(f"histories: run {run} of seed {seed}: {text!r}\nline {wanted} is not understood, and Python says {fault}")
            if history is None:
                continue
            understood += 1
            changed += check_changes(parts)
            for _ in range(8):
                time = time_of(parts, pick)
                said = None if time is None else f"{'-' * (time < 0)}{abs(time) // 10**9}.{abs(time) % 10**9:09}"
                listing = text_of(plain.listing_at(parts, time))
                with latchsym.Catalog(listing) as catalog:
                    want = [(catalog.find(it), catalog.find_caller(it)) for it in ADDRESSES]
                got = [(history.find(said, it), history.find_caller(said, it)) for it in ADDRESSES]
                if got != want:
                    sys.exit(f"histories: run {run} of seed {seed}: {text!r}\nat {said}\nwanted {want}\ngot    {got}")
                asked, named = asked + 1, named + any(it and it.name for it, _ in want)
            history.close()
    print(f"histories: Python: {asked} times of {understood} histories compared, of {runs}; {named} with a name; {changed} changes")


if __name__ == "__main__":
    main(*sys.argv[1:])
