#!/usr/bin/env python3
"""Tries wrong bodies: edits of a crate that its contracts, or a test, must refuse.

    wrong_bodies.py --all | CRATE[/EDIT]..    tries these of tests/wrong_bodies
    wrong_bodies.py --place [NUMBER]          puts a share beside the edits of the promises, for
                                              `rt ci` to try, as crates/CRATE/must-fail/share.*.edit
    wrong_bodies.py --tests [NUMBER]          tries what a test must refuse of that share

The gate comes to all of them in turn: a share is that of the day, or the one with this number. All
are tried before a release. tests/wrong_bodies/TRIED says what was tried, with which result and at
which commit.

A function's proof knows of other functions what their contracts say. So one check of a crate tries
an edit in each of several functions, and an edit is refused if its own function is not proved:

    round 1    links::join    not proved                            refused
               walks::step    no proof: it calls links::join        again in round 2
               walks::find    proved                                again, alone: NOT REFUSED if proved
    round 2    walks::step    not proved                            refused

An edit of no function, or of two, is tried alone. Each crate is checked in a copy of it and of those
below, over what earlier checks of the same files left in their folders. An edit with a line
`test: COMMAND` no contract can refuse, or its crate is not proved: the command must fail over it.
"""
import concurrent.futures
import glob
import os
import re
import shutil
import subprocess
import sys
import tempfile
import threading
import time

import edits

TOP = edits.TOP
sys.path.insert(0, f"{TOP}/tests/lib")
import build

FOLDER = f"{TOP}/tests/wrong_bodies"
TRIED = f"{FOLDER}/TRIED"
REFUSED, NOT_REFUSED, BAD = "refused", "NOT REFUSED", "BAD EDIT"

# How many edits of a crate make a share of at most some eight minutes: fewer of one that takes long
# to prove, and of those that a build tries.
SHARES = {"latchsym": 4, "command_listings": 8, "modules": 4, "command_tables": 6, "command_traces": 12, "listing": 6, "shared_lookup": 6, "latchsym_ffi": 6}
SHARE, SHARE_OF_TESTS = 16, 4

# (antt could not read the edited text, or it names what is not there)
SOURCE = r"(?:\./)?(?:src|specs)/\S+:\d+:\d+: error: "
UNREAD = re.compile(rf"{SOURCE}(?!`[^`]*`: )|{SOURCE}.*(is not in scope|has no field)")
RECORD = threading.Lock()


class Edit:
    """An edit of tests/wrong_bodies, with the function that it changes, if it is one."""

    def __init__(self, path):
        self.path = path
        self.crate, self.name = path.removesuffix(".edit").split("/")[-2:]
        with open(path, encoding="utf-8") as file:
            self.test = next((line[6:].strip() for line in file if line.startswith("test: ")), None)
        self.function = None if self.test else self.function_of()

    def __str__(self):
        return f"{self.crate}/{self.name}"

    def function_of(self):
        """The module and the name of the function that all of the edit lies in."""
        found, text, module = set(), "", ""
        with open(self.path, encoding="utf-8") as file:
            for kind, said in re.findall(r"^(file|old): (.*)$", file.read(), re.M):
                if kind == "old":
                    found.add((module, function_at(text, text.find(said))))
                    continue
                module = "::".join([self.crate, *re.sub(r"^src/|\.rt$", "", said).split("/")])
                with open(f"{TOP}/crates/{self.crate}/{said}", encoding="utf-8") as source:
                    text = source.read()
        function = found.pop()
        return function if function[1] and not found else None


def function_at(text, at):
    """The name of the function of a source, laid out by `rt fmt`, that a place lies in."""
    for begin in reversed([*re.finditer(r"^( *)(?:pub(?:\(\w+\))? |const |unsafe |extern \"C\" )*fn (\w+)", text[:at], re.M)]):
        end = text.find(f"\n{begin[1]}}}", begin.start())
        if end >= at:
            return begin[2]
    return None


def shares():
    """The shares: lists of edits of one crate."""
    found = []
    for crate in sorted(os.listdir(FOLDER)):
        of_crate = [Edit(it) for it in sorted(glob.glob(f"{FOLDER}/{crate}/*.edit"))]
        for some, most in (
            ([it for it in of_crate if not it.test], SHARES.get(crate, SHARE)),
            ([it for it in of_crate if it.test], SHARE_OF_TESTS),
        ):
            found += [some[at : at + most] for at in range(0, len(some), most)]
    return found


def share(words):
    """The share with this number, or that of the day."""
    found = shares()
    return found[(int(words[0]) if words else int(time.time()) // 86400) % len(found)]


def record(edit, verdict, why=""):
    """Says what became of an edit, and writes it to TRIED."""
    commit = subprocess.check_output(["git", "-C", TOP, "rev-parse", "--short=8", "HEAD"], text=True).strip()
    with RECORD:
        print(f"{edit}: {verdict}{why}", flush=True)
        with open(TRIED, encoding="utf-8") as file:
            tried = {tuple(it.split()[:2]): it for it in file.read().splitlines()}
        tried[edit.crate, edit.name] = f"{edit.crate} {edit.name} {verdict} at {commit}"
        lines = (it for (crate, name), it in tried.items() if os.path.exists(f"{FOLDER}/{crate}/{name}.edit"))
        with open(TRIED, "w", encoding="utf-8") as file:
            print(*sorted(lines), sep="\n", file=file)
    return verdict == REFUSED


class Round:
    """A check of a crate with these edits in it."""

    def __init__(self, folder, some):
        self.some, self.is_read, crate = some, True, f"{folder}/crates/{some[0].crate}"
        self.files, kept = {}, {}
        try:
            for edit in some:
                before, why = edits.put_in(crate, edit.path)
                self.is_read = self.is_read and not why
                self.files[edit] = {os.path.relpath(it, crate) for it in before}
                kept = {**before, **kept}
            self.said = check(crate) if self.is_read else ""
        finally:
            edits.write(kept)
        self.is_read = self.is_read and "\nlogic=" in self.said and not any(map(UNREAD.match, self.said.splitlines()))

    def verdict(self, edit):
        """What the check says of an edit, if it says enough."""
        if len(self.some) == 1:
            return BAD if not self.is_read else NOT_REFUSED if "\nlogic=proved" in self.said else REFUSED
        module, name = edit.function
        said = re.findall(rf"^fn {module}::(?:\w+::)?{name}: (.*)$", self.said, re.M)
        own = [it for it in said if it != "proved" and not re.match(r"no proof: it (calls|passes|waits)", it)]
        return REFUSED if self.is_read and own else None

    def unread(self):
        """The edits of a file of which something was not read; the latter half if none tells."""
        files = set(re.findall(r"^(?:\./)?(\S+?):\d+:\d+: error", self.said, re.M))
        found = [it for it in self.some if self.files.get(it, set()) & files]
        return found if 0 < len(found) < len(self.some) else self.some[len(self.some) // 2 :]

    def waits(self, edit):
        """Whether the edit's function has no proof only since another has none."""
        module, name = edit.function
        return bool(re.search(rf"^fn {module}::(?:\w+::)?{name}: no proof: it ", self.said, re.M))


def check(folder):
    """What `rt check` says of the crate in this folder."""
    run = ["rt", "check", "--jobs", "1"]
    return subprocess.run(run, cwd=folder, stdin=subprocess.DEVNULL, stdout=subprocess.PIPE, stderr=subprocess.STDOUT, text=True, errors="replace").stdout


def try_in_rounds(folder, some):
    """Tries these edits of a crate that is laid out in the folder, and returns how many are refused."""
    refused, waiting, alone = 0, [], {it for it in some if not it.function}
    while some:
        together = [it for it in some if it not in alone]
        chosen = waiting or [next(it for it in together if it.function == key) for key in dict.fromkeys(it.function for it in together)] or some[:1]
        waiting = []
        while chosen:
            tried = Round(folder, chosen)
            verdicts = {it: tried.verdict(it) for it in chosen}
            done = [it for it in chosen if verdicts[it]]
            refused += sum(record(it, verdicts[it]) for it in done)
            some = [it for it in some if it not in done]
            left = [it for it in chosen if it not in done]
            if not tried.is_read and len(chosen) > 1:
                unread = tried.unread()
                alone.update(unread)
                chosen = [it for it in chosen if it not in unread]
                continue
            waiting = [it for it in left if tried.waits(it)] if done else []
            chosen = [] if waiting or done and not left else left[:1]
    return refused


def try_crate(crate, some):
    """Tries these edits of a crate in a copy of it and of those below, and returns how many are refused."""
    with tempfile.TemporaryDirectory() as folder:
        build.lay_out(folder, [crate])
        subprocess.run(["git", "init", "-q", folder], check=True)
        for it in os.listdir(f"{folder}/crates"):
            if os.path.isdir(f"{TOP}/crates/{it}/out"):
                subprocess.run(["cp", "-a", f"{TOP}/crates/{it}/out", f"{folder}/crates/{it}/"], check=True)
        said = check(f"{folder}/crates/{crate}")
        if "\nlogic=proved" not in said:
            print(f"{crate} is not proved without an edit:\n{said}", flush=True)
            return 0
        return try_in_rounds(folder, some)


def try_by_test(edit):
    """Runs the edit's test over a copy of the repository with it, and returns whether it is refused."""
    with tempfile.TemporaryDirectory() as folder:
        files = subprocess.check_output(["git", "-C", TOP, "ls-files", "-z", "--cached", "--others", "--exclude-standard"]).split(b"\0")
        for it in filter(None, map(os.fsdecode, files)):
            if os.path.isfile(f"{TOP}/{it}"):
                os.makedirs(os.path.dirname(f"{folder}/{it}"), exist_ok=True)
                shutil.copy(f"{TOP}/{it}", f"{folder}/{it}")
        _, why = edits.put_in(edits.folder_of(folder, edit.crate), edit.path)
        if why:
            return record(edit, BAD, f": {why}")
        with_objects = {**os.environ, "OBJECTS": build.OBJECTS}
        ran = subprocess.run(["bash", "-c", edit.test], cwd=folder, env=with_objects, stdin=subprocess.DEVNULL, stdout=subprocess.PIPE, stderr=subprocess.STDOUT, text=True, errors="replace")
        if "is not compiled" in ran.stdout:
            return record(edit, BAD, next((f": {it}" for it in ran.stdout.splitlines() if "error[" in it), ""))
        return record(edit, REFUSED if ran.returncode else NOT_REFUSED)


def try_all(some):
    """Tries these edits side by side, the crates with the most work first."""
    crates = sorted({it.crate for it in some if not it.test}, key=lambda it: -sum(edit.crate == it for edit in some))
    tasks = [(try_crate, it, [edit for edit in some if edit.crate == it and not edit.test]) for it in crates]
    tasks += [(try_by_test, it) for it in some if it.test]
    with concurrent.futures.ThreadPoolExecutor(len(os.sched_getaffinity(0))) as lanes:
        refused = sum(lanes.map(lambda task: task[0](*task[1:]), tasks))
    print(f"{refused} wrong bodies refused, {len(some) - refused} not")
    return 0 if refused == len(some) else 1


def place(some):
    """Puts edits that the prover must refuse beside those of their crate's promises."""
    for edit in some:
        if not edit.test:
            folder = f"{TOP}/crates/{edit.crate}/must-fail"
            os.makedirs(folder, exist_ok=True)
            shutil.copy(edit.path, f"{folder}/share.{edit.name}.edit")
    return 0


def main(words):
    if words[:1] == ["--place"]:
        return place(share(words[1:]))
    build.need_kit()
    if words[:1] == ["--tests"]:
        return try_all([it for it in share(words[1:]) if it.test])
    every = [it for some in shares() for it in some]
    if words == ["--all"]:
        return try_all(every)
    chosen = [it for it in every if it.crate in words or str(it) in words]
    if not chosen or any(it.startswith("-") for it in words):
        sys.exit(__doc__)
    return try_all(chosen)


if __name__ == "__main__":
    sys.exit(main(sys.argv[1:]))
