# SPDX-License-Identifier: MIT OR Apache-2.0
"""A table that follows a listing as it changes."""

from __future__ import annotations

import os
import threading
import time
from contextlib import ExitStack
from ctypes import addressof, c_uint64, create_string_buffer
from itertools import groupby
from pathlib import Path
from typing import Any, Iterable, List, NamedTuple, Tuple

from . import _library as it
from ._buffers import Closing
from ._catalog import Catalog, Item, Symbol, has_new_note, symbol_by, warn_of
from ._errors import Closed
from ._library import check, lib, word
from ._table import Reader


# what owns symbols and is no module that a listing of modules has
_UNLISTED = {"bpf", "__builtin__ftrace", "__builtin__kprobes"}

Loads = List[Tuple[bytes, ...]]


def _loads(modules: bytes) -> Loads:
    """What a text in the form of /proc/modules says of each module, but for its users, which come
    and go while it stays loaded."""
    lines = (line.split() for line in modules.splitlines())
    return [(*words[:2], *words[4:]) for words in lines]


def _runs(lines: bytes) -> dict[bytes, bytes] | None:
    """The lines of each module, by what ends them; none where a line is no module's, or where those of
    one do not lie side by side."""
    runs: dict[bytes, bytes] = {}
    if not lines.endswith(b"]\n"):
        return None
    for end, run in groupby(lines.splitlines(True), lambda line: line[line.rfind(b"\t") :]):
        if end in runs or not end.startswith(b"\t[") or not end.endswith(b"]\n") or len(end) < 5:
            return None
        runs[end] = b"".join(run)
    return runs


def _change_of(old: bytes, new: bytes) -> bytes | None:
    """What changes one listing of symbols to another, where modules alone differ."""
    kernel = new.rfind(b"\n", 0, max(new.find(b"\t"), 0)) + 1
    was, runs = _runs(old[kernel:]), _runs(new[kernel:])
    if old[:kernel] != new[:kernel] or was is None or runs is None:
        return None
    gone = [b"gone " + end[2:-2] + b"\n" for end in was if end not in runs]
    return b"".join(gone + [run for end, run in runs.items() if was.get(end) != run])


def _stamp(time_ns: int | None) -> int:
    """A time that was given, or now."""
    return time.monotonic_ns() if time_ns is None else word(time_ns, "time_ns")


class Sample(NamedTuple):
    """An address, and the region that it lay in: `item` is None where none was."""

    address: int
    item: Item | None
    generation: int
    """How many updates the table had shown then."""


class Follower(Closing):
    """The regions of a listing that changes, and names of samples by the listing that stood then.

    >>> import latchsym, pathlib, tempfile
    >>> file = pathlib.Path(tempfile.mkdtemp(), "kallsyms")
    >>> _ = file.write_text("ffffffffc0000010 t ext4_a\\t[ext4]\\n")
    >>> with latchsym.Follower(file) as follower:
    ...     sample = follower.find(0xffffffffc0000018)
    ...     _ = file.write_text("ffffffffc0000010 t xfs_a\\t[xfs]\\n")
    ...     print(follower.poll(), follower.poll())
    ...     print(follower.name(sample).name)
    ...     print(follower.name(follower.find(0xffffffffc0000018)).name)
    True False
    ext4_a
    xfs_a

    `poll` reads the files again, and shows the regions that they have then to all readers in one
    update. Each listing is kept until `forget_below`, with the time at which it was shown. Any
    thread may call. What is noted of the first listings is warned of.

    A poll first reads the file `watched`, which has the form of /proc/modules. If that says of each
    module what it said at the last reading, the poll reads nothing else, until `every` seconds have
    passed since: for BPF programs and trampolines, which stand in /proc/kallsyms alone, and for a
    module that was loaded anew with the same size at the same address. Where `watched` is not
    given, it is /proc/modules for /proc/kallsyms (a kernel without that file loads no module), and
    no file for another: then each poll reads the listings.
    """

    def __init__(
        self,
        kallsyms: str | os.PathLike[str] = "/proc/kallsyms",
        modules: str | os.PathLike[str] | None = None,
        *,
        nodes: int = 4096,
        watched: str | os.PathLike[str] | None = None,
        every: float = 60.0,
    ) -> None:
        self._paths = (kallsyms, modules)
        if watched is None and os.fspath(kallsyms) == "/proc/kallsyms":
            watched = "/proc/modules"
        self._watched, self._every = watched, every
        self._read: tuple[bytes, Loads] = b"", []  # what it had when it was read last
        self._seen: Loads | None = None  # what the watched file said before the last reading
        self._is_settled = False  # whether a poll may be content with that
        self._due = 0.0  # when it reads the listings all the same
        self._owners: set[str] = set()  # the modules that own symbols of the listing that is shown
        self._texts: list[bytes | None] = []
        self._current: Catalog | None = None  # what is shown, to be changed
        self._changed = 0
        self._polling = threading.RLock()
        self._lock = threading.RLock()
        self._shown: dict[int, Catalog] = {}  # by their tags; each keeps the bytes of its listings
        # the bytes of the names of noted code, its address, and from which generation on it is gone
        self._noted: list[tuple[Any, int, int | None]] = []
        self._newest = 0
        self._handles = (it.Handle * 2)()
        self._handle = self._handles[1]
        check(lib.latchsym_follower_open(word(nodes, "nodes", 32), self._handle, self._handles, 1))
        self._reader = Reader(self._handles, self._handles[0], lib.latchsym_reader_close)
        self.poll()
        warn_of(self._shown[self._newest].counts, self._paths, 3)

    def poll(self) -> bool:
        """Reads the files again where they may have changed; whether their bytes had and are shown.

        Files of which something is noted that is not noted of those shown, as of one read without
        rights, are warned of and not taken: those shown stay. (Of a listing that is cut after
        `_etext` nothing is noted.) One call polls at a time: a second one waits for it and then
        reads for itself, so that no older listing is shown over a newer one. New regions take nodes
        beside old ones: where it raises for a full table, call `enlarge` and poll again.
        """
        with self._polling, ExitStack() as refused:
            now, seen = time.monotonic(), self._watch()
            is_as_seen = seen is not None and seen == self._seen
            if is_as_seen and self._is_settled and now < self._due:
                return False
            self._seen, self._is_settled, self._due = None, False, now + self._every
            texts = [None if path is None else Path(path).read_bytes() for path in self._paths]
            if texts == self._texts:
                self._settle(seen, is_as_seen)
                return False
            catalog, changed = self._open(texts)
            refused.callback(catalog.close)
            current = catalog.share()
            refused.callback(current.close)
            if self._shown and has_new_note(catalog.counts, self._shown[self._newest].counts):
                warn_of(catalog.counts, self._paths, 3)
                return False
            owners = {one.name for one in catalog.modules() if one.number and one.symbols}
            tag, stamp, shown = self._newest + 1, time.monotonic_ns(), c_uint64()
            with self._lock:
                check(
                    lib.latchsym_follower_show(self._handle, catalog._handle, stamp, tag, shown),
                    self,
                )
                self._shown[tag], self._newest = catalog, tag
            refused.pop_all()
            if self._current is not None:
                self._current.close()
            self._current, self._changed = current, changed
            self._texts, self._owners = texts, owners
            self._settle(seen, False)
            return True

    def _open(self, texts: list[bytes | None]) -> tuple[Catalog, int]:
        """The catalog of the files, and how many bytes of changes it was made by since a listing was
        opened whole: by the change where modules alone have changed, of which little is kept."""
        if self._current is not None and texts[1] is None:
            change = _change_of(self._texts[0] or b"", texts[0] or b"")
            changed = self._changed + len(change or b"")
            if change is not None and changed * 4 < len(texts[0] or b""):
                return self._current.change(change), changed
        return Catalog(*texts), 0

    def _watch(self) -> Loads | None:
        """What the watched file says of each module: of none where it is missing. None where it
        cannot be read, or no file is watched."""
        if self._watched is None:
            return None
        try:
            text = Path(self._watched).read_bytes()
        except FileNotFoundError:
            return []
        except OSError:
            return None
        if text != self._read[0]:
            self._read = text, _loads(text)
        return self._read[1]

    def _settle(self, seen: Loads | None, is_again: bool) -> None:
        """Lets polls be content with the watched file if it says what it said before the listings
        were read, and the modules that own symbols are those that it has.

        A module that comes or goes while they are read may stand in one of the two alone. Then the
        next poll reads again; if that reading is as this one, the module has no symbols.
        """
        self._seen = seen
        if seen is not None and self._watch() == seen:
            listed = {it.decoded(words[0]) for words in seen if words}
            self._is_settled = is_again or self._owners - _UNLISTED == listed

    def find(self, address: int) -> Sample:
        """The region that the address lies in now, with the generation of this answer."""
        address = word(address, "address")
        try:
            found = self._reader.find(address)
        except Closed:
            raise it.error_of(it.BAD_HANDLE, self) from None
        return Sample(address, found.item, found.generation)

    def find_many(self, addresses: Iterable[int]) -> list[Sample]:
        """The same of several, each for itself."""
        return [self.find(address) for address in addresses]

    def name(self, sample: Sample) -> Symbol | None:
        """The symbol of a sample, by the listing that stood at its generation. Raises `Forgotten`
        where that listing is gone."""
        generation = word(sample.generation, "generation")
        return self._name(lib.latchsym_follower_find, generation, sample.address)

    def name_at(self, time_ns: int, address: int) -> Symbol | None:
        """The symbol of an address by the listing that stood at a time of `time.monotonic_ns`, as
        perf gives it with CLOCK_MONOTONIC."""
        return self._name(lib.latchsym_follower_find_since, word(time_ns, "time_ns"), address)

    def note(
        self, address: int, length: int, name: str, module: str = "bpf", time_ns: int | None = None
    ) -> int:
        """Notes that code is there, such as a program that was loaded: so many bytes from the
        address on have this name, from a time of `time.monotonic_ns` on, which is now if none is
        given, and from the generation returned on. Until it is noted gone it is found before what
        the listings have; of several the one noted last."""
        code, generation = it.Code(word(address, "address"), word(length, "length")), c_uint64()
        texts = [create_string_buffer(it.encoded(text)) for text in (name, module)]
        for place, text in zip((code.name, code.module), texts):
            place.at, place.len = addressof(text), len(text) - 1
        with self._lock:
            check(lib.latchsym_follower_note(self._handle, code, _stamp(time_ns), generation), self)
            self._noted.append((texts, code.addr, None))
        return generation.value

    def note_gone(self, address: int, time_ns: int | None = None) -> int | None:
        """Notes that the code noted last of those that begin at the address is gone. Returns the
        generation from which on it is, or None where no such code was there."""
        address, generation = word(address, "address"), c_uint64()
        with self._lock:
            number = lib.latchsym_follower_note_gone(
                self._handle, address, _stamp(time_ns), generation
            )
            if number == it.NOTHING:
                return None
            check(number, self)
            known = [(at, gone) for _, at, gone in self._noted]
            place = len(known) - 1 - known[::-1].index((address, None))
            self._noted[place] = (self._noted[place][0], address, generation.value)
        return generation.value

    def _name(self, find: it.Call, moment: int, address: int) -> Symbol | None:
        address = word(address, "address")
        with self._lock:
            return symbol_by(find, self._handle, moment, address, modules={}, asked=self)

    def __repr__(self) -> str:
        count = len(self._shown)
        return f"<Follower of {self._paths[0]}{f': listings {count}' if count else ', closed'}>"

    def enlarge(self, nodes: int) -> None:
        """Goes on with so many nodes of the table; its listings and samples stay."""
        nodes = word(nodes, "nodes", 32)
        with self._lock, self._reader._lock:
            check(lib.latchsym_follower_enlarge(nodes, self._handle, self._handles, 1), self)

    def forget_below(self, generation: int) -> None:
        """Closes each listing, and forgets code, that no sample of this generation or a later one
        needs."""
        generation = word(generation, "generation")
        with self._lock:
            self._close_each(lib.latchsym_follower_forget, generation)
            self._noted = [one for one in self._noted if one[2] is None or generation < one[2]]

    def close(self) -> None:
        """Closes the table and all listings."""
        self._reader.close()
        if self._current is not None:
            self._current.close()
        self._close_each(lib.latchsym_follower_close)

    def _close_each(self, call: it.Call, *words: int) -> None:
        """Closes the listings whose tags the call returns, one at a time, until it returns none."""
        tag = c_uint64()
        with self._lock:
            while call(self._handle, *words, tag) == it.DONE:
                self._shown.pop(tag.value).close()
