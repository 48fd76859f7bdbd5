# SPDX-License-Identifier: MIT OR Apache-2.0
"""The latched table: one writer, and readers that never wait for it."""

from __future__ import annotations

import ctypes
import enum
import threading
import weakref
from contextlib import ExitStack
from ctypes import byref, c_uint64
from typing import Callable, Iterable, NamedTuple

from . import _library as it
from ._buffers import Closing
from ._catalog import Catalog, Item, Symbol
from ._errors import Busy, Retry
from ._library import check, lib, word


class Found(NamedTuple):
    """What lies at an address: `item` is None where nothing does."""

    item: Item | None
    generation: int
    """How many updates were shown."""


class Step(enum.Enum):
    """What a step of an update did."""

    END = it.DONE
    """No update is pending, or it is at its end."""
    FLIP = it.FLIP
    """A flip of the sequence; the second shows the update."""
    STORE = it.STORE
    """Another word was stored."""


def _found(number: int, found: it.Found) -> Found:
    if number == it.NOTHING:
        return Found(None, found.generation)
    return Found(Item(found.a, found.b, found.tag), found.generation)


def _word_item(item: Iterable[int]) -> it.Item:
    a, b, tag = item
    return it.Item(word(a, "a"), word(b, "b"), word(tag, "tag"))


class _Part:
    """A handle of a table, which is kept where it lies for as long as something uses it."""

    def __init__(self, table: ctypes.Array[it.Handle], handle: it.Handle, close: Callable[[it.Handle], None]) -> None:
        self._handle = handle
        self._table = table
        self._lock = threading.RLock()
        self._closing = weakref.finalize(self, _close_part, close, handle, table)

    def close(self) -> None:
        """Closes this end of the table. A second close does nothing."""
        with self._lock:
            self._closing()

    def __repr__(self) -> str:
        return f"<{type(self).__name__} of a table{'' if self._closing.alive else ', closed'}>"


def _close_part(close: Callable[[it.Handle], None], handle: it.Handle, table: ctypes.Array[it.Handle]) -> None:
    close(handle)
    del table


class Writer(_Part):
    """The writer of a table. `insert`, `erase` and `batch` are whole updates; those that begin with
    `begin_` leave the steps to `step` and `finish`. Readers see an update from its second flip on,
    whole."""

    def insert(self, a: int, b: int, tag: int) -> int:
        """Puts an item in, and returns the generation that shows it."""
        with self._lock:
            self.begin_insert(a, b, tag)
            return self.finish()

    def erase(self, a: int) -> int:
        """Takes the item out that begins at `a`, and returns the generation without it."""
        with self._lock:
            self.begin_erase(a)
            return self.finish()

    def batch(self, erase: Iterable[int] = (), insert: Iterable[Iterable[int]] = ()) -> int:
        """Takes the items out that begin at these addresses and puts others in, all at once."""
        with self._lock:
            self.begin_batch(erase, insert)
            return self.finish()

    def begin_insert(self, a: int, b: int, tag: int) -> None:
        item = _word_item((a, b, tag))
        with self._lock:
            check(lib.latchsym_writer_begin_insert(self._handle, item), self)

    def begin_erase(self, a: int) -> None:
        with self._lock:
            check(lib.latchsym_writer_begin_erase(self._handle, word(a, "a")), self)

    def begin_batch(self, erase: Iterable[int] = (), insert: Iterable[Iterable[int]] = ()) -> None:
        erased, inserted = [word(a, "a") for a in erase], [_word_item(item) for item in insert]
        # (an array of no length may have no place, and no pointer may be null)
        starts = (c_uint64 * (len(erased) + 1))(*erased)
        items = (it.Item * (len(inserted) + 1))(*inserted)
        with self._lock:
            check(
                lib.latchsym_writer_begin_batch(
                    self._handle, starts, len(erased), items, len(inserted)
                ),
                self,
            )

    def replace(self, items: Iterable[Iterable[int]]) -> int:
        """Gives the table just these items, each below the next, all at once."""
        with self._lock:
            self.begin_replace(items)
            return self.finish()

    def begin_replace(self, items: Iterable[Iterable[int]]) -> None:
        listed = [_word_item(item) for item in items]
        # (an array of no length may have no place, and no pointer may be null)
        array = (it.Item * (len(listed) + 1))(*listed)
        with self._lock:
            check(lib.latchsym_writer_begin_replace(self._handle, array, len(listed)), self)

    def step(self) -> Step:
        """Takes one step of the pending update."""
        with self._lock:
            number = lib.latchsym_writer_step(self._handle)
        if number == it.BAD_HANDLE:
            check(number, self)
        return Step(number)

    def finish(self) -> int:
        """Takes the steps that are left, and returns the generation after them."""
        generation = c_uint64()
        with self._lock:
            check(lib.latchsym_writer_finish(self._handle, byref(generation)), self)
        return generation.value

    def find(self, addr: int) -> Found:
        """What readers find now, also amid an update."""
        found = it.Found()
        with self._lock:
            number = lib.latchsym_writer_find(self._handle, word(addr, "addr"), found)
        if number != it.NOTHING:
            check(number, self)
        return _found(number, found)


class Reader(_Part):
    """A reader of a table, for one thread at a time."""

    _ROOM = 512  # more than the kernel's names have

    def try_find(self, addr: int) -> Found:
        """One attempt. Raises `Retry` where the writer flipped meanwhile."""
        found = it.Found()
        with self._lock:
            number = lib.latchsym_reader_try_find(self._handle, word(addr, "addr"), found)
        if number != it.NOTHING:
            check(number, self)
        return _found(number, found)

    def find(self, addr: int) -> Found:
        """Attempts until one answers. Beside a writer that rests, also amid an update, the first does."""
        while True:
            try:
                return self.try_find(addr)
            except Retry:
                pass

    def try_find_name(self, catalog: Catalog, addr: int) -> tuple[Found, Symbol | None]:
        """The same attempt, and the symbol in the item that was found, whose tag is taken as the
        number of a module of the catalog."""
        addr = word(addr, "addr")
        found, answer, room = it.Found(), it.Answer(), self._ROOM
        while True:
            name, module = (ctypes.create_string_buffer(room) for _ in range(2))
            with self._lock, catalog._lock:
                number = lib.latchsym_reader_find_name(
                    self._handle, catalog._handle, addr, found, answer, name, room, module, room
                )
            if number == it.NOTHING:
                return _found(number, found), None
            if number != it.NO_SYMBOL:
                check(number, self if catalog._closing.alive else catalog)
            if max(answer.name_len, answer.module_len) <= room:
                break
            room = max(answer.name_len, answer.module_len)
        text = it.decoded(name.raw[: answer.name_len]) if number == it.DONE else None
        owner = it.decoded(module.raw[: answer.module_len])
        symbol = Symbol(text, answer.offset, answer.size, owner, answer.module_number)
        return _found(it.DONE, found), symbol


class Table(Closing):
    """A table of address ranges, with its writer and its readers.

    >>> import latchsym
    >>> with latchsym.Table(nodes=8, readers=2) as table:
    ...     table.writer.insert(0x1000, 0x2000, tag=7)
    ...     table.readers[0].find(0x1fff)
    ...     table.readers[1].find(0x2000).item is None
    1
    Found(item=Item(a=4096, b=8192, tag=7), generation=1)
    True

    The writer and each reader may be on a thread of its own. No lookup waits for the writer, and
    none sees half an update:

    >>> with latchsym.Table(nodes=8) as table:
    ...     table.writer.begin_insert(0x1000, 0x2000, 7)
    ...     steps = [table.writer.step(), table.writer.step()]
    ...     table.readers[0].find(0x1000).item is None
    True

    There is room for `most_readers`, which `add_reader` adds one by one.
    """

    writer: Writer

    def __init__(self, nodes: int, readers: int = 1, *, most_readers: int = 256) -> None:
        nodes, readers = word(nodes, "nodes", 32), word(readers, "readers")
        most_readers = word(most_readers, "most_readers")
        # (the call itself refuses no readers, or too many)
        self._room = max(most_readers, min(readers, 64), 1)
        # The handles of all readers lie in one row, as enlarging takes them, and never move.
        self._handles = (it.Handle * (self._room + 1))()
        check(
            lib.latchsym_table_open(
                nodes, self._handles[self._room], self._handles, readers
            )
        )
        self.writer = Writer(self._handles, self._handles[self._room], lib.latchsym_writer_close)
        self._readers = [self._reader(place) for place in range(readers)]
        self._lock = threading.RLock()

    def _reader(self, place: int) -> Reader:
        return Reader(self._handles, self._handles[place], lib.latchsym_reader_close)

    def __repr__(self) -> str:
        is_open = self.writer._closing.alive
        return f"<Table: readers {len(self._readers)}>" if is_open else "<Table, closed>"

    @property
    def readers(self) -> tuple[Reader, ...]:
        return tuple(self._readers)

    def try_find(self, addr: int) -> Found:
        """One attempt by a reader that no other call has. Raises `Busy` where other calls have them
        all, and `Retry` as a reader does."""
        for reader in self.readers:
            if reader._lock.acquire(blocking=False):
                try:
                    return reader.try_find(addr)
                finally:
                    reader._lock.release()
        raise it.error_of(it.BUSY)

    def find(self, addr: int) -> Found:
        """Attempts until one answers. Any number of threads may share the readers so."""
        while True:
            try:
                return self.try_find(addr)
            except (Busy, Retry):
                pass

    def add_reader(self) -> Reader:
        """One more reader of the table, also amid an update."""
        with self._lock, self.writer._lock:
            place = len(self._readers)
            if place == self._room:
                raise it.error_of(it.BAD_CAPACITY)
            number = lib.latchsym_writer_add_reader(self.writer._handle, self._handles[place])
            check(number, self)
            self._readers.append(self._reader(place))
            return self._readers[place]

    def take_reader(self) -> None:
        """Closes the last reader, which leaves room for another."""
        with self._lock, self.writer._lock:
            if not self._readers:
                raise it.error_of(it.BAD_CAPACITY)
            reader = self._readers[-1]
            with reader._lock:
                number = lib.latchsym_writer_take_reader(self.writer._handle, reader._handle)
                check(number, "the writer of this Table, or its last reader,")
            self._readers.pop()

    def enlarge(self, nodes: int) -> None:
        """Goes on with so many nodes; items and generation stay. No reader may be closed."""
        with ExitStack() as locks:
            locks.enter_context(self._lock)
            for part in (*self._readers, self.writer):
                locks.enter_context(part._lock)
            check(
                lib.latchsym_table_enlarge(
                    word(nodes, "nodes", 32), self.writer._handle, self._handles, len(self._readers)
                ),
                "the writer of this Table, or one of its readers,",
            )

    def close(self) -> None:
        """Closes the writer and the readers."""
        for part in (self.writer, *self._readers):
            part.close()
