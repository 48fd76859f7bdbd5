# SPDX-License-Identifier: MIT OR Apache-2.0
"""Symbols of addresses."""

from __future__ import annotations

import ctypes
import operator
import os
import threading
import warnings
import weakref
from array import array
from ctypes import POINTER, byref, c_size_t, c_uint64
from pathlib import Path
from typing import Any, Callable, Iterator, NamedTuple, Sequence, overload

from . import _library as it
from ._buffers import Closing, Pinned, listing, numbers
from ._errors import BadListing
from ._library import check, lib, word


class Symbol(NamedTuple):
    """What is known of an address. Its `str()` is the text that `latchsym lookup` writes."""

    name: str | None
    """None where the module has no symbol at or below the address."""
    offset: int
    """How far the address lies above the symbol, in bytes."""
    size: int
    """How far the symbol reaches, in bytes."""
    module: str
    """`-` is the kernel itself."""
    module_number: int
    """0 is the kernel itself."""

    def __str__(self) -> str:
        if self.name is None and self.module_number == 0:
            return "-"
        text = "?" if self.name is None else f"{self.name}+0x{self.offset:x}/0x{self.size:x}"
        return f"{text} [{self.module}]" if self.module_number else text


class Answer(NamedTuple):
    """The answer of `Catalog.find_many` for one address."""

    module_number: int
    offset: int
    size: int
    name_len: int
    module_len: int
    number: int
    """0 for a symbol, 21 for a module without one, 22 for nothing."""


class Module(NamedTuple):
    """A module, and how many regions and symbols it has."""

    number: int
    name: str
    regions: int
    symbols: int


class Region(NamedTuple):
    """Addresses from `a` up to `b`, which is excluded."""

    a: int
    b: int
    is_init: bool
    """Whether only the start of the module needs them."""


class Entry(NamedTuple):
    """A symbol of a module."""

    addr: int
    name: str


class Item(NamedTuple):
    """Addresses from `a` up to `b`, which is excluded, and a number of the caller's."""

    a: int
    b: int
    tag: int


class Counts(NamedTuple):
    """How many lines of each listing went where, as `latchsym lookup` prints them."""

    modules: int
    modules_hidden: int
    modules_empty: int
    modules_wraps: int
    modules_overlap: int
    modules_double: int
    modules_long: int
    modules_malformed: int
    symbols: int
    symbols_hidden: int
    symbols_stray: int
    symbols_long: int
    symbols_malformed: int
    regions: int
    regions_stray: int
    modules_note: str | None
    """What `latchsym lookup` notes of the listing of modules, where none of it is of use."""
    symbols_note: str | None
    """The same of the listing of symbols."""


def _counts(counts: it.Counts) -> Counts:
    notes = (getattr(counts, name) for name in it.NOTES)
    texts = (None if note == it.NOTHING else it.text_of(note) for note in notes)
    return Counts(*(getattr(counts, name) for name in it.COUNTS), *texts)


def _notes(counts: Counts) -> tuple[str | None, str | None]:
    """What is noted of the listing of symbols, and of that of modules."""
    return counts.symbols_note, counts.modules_note


def has_new_note(counts: Counts, before: Counts) -> bool:
    """Whether something is noted of a listing that was not noted of it before."""
    return any(note not in (None, old) for note, old in zip(_notes(counts), _notes(before)))


def warn_of(counts: Counts, paths: Sequence[str | os.PathLike[str] | None], level: int) -> None:
    """Warns of the files of symbols and of modules that have a note, for a caller so far up."""
    for path, note in zip(paths, _notes(counts)):
        if note is not None:
            warnings.warn(f"{path}: {note}", stacklevel=level)


_TOLD = ctypes.sizeof(it.Told)
_WORDS, _HALVES = _TOLD // 8, _TOLD // 4
_CODE = it.Told.code.offset // 4


class Answers(Sequence[Answer]):
    """Room for what is told of so many addresses, which `Catalog.find_many` fills.

    Beside the answers one by one there are columns: views of the memory that the library has
    written, without a copy, which `numpy.asarray` takes as they are.
    """

    def __init__(self, count: int) -> None:
        self._bytes = bytearray(count * _TOLD)
        self._told = (it.Told * count).from_buffer(self._bytes)

    def _column(self, place: int) -> memoryview:
        return memoryview(self._bytes).toreadonly().cast("Q")[place::_WORDS]

    @property
    def module_numbers(self) -> memoryview:
        return self._column(0)

    @property
    def offsets(self) -> memoryview:
        return self._column(1)

    @property
    def sizes(self) -> memoryview:
        return self._column(2)

    @property
    def numbers(self) -> memoryview:
        """0 for a symbol, 21 for a module without one, 22 for nothing."""
        return memoryview(self._bytes).toreadonly().cast("I")[_CODE::_HALVES]

    def __len__(self) -> int:
        return len(self._told)

    def __repr__(self) -> str:
        return f"<Answers: addresses {len(self)}>"

    @overload
    def __getitem__(self, place: int) -> Answer: ...
    @overload
    def __getitem__(self, place: slice) -> list[Answer]: ...
    def __getitem__(self, place: int | slice) -> Answer | list[Answer]:
        if isinstance(place, slice):
            return [self[at] for at in range(*place.indices(len(self)))]
        told = self._told[place]
        found = told.answer
        return Answer(
            found.module_number, found.offset, found.size, found.name_len, found.module_len, told.code
        )


class Factors(NamedTuple):
    """The answer of `Catalog.factorize` for many addresses."""

    codes: array[int]
    """For each address the place in `symbols` of what it was found in."""
    symbols: list[Symbol | None]
    """Each symbol that was found, once, at offset 0; None where nothing is."""
    offsets: memoryview
    """For each address how far it lies above its symbol; a column of `Answers`."""


def symbol_of(
    number: int, found: it.Symbol, modules: dict[int, str], asked: object
) -> Symbol | None:
    """What a search has told by its number. `modules` keeps the names by their modules' numbers."""
    if number == it.NOTHING:
        return None
    if number != it.NO_SYMBOL:
        check(number, asked)
    name = it.text_at(found.name_at, found.name_len) if number == it.DONE else None
    owner = found.module_number
    module = modules.get(owner)
    if module is None:
        module = modules[owner] = it.text_at(found.module_at, found.module_len)
    return Symbol(name, found.offset, found.size, module, owner)


def symbol_by(
    call: it.Call, *words: Any, modules: dict[int, str], asked: object
) -> Symbol | None:
    """The answer of a search, in memory of its own."""
    found = it.no_symbol()
    return symbol_of(call(*words, found), found, modules, asked)


def _rows(row: Any, count: int) -> ctypes.Array[Any]:
    """So many rows that are as this one, and at least one."""
    count = max(count, 1)
    return (type(row) * count).from_buffer(bytearray(bytes(row) * count))


class View:
    """A catalog in memory of its own, in which any number of threads find at once.

    It holds the listings, and not the catalog, which may be closed. `Catalog.view` makes it.

    >>> import latchsym
    >>> symbols = b"ffffffffc0000010 t ext4_a\\t[ext4]\\nffffffffc0000040 t ext4_b\\t[ext4]\\n"
    >>> with latchsym.Catalog(symbols) as catalog:
    ...     view = catalog.view()
    >>> print(view.find(0xffffffffc0000018))
    ext4_a+0x8/0x30 [ext4]
    """

    def __init__(self, catalog: Catalog) -> None:
        handle, sizes, listings = catalog._handle, it.Sizes(), catalog._listings
        check(lib.latchsym_catalog_sizes(handle, sizes), catalog)
        self._listings, self._sizes = listings, sizes
        regions = _rows(it.no_view_region(), sizes.regions)
        symbols = _rows(it.no_view_symbol(), sizes.symbols)
        addresses = _rows(c_uint64(), sizes.symbols)
        self._rows = regions, symbols, addresses
        self._modules: dict[int, str] = {}
        self._view = it.View(it.EMPTY_AT, 0)
        check(
            lib.latchsym_catalog_flatten(
                handle,
                regions,
                sizes.regions,
                symbols,
                sizes.symbols,
                addresses,
                sizes.symbols,
                self._view,
            )
        )

    def find(self, addr: int) -> Symbol | None:
        """The symbol of an address, or None where nothing is."""
        return self._find(lib.latchsym_view_find, addr)

    def find_caller(self, addr: int) -> Symbol | None:
        """The symbol of a return address, as `Catalog.find_caller` finds it."""
        return self._find(lib.latchsym_view_find_caller, addr)

    def _find(self, call: it.Call, addr: int) -> Symbol | None:
        addr = word(addr, "addr")
        return symbol_by(call, self._view, addr, modules=self._modules, asked=self)

    def __repr__(self) -> str:
        return f"<View: regions {self._sizes.regions}, symbols {self._sizes.symbols}>"


def _close(handle: it.Handle, listings: Sequence[Pinned]) -> None:
    """Closes a handle, and only then lets go of the listings that its catalog points into."""
    lib.latchsym_catalog_close(handle)
    del listings


class Catalog(Closing):
    """The symbols and modules of a kernel's listings.

    `kallsyms` has the bytes of a listing in the form of /proc/kallsyms. `modules`, in the form of
    /proc/modules, and `regions` say where modules lie; without them that comes from the symbols.
    `kernel` are the names of the symbols at the kernel's first address and at its end.

    >>> import latchsym
    >>> symbols = b'''ffffffff81000000 T _stext
    ... ffffffff81000100 T do_one
    ... ffffffff81002000 T _end
    ... ffffffffc0000010 t ext4_a\\t[ext4]
    ... ffffffffc0000040 t ext4_b\\t[ext4]
    ... '''
    >>> with latchsym.Catalog(symbols) as catalog:
    ...     print(catalog.find(0xffffffffc0000018))
    ...     print(catalog.find(0xffffffff81000108).name)
    ...     print(catalog.find(0x1000))
    ext4_a+0x8/0x30 [ext4]
    do_one
    None

    `bytes` and other buffers that may not be written to are read where they lie, and must not
    change while the catalog is open; those that may be written to are copied. A catalog may be
    used by any thread, by one at a time: `share` gives another one its own.
    """

    counts: Counts
    """How many lines of the listings went where."""

    def __init__(
        self,
        kallsyms: Any,
        modules: Any = None,
        regions: Any = None,
        *,
        kernel: tuple[str, str] | None = None,
    ) -> None:
        start, end = map(it.encoded, kernel or ("", ""))
        texts = {"kallsyms": kallsyms, "modules": modules, "regions": regions}
        pinned = [listing(text or b"", name) for name, text in texts.items()]
        pinned += [listing(name, "kernel") for name in (start, end)]
        places = [it.Place(text.at, text.len) for text in pinned]
        given = it.Listings(ctypes.sizeof(it.Listings), *places, modules is not None)
        handle, counts, bad_line = it.Handle(), it.Counts(), c_uint64()
        number = lib.latchsym_catalog_open(given, handle, counts, bad_line)
        if number == it.BAD_LINE:
            raise BadListing(number, it.text_of(number), bad_line.value)
        check(number)
        self._keep(handle, pinned, _counts(counts))

    def _keep(self, handle: it.Handle, listings: Sequence[Pinned], counts: Counts) -> None:
        self._handle = handle
        self._listings = listings
        # A handle is given to one call at a time. A signal handler of Python may come between two
        # lines of a method on its own thread, where no call runs: hence a lock that lets it in.
        self._lock = threading.RLock()
        self._closing = weakref.finalize(self, _close, handle, listings)
        self._found = it.no_symbol()
        self._modules: dict[int, str] = {}
        self.counts = counts

    @classmethod
    def from_files(
        cls,
        kallsyms: str | os.PathLike[str] = "/proc/kallsyms",
        modules: str | os.PathLike[str] | None = None,
        regions: str | os.PathLike[str] | None = None,
        *,
        kernel: tuple[str, str] | None = None,
    ) -> Catalog:
        """Reads the files whole, and opens the catalog of them.

        A listing of which nothing is of use, as /proc/kallsyms read without rights, is warned of.
        """
        paths = (kallsyms, modules, regions)
        texts = [None if path is None else Path(path).read_bytes() for path in paths]
        catalog = cls(*texts, kernel=kernel)
        warn_of(catalog.counts, paths, 3)
        return catalog

    def change(self, text: Any) -> Catalog:
        """The catalog of what a change leaves of this one's listing of symbols: without the lines of
        each module that it names, and with its own lines behind the others.

        The change is lines of modules in the form of /proc/kallsyms, and lines `gone NAME`. Both
        catalogs share what did not change, so a change of one module takes little time and memory.
        `counts` stays as it is.

        >>> import latchsym
        >>> symbols = b'ffffffff81000000 T _stext\\nffffffff81002000 T _end\\n'
        >>> with latchsym.Catalog(symbols + b'ffffffffc0000010 t ext4_a\\t[ext4]\\n') as before:
        ...     with before.change(b'gone ext4\\nffffffffc0000000 t xfs_a\\t[xfs]\\n') as after:
        ...         print(before.find(0xffffffffc0000018), after.find(0xffffffffc0000018))
        ext4_a+0x8/0xff0 [ext4] xfs_a+0x18/0x1000 [xfs]
        """
        pinned = listing(text or b"", "change")
        none = [it.Place(place.at, place.len) for place in [listing(b"", "change")] * 4]
        given = it.Listings(
            ctypes.sizeof(it.Listings), it.Place(pinned.at, pinned.len), *none, False
        )
        handle, bad_line = it.Handle(), c_uint64()
        with self._lock:
            number = lib.latchsym_catalog_change(self._handle, given, handle, bad_line)
            if number == it.BAD_LINE:
                raise BadListing(number, it.text_of(number), bad_line.value)
            check(number, self)
            other = type(self).__new__(type(self))
            other._keep(handle, [*self._listings, pinned], self.counts)
        return other

    def share(self) -> Catalog:
        """Another handle of the same catalog, for another thread: nothing is read again."""
        handle = it.Handle()
        with self._lock:
            check(lib.latchsym_catalog_share(self._handle, handle), self)
            other = type(self).__new__(type(self))
            other._keep(handle, self._listings, self.counts)
        return other

    def view(self) -> View:
        """The catalog in memory of its own, in which any number of threads find at once."""
        with self._lock:
            return View(self)

    def close(self) -> None:
        """Closes the catalog. A second close does nothing."""
        with self._lock:
            self._closing()
            self._listings = ()
            self._found = it.no_symbol()  # whose places led into the listings

    def __repr__(self) -> str:
        if not self._closing.alive:
            return "<Catalog, closed>"
        return f"<Catalog: modules {self.counts.modules}, symbols {self.counts.symbols}>"

    def find(self, addr: int) -> Symbol | None:
        """The symbol of an address, or None where nothing is."""
        return self._find(lib.latchsym_catalog_find, addr)

    def find_caller(self, addr: int) -> Symbol | None:
        """The symbol of a return address: that of the call before it.

        The call may be the last instruction of its function. So the symbol is that of the address
        one byte lower, and the offset that of the return address, which may equal the size.
        """
        return self._find(lib.latchsym_catalog_find_caller, addr)

    def _find(self, call: Callable[..., int], addr: int) -> Symbol | None:
        addr = word(addr, "addr")
        with self._lock:
            number = call(self._handle, addr, self._found)
            return symbol_of(number, self._found, self._modules, self)

    def find_many(self, addresses: Any, out: Answers | None = None) -> Answers:
        """What is told of many addresses, in numbers alone.

        `addresses` is a buffer of 64-bit numbers, which is read where it lies (an `array` of type
        "Q", an array of numpy), or an iterable of numbers. `out` is filled where it is given, and
        may have more rooms than there are addresses. Other threads of Python run meanwhile.

        >>> import array, latchsym
        >>> symbols = b"ffffffffc0000010 t ext4_a\\t[ext4]\\nffffffffc0000040 t ext4_b\\t[ext4]\\n"
        >>> with latchsym.Catalog(symbols) as catalog:
        ...     answers = catalog.find_many(array.array("Q", [0xffffffffc0000018, 0x1000]))
        >>> answers.offsets.tolist(), answers.numbers.tolist()
        ([8, 0], [0, 22])
        """
        view = numbers(addresses)
        answers = Answers(len(view)) if out is None else out
        rooms = min(len(view), len(answers))
        with Pinned(view) as pinned, self._lock:
            first = ctypes.cast(pinned.at, POINTER(c_uint64))
            check(
                lib.latchsym_catalog_find_many(
                    self._handle, first, len(view), answers._told, rooms
                ),
                self,
            )
        return answers

    def texts(self, addresses: Any) -> list[str]:
        """What `latchsym lookup` writes of each address; each symbol's name is looked up once.

        >>> import latchsym
        >>> symbols = b"ffffffffc0000010 t ext4_a\\t[ext4]\\nffffffffc0000040 t ext4_b\\t[ext4]\\n"
        >>> with latchsym.Catalog(symbols) as catalog:
        ...     catalog.texts([0xffffffffc0000018, 0xffffffffc000001a, 0x1000])
        ['ext4_a+0x8/0x30 [ext4]', 'ext4_a+0xa/0x30 [ext4]', '-']
        """
        view = numbers(addresses)
        answers = self.find_many(view)
        parts: dict[int, tuple[str, str]] = {}
        texts = []
        for addr, offset, number in zip(view, answers.offsets, answers.numbers):
            if number:
                symbol = self.find(addr & 0xFFFFFFFFFFFFFFFF) if number == it.NO_SYMBOL else None
                texts.append("-" if symbol is None else str(symbol))
                continue
            start = (addr - offset) & 0xFFFFFFFFFFFFFFFF
            if start not in parts:
                parts[start] = self._parts(start)
            name, rest = parts[start]
            texts.append(f"{name}+0x{offset:x}{rest}")
        return texts

    def factorize(self, addresses: Any) -> Factors:
        """The distinct symbols of many addresses, and for each address which of them it lies in.

        As `pandas.factorize` does: no `str` is made for an address, and a name only once.

        >>> import latchsym
        >>> symbols = b"ffffffffc0000010 t ext4_a\\t[ext4]\\nffffffffc0000040 t ext4_b\\t[ext4]\\n"
        >>> with latchsym.Catalog(symbols) as catalog:
        ...     found = catalog.factorize([0xffffffffc0000018, 0x1000, 0xffffffffc000001a])
        >>> found.codes.tolist(), found.offsets.tolist()
        ([0, 1, 0], [8, 0, 10])
        >>> [str(symbol) for symbol in found.symbols]
        ['ext4_a+0x0/0x30 [ext4]', 'None']
        """
        view = numbers(addresses)
        answers = self.find_many(view)
        if not len(view):
            return Factors(array("i"), [], answers.offsets)
        words = view.cast("B").cast("Q").tolist()
        # What tells them apart: a symbol its first address, modules without one their numbers, below 0.
        keys: list[int | None] = list(map(operator.sub, words, answers.offsets.tolist()))
        told = answers.numbers.tolist()
        address_of: dict[int, int] = {}
        for place in (place for place, number in enumerate(told) if number):
            key = -1 - answers[place].module_number if told[place] == it.NO_SYMBOL else None
            keys[place] = key
            if key is not None:
                address_of[key] = words[place]
        distinct = dict.fromkeys(keys)
        symbols = [None if key is None else self.find(address_of.get(key, key)) for key in distinct]
        places = dict(zip(distinct, range(len(symbols))))
        return Factors(array("i", map(places.__getitem__, keys)), symbols, answers.offsets)

    def _parts(self, start: int) -> tuple[str, str]:
        """What stands before and behind the offset in the text of a symbol that is there."""
        symbol = self.find(start)
        assert symbol is not None
        owner = f" [{symbol.module}]" if symbol.module_number else ""
        return f"{symbol.name}", f"/0x{symbol.size:x}{owner}"

    def modules(self) -> Iterator[Module]:
        """The modules by their numbers: the kernel itself, 0, where it has a region, then from 1 on."""
        count = c_uint64()
        with self._lock:
            check(lib.latchsym_catalog_modules(self._handle, byref(count)), self)
        for number in range(count.value + 1):
            module = it.Module(it.no_place(), 0, 0)
            if self._is_there(lib.latchsym_catalog_module, number, module):
                yield Module(number, it.text_of_place(module.name), module.regions, module.symbols)

    def items(self) -> list[Item]:
        """An item for each region, each below the next, with the number of its module as the tag."""
        sizes = it.Sizes()
        with self._lock:
            check(lib.latchsym_catalog_sizes(self._handle, byref(sizes)), self)
            # (an array of no length may have no place, and no pointer may be null)
            rooms = (it.Item * (sizes.regions + 1))()
            check(lib.latchsym_catalog_items(self._handle, rooms, sizes.regions), self)
        return [Item(room.a, room.b, room.tag) for room in rooms[: sizes.regions]]

    def regions(self, number: int) -> Iterator[Region]:
        """The regions of the module of a number, in the order of their listing."""
        region, place = it.Region(), 0
        while self._is_there(lib.latchsym_catalog_region, number, place, region):
            yield Region(region.a, region.b, bool(region.is_init))
            place += 1

    def symbols(self, number: int) -> Iterator[Entry]:
        """The symbols of the module of a number, in the order listed."""
        entry, place = it.Entry(0, it.no_place()), 0
        while self._is_there(lib.latchsym_catalog_symbol, number, place, entry):
            yield Entry(entry.addr, it.text_of_place(entry.name))
            place += 1

    def addresses_of(self, name: str | bytes, number: int | None = None) -> Iterator[int]:
        """The addresses of a name in the module of a number, or in all.

        >>> import latchsym
        >>> symbols = b"ffffffffc0000010 t ext4_a\\t[ext4]\\nffffffffc0000040 t ext4_b\\t[ext4]\\n"
        >>> with latchsym.Catalog(symbols) as catalog:
        ...     [hex(addr) for addr in catalog.addresses_of("ext4_b")]
        ['0xffffffffc0000040']
        """
        wanted = it.encoded(name)
        owners = [module.number for module in self.modules()] if number is None else [number]
        for owner in owners:
            place, entry = c_size_t(0), it.Entry(0, it.no_place())
            while self._is_there(
                lib.latchsym_catalog_place_of_name, owner, wanted, len(wanted), place.value, byref(place)
            ):
                if self._is_there(lib.latchsym_catalog_symbol, owner, place.value, entry):
                    yield entry.addr
                place.value += 1

    def _is_there(self, call: Callable[..., int], number: int, *words: Any) -> bool:
        """Whether a call for the module of a number has written its answer."""
        with self._lock:
            got = call(self._handle, word(number, "number"), *words)
        if got != it.NOTHING:
            check(got, self)
        return bool(got == it.DONE)
