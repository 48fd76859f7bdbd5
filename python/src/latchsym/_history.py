# SPDX-License-Identifier: MIT OR Apache-2.0
"""The listings of one boot with their times."""

from __future__ import annotations

import os
import re
import threading
from bisect import bisect_right
from decimal import ROUND_FLOOR, Decimal, InvalidOperation
from pathlib import Path
from typing import Any, List, NamedTuple, Optional, Tuple

from . import _library as it
from ._buffers import Closing
from ._catalog import Catalog, Symbol
from ._errors import BadListing

_HEADER = re.compile(rb"(listing|change) ([0-9]{1,10})\.([0-9]{1,9})")
_GONE = re.compile(rb"gone ([^ \t]+)")
_WORD = re.compile(rb"(?:listing|change|gone)(?:[ \t]|\Z)")
_SYMBOL = re.compile(rb"[0-9a-fA-F]{1,16} [^ \t] [^\t]+(?:\t\[([^\t]+)\])?", re.DOTALL)
_LONGEST = 4096

# a line of a listing, and the module that owns its symbol
_Line = Tuple[bytes, Optional[bytes]]


class _Part(NamedTuple):
    """A listing, or a change, from a time in nanoseconds on."""

    time: int
    is_change: bool
    lines: List[_Line]
    gone: set[bytes]


def _symbol(line: bytes) -> tuple[bool, bytes | None]:
    """Whether a line of a listing is well formed, and the module that owns its symbol."""
    found = _SYMBOL.fullmatch(line) if len(line) <= _LONGEST else None
    return found is not None, found and found[1]


def _parts(text: bytes, path: Any) -> list[_Part]:
    """The parts of a history in their order."""
    lines = text.split(b"\n")
    if not lines[-1]:
        lines.pop()
    parts: list[_Part] = []

    def is_understood(line: bytes) -> bool:
        header = _HEADER.fullmatch(line)
        if header:
            time = int(header[2]) * 10**9 + int(header[3].ljust(9, b"0"))
            is_change = header[1] == b"change"
            if parts and time < parts[-1].time or is_change and not parts:
                return False
            parts.append(_Part(time, is_change, [], set()))
            return True
        if not parts:
            return False
        part, gone = parts[-1], _GONE.fullmatch(line)
        if gone and part.is_change:
            part.gone.add(gone[1])
            return True
        is_symbol, owner = _symbol(line)
        if _WORD.match(line) or part.is_change and is_symbol and owner is None:
            return False
        part.lines.append((line, owner))
        if part.is_change and owner is not None:
            part.gone.add(owner)
        return True

    for number, line in enumerate(lines or [b""], 1):
        if not (line == b"latchhistory 1" if number == 1 else is_understood(line)):
            raise BadListing(it.BAD_LINE, f"{path}: the history is not understood", number)
    return parts


def _nanoseconds(time: Any) -> int:
    """The nanoseconds of a time in seconds; of a float those of the decimals that Python writes."""
    try:
        return int(Decimal(str(time)).scaleb(9).to_integral_value(ROUND_FLOOR))
    except (InvalidOperation, ValueError, OverflowError):
        raise ValueError(f"time is no number of seconds: {time!r}") from None


class History(Closing):
    """The listings of one boot with their times, as `latchsym record` writes them to a file, and
    the names that addresses had at a time.

    >>> import latchsym, pathlib, tempfile
    >>> file = pathlib.Path(tempfile.mkdtemp(), "history")
    >>> _ = file.write_text('''latchhistory 1
    ... listing 0.5
    ... ffffffffc0000010 t ext4_a\\t[ext4]
    ... change 9.104290
    ... gone ext4
    ... ffffffffc0000010 t xfs_a\\t[xfs]
    ... ''')
    >>> with latchsym.History(file) as history:
    ...     for time in ("0.1", "9.104289", 9.10429):
    ...         print(history.find(time, 0xffffffffc0000018))
    None
    ext4_a+0x8/0xff0 [ext4]
    xfs_a+0x8/0xff0 [xfs]

    A time is in seconds, as text, `decimal.Decimal`, `int` or `float`; None is the last one. Before
    the first listing the kernel itself alone has names. The catalog of a time is opened when a name
    is asked for, and kept until one is asked for by another listing: so ask in the order of times.
    Any thread may call.
    """

    def __init__(self, path: str | os.PathLike[str]) -> None:
        self._path = path
        self._parts = _parts(Path(path).read_bytes(), path)
        self._times = [part.time for part in self._parts]
        self._lock = threading.RLock()
        self._is_closed = False
        self._catalog: Catalog | None = None  # of the first so many parts
        self._count = 0
        self._lines: list[_Line] = []

    def find(self, time: Any, addr: int) -> Symbol | None:
        """The symbol that an address had at a time, or None where nothing was."""
        with self._lock:
            return self._at(time).find(addr)

    def find_caller(self, time: Any, addr: int) -> Symbol | None:
        """The symbol of a return address, as `Catalog.find_caller` finds it."""
        with self._lock:
            return self._at(time).find_caller(addr)

    def _at(self, time: Any) -> Catalog:
        """The catalog of the listing at a time."""
        if self._is_closed:
            raise it.error_of(it.BAD_HANDLE, self)
        moment = None if time is None else _nanoseconds(time)
        count = len(self._times) if moment is None else bisect_right(self._times, moment)
        if self._catalog is None or count != self._count:
            lines = self._listing(count) if count else self._kernel()
            catalog = Catalog(b"".join(line + b"\n" for line, _ in lines))
            if self._catalog is not None:
                self._catalog.close()
            self._catalog, self._count, self._lines = catalog, count, lines
        return self._catalog

    def _listing(self, count: int) -> list[_Line]:
        """The lines of the listing that the first so many parts leave, one or more."""
        first = max(place for place in range(count) if not self._parts[place].is_change)
        lines, done = self._parts[first].lines, first + 1
        if self._catalog is not None and done <= self._count <= count:
            lines, done = self._lines, self._count
        for part in self._parts[done:count]:
            lines = [row for row in lines if row[1] not in part.gone] + part.lines
        return lines

    def _kernel(self) -> list[_Line]:
        """The lines without a module of the first listing, which stand before it."""
        lines = self._parts[0].lines if self._parts else []
        return [row for row in lines if _symbol(row[0]) == (True, None)]

    def close(self) -> None:
        """Closes the catalog that is kept. A second close does nothing."""
        with self._lock:
            self._is_closed = True
            if self._catalog is not None:
                self._catalog.close()
            self._parts, self._times, self._lines = [], [], []

    def __repr__(self) -> str:
        if self._is_closed:
            return f"<History of {self._path}, closed>"
        changes = sum(part.is_change for part in self._parts)
        listings = len(self._parts) - changes
        return f"<History of {self._path}: listings {listings}, changes {changes}>"
