# SPDX-License-Identifier: MIT OR Apache-2.0
"""The shared library, with the types, the numbers and the calls of include/latchsym.h."""

from __future__ import annotations

import ctypes
import ctypes.util
import operator
import os
import shutil
import site
import sys
from ctypes import c_uint32, c_uint64
from typing import Callable, Iterator

from . import _errors
from ._header import *

Call = Callable[..., int]

COUNTS = [name for name, kind in Counts._fields_ if kind is c_uint64]
NOTES = [name for name, kind in Counts._fields_ if kind is c_uint32]


def _paths() -> Iterator[str]:
    """The names under which the library is looked for, first to last."""
    chosen = os.environ.get("LATCHSYM_LIBRARY")
    if chosen:
        yield chosen
        return
    name = f"liblatchsym.so.{MAJOR}"
    own = os.path.join(os.path.dirname(os.path.abspath(__file__)), name)
    if os.path.exists(own):
        yield own
    yield name
    yield "liblatchsym.so"
    known = ctypes.util.find_library("latchsym")
    if known:
        yield known
    for prefix in _prefixes():
        path = os.path.join(prefix, "lib", name)
        if os.path.exists(path):
            yield path


def _prefixes() -> Iterator[str]:
    """Where install.sh may have put the library: Python's prefix, the user's, the program's."""
    yield sys.prefix
    yield site.getuserbase() or sys.prefix
    program = shutil.which("latchsym")
    if program:
        yield os.path.dirname(os.path.dirname(os.path.realpath(program)))


def _load() -> ctypes.CDLL:
    faults = []
    for path in _paths():
        try:
            library = ctypes.CDLL(path)
        except OSError as error:
            faults.append(str(error))
            continue
        for name, (takes, returns) in CALLS.items():
            call = getattr(library, f"{name}_nonnull" if name in NONNULL else name)
            call.argtypes = takes
            call.restype = c_uint32 if returns else None
            setattr(library, name, call)
        version = library.latchsym_version()
        if version // 10000 == MAJOR:
            return library
        faults.append(f"{path}: of version {version}, not {MAJOR}")
    raise ImportError(
        "liblatchsym is not found: install it by install.sh, or set "
        f"LATCHSYM_LIBRARY=PREFIX/lib/liblatchsym.so.{MAJOR}: " + "; ".join(faults)
    )


lib = _load()

_EMPTY = (c_uint64 * 1)()
EMPTY_AT = ctypes.addressof(_EMPTY)
"""Where no bytes lie: a pointer that is not null, and is aligned for numbers."""


def no_place() -> Place:
    return Place(EMPTY_AT, 0)


def no_symbol() -> Symbol:
    return Symbol(0, 0, 0, EMPTY_AT, 0, EMPTY_AT, 0)


def no_view_symbol() -> ViewSymbol:
    return ViewSymbol(0, 0, no_place())


def no_view_region() -> ViewRegion:
    return ViewRegion(0, 0, 0, no_place(), EMPTY_AT, 0, EMPTY_AT, 0)


def decoded(name: bytes) -> str:
    """A name as text, from which `encoded` gives the same bytes again."""
    return name.decode("utf-8", "surrogateescape")


def text_at(at: int, length: int) -> str:
    return decoded(ctypes.string_at(at, length))


def text_of_place(place: Place) -> str:
    return text_at(place.at, place.len)


def encoded(name: str | bytes) -> bytes:
    return name if isinstance(name, bytes) else name.encode("utf-8", "surrogateescape")


def word(number: int, name: str, bits: int = 64) -> int:
    """The number, if it has so few bits: ctypes would cut it short and not say so. `name` is that
    of the argument."""
    if type(number) is not int:
        try:
            number = operator.index(number)
        except TypeError:
            raise TypeError(f"{name} is no whole number: {number!r}") from None
    if number >> bits:
        raise OverflowError(f"{name} is not a number of {bits} bits without a sign: {number}")
    return number


def text_of(number: int) -> str:
    """The library's text of a number that a call returned."""
    place = no_place()
    lib.latchsym_place_of_text(number, place)
    return ctypes.string_at(place.at).decode()


def error_of(number: int, closed: object = None) -> _errors.Error:
    """The exception of a number. What may be closed is named: by its class, or in words."""
    if number != BAD_HANDLE or closed is None:
        text = text_of(number)
    else:
        text = f"{closed if isinstance(closed, str) else 'this ' + type(closed).__name__} is closed"
    return _errors.CLASSES.get(number, _errors.Error)(number, text)


def check(number: int, closed: object = None) -> None:
    """Raises the exception of a number that is not 0, as `error_of` words it."""
    if number:
        raise error_of(number, closed)
