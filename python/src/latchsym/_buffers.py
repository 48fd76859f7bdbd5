# SPDX-License-Identifier: MIT OR Apache-2.0
"""Where the bytes of a buffer lie, also of one that may not be written to.

ctypes itself takes writable buffers alone; CPython's calls for buffers take each.
"""

from __future__ import annotations

import ctypes
from array import array
from ctypes import POINTER, c_char_p, c_int, c_ssize_t, c_void_p
from types import TracebackType
from typing import Any, Type, TypeVar

from ._library import EMPTY_AT, word


_Self = TypeVar("_Self", bound="Closing")


class Closing:
    """What a `with` statement closes at its end."""

    def close(self) -> None:
        raise NotImplementedError

    def __enter__(self: _Self) -> _Self:
        return self

    def __exit__(
        self,
        kind: Type[BaseException] | None,
        error: BaseException | None,
        trace: TracebackType | None,
    ) -> None:
        self.close()


class _PyBuffer(ctypes.Structure):
    """Py_buffer of CPython's stable interface."""

    _fields_ = [
        ("buf", c_void_p),
        ("obj", c_void_p),
        ("len", c_ssize_t),
        ("itemsize", c_ssize_t),
        ("readonly", c_int),
        ("ndim", c_int),
        ("format", c_char_p),
        ("shape", POINTER(c_ssize_t)),
        ("strides", POINTER(c_ssize_t)),
        ("suboffsets", POINTER(c_ssize_t)),
        ("internal", c_void_p),
    ]


_get = ctypes.pythonapi.PyObject_GetBuffer
_get.argtypes = [ctypes.py_object, POINTER(_PyBuffer), c_int]
_get.restype = c_int
_release = ctypes.pythonapi.PyBuffer_Release
_release.argtypes = [POINTER(_PyBuffer)]
_release.restype = None
_SIMPLE = 0


class Pinned(Closing):
    """A buffer that stays where it is until it is closed: `at` is where, `len` its bytes."""

    def __init__(self, buffer: Any) -> None:
        self._view = _PyBuffer()
        self._is_held = False
        _get(buffer, self._view, _SIMPLE)
        self._is_held = True
        self.at: int = self._view.buf or EMPTY_AT
        self.len: int = self._view.len

    def close(self) -> None:
        if self._is_held:
            self._is_held = False
            _release(self._view)

    __del__ = close


def listing(buffer: Any, name: str) -> Pinned:
    """The bytes of a listing, which must not change: one that may be written to is copied. `name`
    is that of the argument."""
    try:
        view = memoryview(buffer)
    except TypeError:
        raise TypeError(f"{name} has no bytes: it is of type {type(buffer).__name__}") from None
    if not view.c_contiguous or not view.readonly:
        return Pinned(view.tobytes())
    return Pinned(view)


def _numbers_of(addresses: Any) -> array[int]:
    """The numbers of an iterable."""
    if not hasattr(addresses, "__iter__"):
        raise TypeError(f"addresses are no buffer and no iterable: {addresses!r}")
    words = addresses if isinstance(addresses, list) else list(addresses)
    try:
        return array("Q", words)
    except (TypeError, OverflowError):
        return array("Q", [word(addr, "an address") for addr in words])


def numbers(addresses: Any) -> memoryview:
    """A buffer of 64-bit numbers as it is, or the numbers of an iterable in one."""
    try:
        view = memoryview(addresses)
    except TypeError:
        return memoryview(_numbers_of(addresses))
    if view.itemsize != 8 or view.format.lstrip("@=<") not in tuple("QqLlNnP"):
        raise TypeError(f"a buffer of 64-bit numbers is wanted, and this is one of {view.format!r}")
    if not view.c_contiguous or view.ndim != 1:
        raise ValueError("the numbers of the buffer do not lie in one row")
    with Pinned(view) as pinned:
        is_aligned = pinned.at % 8 == 0
    return view if is_aligned else memoryview(array("Q", view.tobytes()))

