# SPDX-License-Identifier: MIT OR Apache-2.0
"""Kernel symbols of addresses, and a latched table of address ranges.

`Catalog` says which symbol and which module of a Linux kernel hold an address, from listings in the
form of /proc/kallsyms and /proc/modules. `Table` is a table of address ranges whose readers never
wait for its writer, and `Follower` one that has the regions of a listing as it changes. `History`
names addresses by the listings of a file that `latchsym record` wrote. They are those of the library
for C, `liblatchsym.so.1`, which is looked for where the environment's LATCHSYM_LIBRARY says and else
where the system looks for libraries.
"""

from ._catalog import (
    Answer,
    Answers,
    Catalog,
    Counts,
    Entry,
    Factors,
    Item,
    Module,
    Region,
    Symbol,
    View,
)
from ._errors import (
    BadCapacity,
    BadItem,
    BadLength,
    BadListing,
    BadStamp,
    Busy,
    Closed,
    Error,
    Forgotten,
    Full,
    NoSuchItem,
    OutOfMemory,
    Overlap,
    Retry,
    SequenceSpent,
    UpdateInHand,
)
from ._follow import Follower, Sample
from ._history import History
from ._library import lib as _lib
from ._table import Found, Reader, Step, Table, Writer

__version__ = "1.3.0"


def library_version() -> int:
    """The version of the library that runs: 10000 of each major, 100 of each minor number.

    >>> import latchsym
    >>> latchsym.library_version() >= 10000
    True
    """
    return int(_lib.latchsym_version())


__all__ = [
    "Answer",
    "Answers",
    "BadCapacity",
    "BadItem",
    "BadLength",
    "BadListing",
    "BadStamp",
    "Busy",
    "Catalog",
    "Closed",
    "Counts",
    "Entry",
    "Error",
    "Factors",
    "Follower",
    "Forgotten",
    "Found",
    "Full",
    "History",
    "Item",
    "Module",
    "NoSuchItem",
    "OutOfMemory",
    "Overlap",
    "Reader",
    "Region",
    "Retry",
    "Sample",
    "SequenceSpent",
    "Step",
    "Symbol",
    "Table",
    "UpdateInHand",
    "View",
    "Writer",
    "library_version",
]
