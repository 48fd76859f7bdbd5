# SPDX-License-Identifier: MIT OR Apache-2.0
"""The library's refusals as exceptions."""

from __future__ import annotations

from typing import Dict, Type


class Error(Exception):
    """What the library refused.

    `number` is the number that the call returned, and `str()` gives the library's text of it.
    """

    number: int

    def __init__(self, number: int, text: str) -> None:
        super().__init__(number, text)
        self.number = number

    def __str__(self) -> str:
        return str(self.args[1])


class BadItem(Error, ValueError):
    """The item is empty."""


class Overlap(Error, ValueError):
    """The item overlaps one of the table."""


class NoSuchItem(Error, KeyError):
    """No item begins there."""


class Full(Error):
    """The table has as many items as nodes."""


class UpdateInHand(Error):
    """An update has begun and is not at its end."""


class SequenceSpent(Error):
    """The table has had 2**63 - 1 updates."""


class OutOfMemory(Error, MemoryError):
    """A request for memory was refused."""


class BadCapacity(Error, ValueError):
    """Nodes or readers are not in their range."""


class BadListing(Error, ValueError):
    """The listing of regions cannot be used.

    `line` is the number of its first line that is none, or None where another thing is wrong.
    """

    line: int | None

    def __init__(self, number: int, text: str, line: int | None = None) -> None:
        super().__init__(number, text)
        self.args = (number, text, line)
        self.line = line

    def __str__(self) -> str:
        text = super().__str__()
        return text if self.line is None else f"{text}: line {self.line}"


class Retry(Error):
    """The writer flipped during the attempt, which is to be made again."""


class Busy(Error):
    """Other calls have all readers of the table; the attempt is to be made again."""


class Forgotten(Error, LookupError):
    """The follower has no listing of that moment."""


class Closed(Error, ValueError):
    """What the call is of is closed: by its `close`, or at the end of its `with` statement."""


class BadLength(Error, ValueError):
    """There is not as much room as there are addresses."""


class BadStamp(Error, ValueError):
    """The stamp lies below that of a listing shown before."""


CLASSES: Dict[int, Type[Error]] = {
    1: BadItem,
    2: Overlap,
    3: NoSuchItem,
    4: Full,
    5: UpdateInHand,
    6: SequenceSpent,
    7: OutOfMemory,
    10: BadCapacity,
    14: BadListing,
    15: BadListing,
    23: Retry,
    24: Busy,
    25: Forgotten,
    101: Closed,
    102: BadLength,
    103: BadListing,
    104: BadStamp,
}
