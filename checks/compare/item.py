"""A CBOR data item and how it is encoded: RFC 7049, section 2, and docs/BYTES.md.

A width says how a number is written: by the number of bytes that follow the first byte of its head.
OPEN is not such a number: it is the shortest that fits (of a float: 8).
"""

from dataclasses import dataclass, field
from typing import Optional

OPEN = -1
WIDTHS = (0, 1, 2, 4, 8)
DEEPEST = 128


@dataclass(frozen=True)
class Integer:
    value: int
    width: int


@dataclass(frozen=True)
class Negative:
    """The number -1 - value."""

    value: int
    width: int


@dataclass(frozen=True)
class Bytes:
    content: bytes
    width: int


@dataclass(frozen=True)
class Text:
    content: str
    width: int


@dataclass(frozen=True)
class IndefiniteBytes:
    chunks: tuple


@dataclass(frozen=True)
class IndefiniteText:
    chunks: tuple


@dataclass(frozen=True)
class Array:
    """A width of None is an indefinite length."""

    members: tuple
    width: Optional[int]


@dataclass(frozen=True)
class Map:
    pairs: tuple
    width: Optional[int]


@dataclass(frozen=True)
class Tagged:
    number: int
    width: int
    value: tuple


@dataclass(frozen=True)
class Float:
    bits: int
    width: int


@dataclass(frozen=True)
class Simple:
    value: int
    # whether it was read from two bytes, which is no part of what an item is
    two_bytes: bool = field(default=False, compare=False)


class Refused(Exception):
    """The error of an input: one of the names below; and its place, where that is known."""

    def __init__(self, name, place=None):
        super().__init__(name)
        self.name, self.place = name, place


TEXTS = {
    "Memory": "out of memory",
    "CutShort": "the item is cut short",
    "Head": "no item can have this head",
    "Utf8": "a text is not UTF-8",
    "TooDeep": "nested deeper than 128 levels",
    "Remaining": "bytes remain after the item",
    "OddHex": "an odd number of hex digits",
    "BadHex": "not a hex digit",
    "Notation": "not diagnostic notation",
    "PastWidth": "a number does not fit its width",
}


def fits(value, width):
    """Whether a number can be written in a width."""
    if width == 0:
        return value < 24
    return value < 1 << (64 if width == OPEN else 8 * width)


def shortest(value):
    """The shortest width that a number fits."""
    return next(width for width in WIDTHS if fits(value, width))


def stated(value, width):
    """The width that a number is written in."""
    return shortest(value) if width == OPEN else width


def utf8(text):
    return text.encode("utf-8")
