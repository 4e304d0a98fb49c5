"""Rows of the vectors, as docs/VECTORS.md has their form."""

import pathlib
import re
from typing import NamedTuple

CRATE = pathlib.Path(__file__).resolve().parents[2] / "crates" / "vectors"
DATA = CRATE / "data"


class Wrong(Exception):
    """A line that is none of a row."""


class KnownRefused(str):
    """The error of a row, of which is known that it is one, and not which."""


class Row(NamedTuple):
    """A row: a call, what it is given, and what it has to give."""

    place: str
    call: str
    argument: str
    input: bytes
    wanted: bytes

    def bytes(self):
        """The bytes that the input is in hex digits."""
        return bytes.fromhex(self.input.decode())

    def text(self):
        return self.input.decode()

    def output(self):
        return self.wanted.decode()

    def refused(self, is_error, otherwise):
        """What the row gives, if it is an error as far as that is known; otherwise these words."""
        return KnownRefused(self.output()) if is_error(self.output()) else otherwise


def joined(lines, text_mark):
    """What lines with marks stand for: a line feed comes between two lines of text."""
    found = b""
    for number, (mark, rest) in enumerate(lines):
        if mark == text_mark:
            found += b"\n" * (number > 0) + rest.encode()
        else:
            found += bytes.fromhex(rest)
    return found


def row_of(place, lines):
    head, *more = lines
    call, _, given = head.partition("  ")
    name, _, argument = call.partition(" ")
    marked = [(line[:1], line[2:]) for line in more]
    wrong = [line for line in more if line[:1] not in "|$=%" or line[1:2] not in ("", " ")]
    wanted = [pair for pair in marked if pair[0] in "=%"]
    if wrong or not wanted:
        raise Wrong(f"{place}: {wrong[0] if wrong else 'a row without a result'}")
    inputs = [("|", given)] if "  " in head else []
    inputs += [pair for pair in marked if pair[0] in "|$"]
    return Row(place, name, argument, joined(inputs, "|"), joined(wanted, "="))


def rows_of(file):
    """The rows of a file."""
    found, lines, begun = [], [], 0
    for number, line in enumerate(file.read_text().split("\n") + ["end"], 1):
        if not line or line.startswith("#"):
            continue
        if re.match("[a-z]", line):
            if lines:
                found.append(row_of(f"{file.name}:{begun}", lines))
            lines, begun = [], number
        lines.append(line)
    return found


def file_names():
    """The names of all files of rows."""
    return sorted(file.name for file in DATA.iterdir())
