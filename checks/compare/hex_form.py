"""Items in hex with comments: docs/BYTES.md."""

from bytes_form import parse_bytes
from item import Refused, utf8

HEX_DIGITS = b"0123456789abcdefABCDEF"


def strip(text):
    """What is kept of a text: the part of each line before its first #, without spaces."""
    kept = []
    lines = text.split("\n")
    for number, line in enumerate(lines):
        ended = number < len(lines) - 1
        if ended and line.endswith("\r"):
            line = line[:-1]
        kept.append(line.split("#", 1)[0].replace(" ", ""))
    return utf8("".join(kept))


def parse_hex(text):
    """The item that the hex digits of a text are."""
    kept = strip(text)
    if len(kept) % 2:
        raise Refused("OddHex")
    if any(byte not in HEX_DIGITS for byte in kept):
        raise Refused("BadHex")
    return parse_bytes(bytes.fromhex(kept.decode("ascii")))
