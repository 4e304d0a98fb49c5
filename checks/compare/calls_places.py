"""Calls that say in words where a byte of an item is. The items of their rows begin at byte 10 of an input."""

import extents
from bytes_form import head_at, item_at
from edn_text import Writer
from item import Refused
from places import Decoder, Stop, said, starts

BEGINS = 10
# the longest key in lines of paths
IN_PATHS = 1024
NOUNS = {2: "bytes", 3: "text", 4: "array", 5: "map", 6: "tag"}


def decoded(data, longest=40, writer=None):
    """A decoder of data, as far as it came."""
    decoder = Decoder(data, BEGINS, longest, writer)
    try:
        decoder.items()
    except Stop:
        pass
    return decoder


def spot_at(data, place, writer=None):
    """The spot of the innermost item that a byte belongs to. What is not whole goes on to the end."""
    spots = decoded(data, writer=writer).spots
    around = [spot for spot in spots if spot[0] <= place and (spot[1] is None or place < spot[1])]
    return around[-1] if around else None


def words(row):
    """The line that says where the malformed end of bytes is, or where a place in a whole item is."""
    if row.argument:
        line = spot_at(row.bytes(), int(row.argument))[4]
        return line.strip().partition(", of which")[0]
    return said(row.bytes(), BEGINS).partition("\n")[2].strip()


def fault_words(row):
    """What is wrong where bytes are malformed."""
    return said(row.bytes(), BEGINS).partition("\n")[0].partition(": ")[2]


def cut_words(row):
    if not row.bytes():
        return f"no item is at byte {BEGINS}"
    return said(row.bytes(), BEGINS).removeprefix("truncated: ").strip()


def head_words(data, start):
    """A head in hex and what it says, as in a dump; of a number itself."""
    try:
        major, _, number, end = head_at(data, start)
    except Refused:
        return "none, or not whole"
    digits = data[start:end].hex(" ")
    if major in NOUNS:
        return f"{digits} # {NOUNS[major]}({'*' if number is None else number})"
    return f"{digits} # {Writer().item(item_at(data, start, 1)[0])}"


def lines_at(row):
    """The path, the head and the bytes of the item that a byte of the input belongs to."""
    data = row.bytes()
    byte, _, word = row.argument.partition(" ")
    place = int(byte) - BEGINS
    start, end, path, in_key, _ = spot_at(data, place, Writer(embedded=word == "embedded"))
    number = sum(it <= place for it in starts(data)) - 1
    first = BEGINS + start
    item = f"from byte {first} (0x{first:x}) on, not whole"
    if end == start + 1:
        item = f"byte {first} (0x{first:x})"
    elif end is not None:
        last = BEGINS + end - 1
        item = f"bytes {first} to {last} (0x{first:x} to 0x{last:x})"
    path = (f"{number}:" if number > 0 else "") + (path or "/") + (", in a key" if in_key else "")
    return f"path: {path}\nhead: {head_words(data, start)}\nitem: {item}"


def leaves(row):
    """The lines of -t paths."""
    writer = Writer(embedded=row.argument == "embedded")
    lines = []
    for at, path, part in decoded(row.bytes(), IN_PATHS, writer).leaves:
        place = f"0x{BEGINS + at:x}  " if row.argument == "places" else ""
        lines.append(f"{place}{path}  {writer.item(item_at(part, 0, 1)[0])}")
    return "\n".join(lines)


def place_of_fault(row):
    name, end = row.argument.split()
    return str(extents.place_of_fault(row.bytes(), name, int(end)))


CALLS = {
    "place_of_fault": place_of_fault,
    "words": words,
    "cut_words": cut_words,
    "fault_words": fault_words,
    "lines_at": lines_at,
    "leaves": leaves,
}
