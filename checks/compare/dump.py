"""Items as a dump: hex with a comment for each part."""

import base64
from typing import NamedTuple

from bytes_form import float_width, head, parse_bytes, sequence
from item import (
    TEXTS, Array, Bytes, Float, IndefiniteBytes, IndefiniteText, Integer, Negative, Refused,
    Simple, Tagged, Text, utf8,
)
from notes import (
    STANDARD, URL_SAFE, base64_lines, date_of_epoch, datetime_of_epoch, epoch_of_date,
    epoch_of_datetime, escaped_text, grouped, ipv4_text, ipv6_text, mac_text, pieces,
    quoted_bytes, uuid_lines,
)
from tags import ELEMENTS, NAMES
from url_text import url_verdict

# the comments of byte strings below these tags, the innermost of them
ENCODINGS = {21: "base64url", 22: "base64", 23: "hex", 37: "hex", 52: "hex", 54: "hex", 260: "hex"}
SIMPLE_NAMES = {20: "false, ", 21: "true, ", 22: "null, ", 23: "undefined, "}


class Line(NamedTuple):
    depth: int
    hex: str
    comment: str


def layout(lines):
    """The text of a list of lines: hex in one column, comments in the next."""
    width = max((3 * line.depth + len(line.hex) for line in lines if line.hex), default=0)
    return "".join(laid_out(line, width) + "\n" for line in lines)


def laid_out(line, width):
    left = " " * (3 * line.depth) + line.hex if line.hex else ""
    return left.ljust(width) + " # " + " " * (2 * line.depth) + line.comment


def head_hex(written):
    """A head in hex: its first byte, and after a blank the rest of it."""
    return " ".join(part.hex() for part in (written[:1], written[1:]) if part)


def to_hex(item):
    return layout(Dump().lines(item, 0, 1, None))


class Dump:
    """One dump, which numbers its shared values from 0."""

    def __init__(self):
        self.shared = 0

    def lines(self, item, depth, level, encoding):
        """The lines of an item, its head at a depth, the item at a level."""
        if isinstance(item, Integer):
            return [self.head(depth, 0, item.value, item.width, f"unsigned({grouped(item.value)})")]
        if isinstance(item, Negative):
            return [self.head(depth, 1, item.value, item.width, f"negative(-{grouped(item.value + 1)})")]
        if isinstance(item, Simple):
            return [self.simple(depth, item.value)]
        if isinstance(item, Float):
            width = float_width(item.width)
            digits = f"{item.bits:0{2 * width}x}"
            return [Line(depth, "f9 fa fb".split()[(2, 4, 8).index(width)] + " " + digits, f"float({digits})")]
        if isinstance(item, Bytes):
            return [self.bytes_head(depth, item)] + byte_lines(item.content, depth + 1, encoding)
        if isinstance(item, Text):
            content = utf8(item.content)
            opening = self.head(depth, 3, len(content), item.width, f"text({len(content)})")
            return [opening] + text_lines(item.content, depth + 1)
        if isinstance(item, Tagged):
            return self.tagged(item, depth, level, encoding)
        return self.container(item, depth, level, encoding)

    def head(self, depth, major, value, width, comment):
        return Line(depth, head_hex(head(major, value, width)), comment)

    def bytes_head(self, depth, item):
        return self.head(depth, 2, len(item.content), item.width, f"bytes({len(item.content)})")

    def simple(self, depth, value):
        name = SIMPLE_NAMES.get(value, "reserved, " if 24 <= value <= 32 else "unassigned, ")
        return Line(depth, f"{0xE0 + value:02x}" if value < 24 else f"f8 {value:02x}", f"{name}simple({value})")

    def container(self, item, depth, level, encoding):
        if isinstance(item, IndefiniteBytes):
            opening, parts = Line(depth, "5f", "bytes(*)"), item.chunks
        elif isinstance(item, IndefiniteText):
            opening, parts = Line(depth, "7f", "text(*)"), item.chunks
        elif isinstance(item, Array):
            opening, parts = self.opening(depth, 4, item.members, item.width, "array"), item.members
        else:
            opening = self.opening(depth, 5, item.pairs, item.width, "map")
            parts = [part for pair in item.pairs for part in pair]
        lines = [opening]
        for part in parts:
            lines += self.lines(part, depth + 1, level + 1, encoding)
        if opening.comment.endswith("(*)"):
            lines.append(Line(depth + 1, "ff", "break"))
        return lines

    def opening(self, depth, major, members, width, name):
        if width is None:
            return Line(depth, f"{major << 5 | 31:02x}", f"{name}(*)")
        return self.head(depth, major, len(members), width, f"{name}({len(members)})")

    def tagged(self, item, depth, level, encoding):
        number, value = item.number, item.value
        name = NAMES[number] + ", " if number in NAMES else ""
        opening = self.head(depth, 6, number, item.width, f"{name}tag({number})")
        known = self.shared
        if number == 28:
            self.shared += 1
        if number in ELEMENTS and isinstance(value, Bytes) and len(value.content) % ELEMENTS[number][1] == 0:
            size = ELEMENTS[number][1]
            elements = [
                Line(depth + 2, element.hex(), element_text(number, element))
                for element in pieces(value.content, size)
            ]
            return [opening, self.bytes_head(depth + 1, value)] + elements
        lines = [opening] + self.lines(value, depth + 1, level + 1, ENCODINGS.get(number, encoding))
        for indent, comment in notes(number, value, level, known):
            lines.append(Line(depth + 1 + indent, "", comment))
        return lines


def byte_lines(content, depth, encoding):
    if not content:
        return [Line(depth, "", '""')]
    lines = []
    for piece in pieces(content, 16):
        if encoding is None:
            comment = quoted_bytes(piece)
        elif encoding == "hex":
            comment = f"h'{piece.hex()}'"
        elif encoding == "base64url":
            comment = "b64'" + base64.urlsafe_b64encode(content).decode().rstrip("=") + "'"
        else:
            comment = "b64'" + base64.b64encode(content).decode() + "'"
        lines.append(Line(depth, piece.hex(), comment))
    return lines


def text_lines(text, depth):
    if not text:
        return [Line(depth, "", '""')]
    if len(utf8(text)) <= 24:
        return [Line(depth, utf8(text).hex(), f'"{escaped_text(text)}"')]
    lines, at = [], 0
    while at < len(text):
        end = at + 1
        while end < len(text) and len(utf8(text[at:end + 1])) <= 16:
            end += 1
        lines.append(Line(depth, utf8(text[at:end]).hex(), f'"{escaped_text(text[at:end])}"'))
        at = end
    return lines


def element_text(number, element):
    """The comment of one element of a typed array (RFC 8746)."""
    kind, size, little = ELEMENTS[number]
    order = "little" if little else "big"
    if kind == "float":
        return f"float({int.from_bytes(element, order):0{2 * size}x})"
    value = int.from_bytes(element, order, signed=kind == "signed")
    return f"{kind}({grouped(value)})"


# ---- notes: a list of (how much deeper, comment) ----


def notes(number, value, level, known):
    """The note below a tag at a level, with the number of shared values that began before it."""
    rule = RULES.get(number)
    if number == 28:
        return [(0, f"reference({grouped(known)})")]
    if number == 29:
        return shared_reference(value, known)
    if number == 24:
        return encoded_item(value, level)
    if number == 63:
        return encoded_sequence(value, level)
    if number in ELEMENTS:
        problem = "data length" if isinstance(value, Bytes) else "type"
        return [(0, f"invalid {problem} for typed array")]
    return rule(value) if rule else []


def shared_reference(value, known):
    if not isinstance(value, Integer):
        return [(0, "invalid type for shared ref")]
    missing = "" if value.value < known else ", not previously shared"
    return [(0, f"reference-to({grouped(value.value)}){missing}")]


def dump_inside(item, level):
    """A whole dump as comments."""
    text = layout(Dump().lines(item, 0, level, None))
    return [(0, "encoded cbor data item")] + [(1, line) for line in text.split("\n")[:-1]]


def encoded_item(value, level):
    if not isinstance(value, Bytes):
        return [(0, "invalid type for encoded cbor data item")]
    try:
        item = parse_bytes(value.content, level + 2)
    except Refused as refused:
        return [(0, "failed to parse encoded cbor data item"), (1, TEXTS[refused.name])]
    return dump_inside(item, level + 2)


def encoded_sequence(value, level):
    if not isinstance(value, Bytes):
        return [(0, "invalid type for encoded cbor sequence")]
    items, rest = sequence(value.content, level + 2)
    lines = [line for item in items for line in dump_inside(item, level + 2)]
    if rest:
        try:
            parse_bytes(rest, level + 2)
        except Refused as refused:
            lines += [(0, "failed to parse remaining encoded cbor sequence"), (1, TEXTS[refused.name])]
    return lines


def one(comment):
    return [(0, comment)]


def datetime_note(value):
    if not isinstance(value, Text):
        return one("invalid type for datetime")
    epoch = epoch_of_datetime(value.content)
    return one("error parsing datetime" if epoch is None else f"epoch({epoch})")


def as_integer(value):
    if isinstance(value, Integer):
        return value.value
    return -1 - value.value if isinstance(value, Negative) else None


def epoch_datetime_note(value):
    if isinstance(value, Float):
        return one("epoch datetime of a float is not computed")
    seconds = as_integer(value)
    if seconds is None:
        return one("invalid type for epoch datetime")
    text = datetime_of_epoch(seconds)
    return one("offset is too large" if text is None else f"datetime({text})")


def epoch_date_note(value):
    days = as_integer(value)
    if days is None:
        return one("invalid type for epoch date")
    text = date_of_epoch(days)
    return one("date offset is too large for this tool" if text is None else f"date({text})")


def date_note(value):
    if not isinstance(value, Text):
        return one("invalid type for date")
    epoch = epoch_of_date(value.content)
    return one("error parsing date" if epoch is None else f"epoch({epoch})")


def uri_note(value):
    if not isinstance(value, Text):
        return one("invalid type for uri")
    verdict = {True: "valid", False: "invalid", None: UNKNOWN_VERDICT}[url_verdict(value.content)]
    return one(f"{verdict} URL (checked against URL Standard, not RFC 3986)")


# in place of a verdict that this program cannot give
UNKNOWN_VERDICT = "?"


def base64_note(value, name, alphabet):
    if not isinstance(value, Text):
        return one(f"invalid type for {name}")
    lines = base64_lines(value.content, alphabet)
    if lines is None:
        return one(f"invalid data for {name}")
    return one(f"{name} decoded") + [(1, line) for line in lines]


def uuid_note(value):
    if not isinstance(value, Bytes):
        return one("invalid type for uuid")
    if len(value.content) != 16:
        return one("invalid data length for uuid")
    first, *others = uuid_lines(value.content)
    return one(first) + [(1, line) for line in others]


def network_note(value):
    if not isinstance(value, Bytes):
        return one("invalid type for network address")
    texts = {4: ("IPv4", ipv4_text), 6: ("MAC", mac_text), 16: ("IPv6", ipv6_text)}
    if len(value.content) not in texts:
        return one("invalid data length for network address")
    name, text = texts[len(value.content)]
    return one(f"{name} address({text(value.content)})")


def address_note(value, name, size, text):
    """RFC 9164: an address, a prefix (length, then bytes), or an address with a length or a zone."""
    invalid_type, invalid_length = "invalid type for network address", f"invalid data length for {name} address"
    if isinstance(value, Bytes):
        whole = len(value.content) == size
        return one(f"{name} address({text(value.content)})" if whole else invalid_length)
    members = list(value.members) + [None] * 3 if isinstance(value, Array) else [None] * 3
    first, second, third = members[:3]
    if isinstance(first, Integer):
        if not isinstance(second, Bytes):
            return one(invalid_type)
        if second.content.endswith(b"\0"):
            return one("invalid prefix, ends with zero byte")
        if len(second.content) > size:
            return one(invalid_length)
        return one(f"{name} prefix({text(second.content.ljust(size, bytes(1)))}/{first.value})")
    if not isinstance(first, Bytes):
        return one(invalid_type)
    if len(first.content) != size:
        return one(invalid_length)
    address = text(first.content)
    is_null = second == Simple(22)
    if not (isinstance(second, Integer) or is_null) or not (third is None or isinstance(third, (Integer, Text))):
        return one(invalid_type)
    zone = None if third is None else str(third.value) if isinstance(third, Integer) else escaped_text(third.content)
    if zone is None:
        return one(invalid_type if is_null else f"{name} address-and-prefix({address}/{second.value})")
    if is_null:
        return one(f"{name} address-and-zone({address}%{zone})")
    return one(f"{name} address-and-zone-and-prefix({address}%{zone}/{second.value})")


RULES = {
    0: datetime_note,
    1: epoch_datetime_note,
    32: uri_note,
    33: lambda value: base64_note(value, "base64url", URL_SAFE),
    34: lambda value: base64_note(value, "base64", STANDARD),
    37: uuid_note,
    52: lambda value: address_note(value, "IPv4", 4, ipv4_text),
    54: lambda value: address_note(value, "IPv6", 16, ipv6_text),
    100: epoch_date_note,
    260: network_note,
    1004: date_note,
}
