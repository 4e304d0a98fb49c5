"""Items written in diagnostic notation, compact and pretty, and the normal form that is read back."""

import base64
from dataclasses import replace

from bytes_form import parse_bytes, sequence, to_bytes
from item import (
    OPEN, Array, Bytes, Float, IndefiniteBytes, IndefiniteText, Integer, Map, Negative, Refused,
    Simple, Tagged, Text, utf8,
)

NAMES = {20: "false", 21: "true", 22: "null", 23: "undefined"}
INDICATORS = {1: "_0", 2: "_1", 4: "_2", 8: "_3"}
# below these tags byte strings are written so, until another of them
ENCODINGS = {21: "base64url", 22: "base64", 23: "base16"}
ONE_LINE = 60


def embedded(level, data):
    """The item that the bytes below a tag 24 are, the tag standing at a level; or None."""
    try:
        return parse_bytes(data, level + 2)
    except Refused:
        return None


def number_text(value, width):
    return str(value) + INDICATORS.get(width, "")


def bytes_text(content, encoding):
    if encoding == "base64url":
        return "b64'" + base64.urlsafe_b64encode(content).decode().rstrip("=") + "'"
    if encoding == "base64":
        return "b64'" + base64.b64encode(content).decode() + "'"
    return "h'" + content.hex() + "'"


def text_text(content):
    return '"' + content.replace("\\", "\\\\").replace('"', '\\"') + '"'


def estimate(item):
    """How long a line of an item may be, by a rule of its own."""
    if isinstance(item, Integer):
        return len(str(item.value)) + 2
    if isinstance(item, Negative):
        return len(str(item.value)) + 3
    if isinstance(item, Simple):
        return len(str(item.value)) + 8
    if isinstance(item, Bytes):
        return 2 * len(item.content) + 4
    if isinstance(item, Text):
        return len(utf8(item.content)) + 2
    if isinstance(item, Float):
        return {2: 11, 4: 15, 8: 23, OPEN: 23}[item.width]
    if isinstance(item, Tagged):
        return len(str(item.number)) + 2 + estimate(item.value)
    if isinstance(item, Array):
        return 4 + sum(estimate(member) + 2 for member in item.members)
    if isinstance(item, Map):
        return 4 + sum(estimate(key) + estimate(value) + 2 for key, value in item.pairs)
    return 4 + sum(estimate(chunk) + 2 for chunk in item.chunks)


class Printer:
    def __init__(self, pretty):
        self.pretty = pretty

    def listed(self, opening, members, closing, indefinite, one_line, indent):
        """Members, each a function from its indent to its text, between an opening and a closing."""
        opening += "_" if indefinite else ""
        if not self.pretty:
            return opening + ",".join(member(indent) for member in members) + closing
        if one_line:
            gap = " " if indefinite else ""
            return opening + gap + ", ".join(member(indent) for member in members) + closing
        deeper = indent + 4
        lines = ["\n" + " " * deeper + member(deeper) + "," for member in members]
        return opening + "".join(lines) + "\n" + " " * indent + closing

    def item(self, item, encoding, level, indent):
        """The text of an item at a level, its first line at an indent."""
        if isinstance(item, Integer):
            return number_text(item.value, item.width)
        if isinstance(item, Negative):
            return "-" + number_text(item.value + 1, item.width)
        if isinstance(item, Simple):
            return NAMES.get(item.value, f"simple({item.value})")
        if isinstance(item, Float):
            width = 8 if item.width == OPEN else item.width
            return f"float'{item.bits:0{2 * width}x}'"
        if isinstance(item, Bytes):
            return bytes_text(item.content, encoding)
        if isinstance(item, Text):
            return text_text(item.content)
        if isinstance(item, Tagged):
            value = self.tagged(item, ENCODINGS.get(item.number, encoding), level, indent)
            return number_text(item.number, item.width) + "(" + value + ")"
        return self.container(item, encoding, level, indent)

    def container(self, item, encoding, level, indent):
        one_line = estimate(item) < ONE_LINE

        def part(value):
            return lambda indent: self.item(value, encoding, level + 1, indent)

        def pair(key, value):
            colon = ": " if self.pretty else ":"
            return lambda indent: part(key)(indent) + colon + part(value)(indent)

        if isinstance(item, Array):
            members = [part(member) for member in item.members]
            return self.listed("[", members, "]", item.width is None, one_line, indent)
        if isinstance(item, Map):
            members = [pair(key, value) for key, value in item.pairs]
            return self.listed("{", members, "}", item.width is None, one_line, indent)
        if not item.chunks:
            return "''_" if isinstance(item, IndefiniteBytes) else '""_'
        members = [part(chunk) for chunk in item.chunks]
        return self.listed("(", members, ")", True, one_line, indent)

    def tagged(self, item, encoding, level, indent):
        """The text of the value of a tag at a level."""
        value = item.value
        if isinstance(value, Bytes) and item.number == 24:
            inner = embedded(level, value.content)
            if not value.content:
                return "<<>>"
            if inner is not None:
                return "<<" + self.item(inner, encoding, level + 2, indent) + ">>"
        if isinstance(value, Bytes) and item.number == 63:
            items, rest = sequence(value.content, level + 2)
            members = [lambda indent, inner=inner: self.item(inner, encoding, level + 2, indent) for inner in items]
            one_line = estimate(Array(items, OPEN)) < ONE_LINE
            text = self.listed("<<", members, ">>", False, one_line, indent)
            if rest:
                text += (" " if self.pretty else "") + bytes_text(rest, encoding)
            return text
        return self.item(value, encoding, level + 1, indent)


def to_diag(item):
    return Printer(False).item(item, "base16", 1, 0)


def to_diag_pretty(item):
    return Printer(True).item(item, "base16", 1, 0)


def normal(item, level=1):
    """What the text of an item is read back as: the item without what texts don't say."""
    if isinstance(item, (Integer, Negative)):
        return replace(item, width=0) if item.width == OPEN and item.value < 24 else item
    if isinstance(item, (Bytes, Text)):
        return replace(item, width=OPEN)
    if isinstance(item, (IndefiniteBytes, IndefiniteText)):
        return replace(item, chunks=tuple(normal(chunk, level) for chunk in item.chunks))
    if isinstance(item, Array):
        members = tuple(normal(member, level + 1) for member in item.members)
        return Array(members, None if item.width is None else OPEN)
    if isinstance(item, Map):
        pairs = tuple((normal(key, level + 1), normal(value, level + 1)) for key, value in item.pairs)
        return Map(pairs, None if item.width is None else OPEN)
    if isinstance(item, Tagged):
        width = 0 if item.width == OPEN and item.number < 24 else item.width
        return Tagged(item.number, width, normal(normal_content(item, level), level + 1))
    if isinstance(item, Float):
        return replace(item, width=8) if item.width == OPEN else item
    return item


def normal_content(tagged, level):
    """The value of a tag, with the items that its bytes show in their normal form."""
    value = tagged.value
    if not isinstance(value, Bytes):
        return value
    if tagged.number == 24 and embedded(level, value.content) is not None:
        inner = embedded(level, value.content)
        return replace(value, content=to_bytes(normal(inner, level + 2)))
    if tagged.number == 63:
        items, rest = sequence(value.content, level + 2)
        content = b"".join(to_bytes(normal(inner, level + 2)) for inner in items) + rest
        return replace(value, content=content)
    return value
