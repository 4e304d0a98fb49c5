"""The fields of an item as a text, as the rows of the vectors have it."""

import unicodedata

from item import (
    OPEN, Array, Bytes, Float, IndefiniteBytes, IndefiniteText, Integer, Map, Negative, Simple, Tagged, Text,
)
from notes import ESCAPED

WIDTHS = {OPEN: "Unknown", 0: "Zero", 1: "Eight", 2: "Sixteen", 4: "ThirtyTwo", 8: "SixtyFour"}


def fields(item):
    if isinstance(item, (Integer, Negative)):
        return f"{type(item).__name__} {{ value: {item.value}, bitwidth: {WIDTHS[item.width]} }}"
    if isinstance(item, Bytes):
        return f"ByteString({string(item)})"
    if isinstance(item, Text):
        return f"TextString({string(item)})"
    if isinstance(item, IndefiniteBytes):
        return f"IndefiniteByteString([{', '.join(map(string, item.chunks))}])"
    if isinstance(item, IndefiniteText):
        return f"IndefiniteTextString([{', '.join(map(string, item.chunks))}])"
    if isinstance(item, Array):
        return f"Array {{ content: [{', '.join(map(fields, item.members))}], bitwidth: {count(item.width)} }}"
    if isinstance(item, Map):
        pairs = ", ".join(f"({fields(key)}, {fields(value)})" for key, value in item.pairs)
        return f"Map {{ content: [{pairs}], bitwidth: {count(item.width)} }}"
    if isinstance(item, Tagged):
        return f"Tag {{ tag: Tag({item.number}), bitwidth: {WIDTHS[item.width]}, value: {fields(item.value)} }}"
    if isinstance(item, Float):
        # a float that states no width has 64 bits
        return f"Float {{ bits: {item.bits}, bitwidth: {WIDTHS[item.width]} }}"
    assert isinstance(item, Simple)
    return f"Simple(Simple({item.value}))"


def string(item):
    if isinstance(item, Bytes):
        return f"ByteString {{ content: [{', '.join(map(str, item.content))}], bitwidth: {WIDTHS[item.width]} }}"
    content = "".join(escaped(one) for one in item.content)
    return f'TextString {{ content: "{content}", bitwidth: {WIDTHS[item.width]} }}'


def escaped(character):
    """A character as Rust shows it: marks that join the one before them are escaped, too."""
    if character in ESCAPED:
        return ESCAPED[character]
    if character in '"\\\0':
        return "\\" + character.replace("\0", "0")
    hidden = unicodedata.category(character) in ("Cc", "Cf", "Mn", "Me", "Zl", "Zp", "Zs", "Cn", "Co", "Cs")
    return f"\\u{{{ord(character):x}}}" if hidden and character != " " else character


def count(width):
    return "None" if width is None else f"Some({WIDTHS[width]})"
