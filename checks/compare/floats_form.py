"""Floats of 16, 32 and 64 bits, their numbers in decimal, and their shorter widths: IEEE 754, and docs/EDN.md."""

import re
import struct
from fractions import Fraction

from bytes_form import head_at
from edn_numbers import DECIMAL, FORMATS, USUAL, decimal, nearest, usual
from edn_text import Writer
from item import Refused
from rules_form import is_nan, shorter_bits, shortest_float

QUIET = {2: 0x7E00, 4: 0x7FC00000, 8: 0x7FF8 << 48}


def encoded(bits, width):
    """The bytes of a float in hex."""
    return f"{0xF8 + width.bit_length() - 1:02x}{bits:0{2 * width}x}"


def float_of(data):
    """The bits and the width of a float."""
    _, info, bits, _ = head_at(data, 0)
    return bits, 1 << info - 24


def double_of(data):
    """The bits of the number of a float as a double; NaN has its usual bits."""
    bits, width = float_of(data)
    if is_nan(bits, width):
        return QUIET[8]
    value = struct.unpack(FORMATS[width], bits.to_bytes(width, "big"))[0]
    return int.from_bytes(struct.pack(">d", value), "big")


def parsed(text, width):
    """The bytes of a decimal text in a width, or in the shortest one if none is asked for; or what is wrong."""
    word = text.encode()
    if word in USUAL:
        return usual(word, width).hex()
    if not DECIMAL.fullmatch(word) or not re.search(r"[.eE]", text):
        return "NoNumber"
    try:
        decimal(word, None)
    except Refused:
        return "TooLarge"
    try:
        return decimal(word, width).hex()
    except Refused:
        return "NoHalf" if width == 2 else "TooLarge"


def nearest_half(text):
    """The half that is nearest to the double of a decimal text, or an infinity."""
    double = parsed(text, 8)
    if not double.startswith("fb"):
        return double
    bits, _ = float_of(bytes.fromhex(double))
    if is_nan(bits, 8):
        return encoded(QUIET[2], 2)
    value = struct.unpack(">d", bits.to_bytes(8, "big"))[0]
    sign = bits >> 63 << 15
    try:
        return encoded(sign | nearest(Fraction(abs(value)), 2), 2)
    except (OverflowError, Refused):
        return encoded(sign | 0x7C00, 2)


def number_text(data):
    """The shortest digits of a float, or its word."""
    return Writer().float(double_of(data), 8).partition("_")[0]


def in_doubles(data):
    return encoded(double_of(data), 8)


def widened(data):
    """The float in 64 bits, with all bits of a NaN: what is shortened to it."""
    bits, width = float_of(data)
    while width < 8:
        bits, width = wider_bits(bits, width), 2 * width
    return encoded(bits, width)


def wider_bits(bits, width):
    """The bits of a float in twice its width."""
    if not is_nan(bits, width):
        value = struct.unpack(FORMATS[width], bits.to_bytes(width, "big"))[0]
        return int.from_bytes(struct.pack(FORMATS[2 * width], value), "big")
    digits, more = {2: (10, 23), 4: (23, 52)}[width]
    sign, payload = bits >> 8 * width - 1, bits & (1 << digits) - 1
    ones = (1 << 16 * width - 1 - more) - 1
    return sign << 16 * width - 1 | ones << more | payload << more - digits


def shorter(data):
    """The float in the shortest width that has its bits, if that is a shorter one."""
    bits, width = float_of(data)
    if width == 2 or shorter_bits(bits, width) is None:
        return "none"
    return encoded(*shortest_float(bits, width))


def shortest(data):
    """The number of a float in the shortest width."""
    return encoded(*shortest_float(double_of(data), 8))


def is_usual(data):
    bits, width = float_of(data)
    return "true" if not is_nan(bits, width) or bits == QUIET[width] else "false"


def is_shortest(data):
    bits, width = float_of(data)
    return "true" if encoded(bits, width) == shortest(data) else "false"
