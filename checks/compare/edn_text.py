"""Items written in EDN, so that the same bytes are read back: docs/EDN.md."""

import math

from edn_numbers import FORMATS, nearest_or_none, value_of
from fractions import Fraction
from inside import items_in
from item import (
    Array, Bytes, Float, IndefiniteBytes, IndefiniteText, Integer, Map, Negative, Simple, Tagged, Text,
    shortest, utf8,
)

INDICATORS = {0: "_i", 1: "_0", 2: "_1", 4: "_2", 8: "_3"}
NAMES = {20: "false", 21: "true", 22: "null", 23: "undefined"}
ESCAPED = {"\b": "\\b", "\f": "\\f", "\n": "\\n", "\r": "\\r", "\t": "\\t", '"': '\\"', "\\": "\\\\"}
HIDDEN = {
    *range(0x20), *range(0x7F, 0xA0), 0x61C, 0x200E, 0x200F, 0x2028, 0x2029, *range(0x202A, 0x202F),
    *range(0x2066, 0x206A), 0xFEFF,
}
# the columns that a line may have after its indentation, however far that is
LEAST = 20


class Writer:
    """What is written beside the items: every width, and byte strings as the items that they are. With columns, lines
    are broken, without notes."""

    def __init__(self, widths=False, embedded=False, columns=None):
        self.widths, self.embedded, self.columns = widths, embedded, columns
        # the blanks that the line begins with, the characters of the line before what comes now, and those after it
        self.indent, self.column, self.after = 0, 0, 0

    def outermost(self, item):
        """An item that is in no other, at the start of a line."""
        self.indent, self.column, self.after = 0, 0, 0
        return self.item(item)

    def wrote(self, text):
        """This text is before what comes next."""
        _, feed, line = text.rpartition("\n")
        self.column = len(line) if feed else self.column + len(line)

    def laid_out(self, opening, mark, members, closing):
        """Members, each a function to its text, after a mark: on one line if that fits into the columns."""
        line = self.on_one_line(opening + mark + (mark and " "), members, closing)
        if line is not None:
            return line
        kept, self.after = self.after, 1
        self.indent += 4
        lines = [self.on_line(member) for member in members]
        self.indent -= 4
        self.after = kept
        return opening + mark + "".join(lines) + "\n" + " " * self.indent + closing

    def on_line(self, member):
        self.column = self.indent
        return "\n" + " " * self.indent + member() + ","

    def on_one_line(self, opening, members, closing):
        """The text on one line, or None if that has too many columns. Then nothing was written."""
        kept, columns = vars(self).copy(), self.columns
        self.columns = None
        text = opening + ", ".join(member() for member in members) + closing
        self.columns = columns
        most = columns is None or max(columns, kept["indent"] + LEAST)
        if columns is None or not members or kept["column"] + len(text) + kept["after"] <= most:
            return text
        vars(self).update(kept)
        return None

    def number(self, value, number, width):
        shown = self.widths and shortest(number) > 0
        return str(value) + (INDICATORS[width] if shown else longer(number, width))

    def float(self, bits, width):
        negative, size = bits >> 8 * width - 1, bits & (1 << 8 * width - 1) - 1
        infinity = (2 ** (8 * width - 1 - {2: 10, 4: 23, 8: 52}[width]) - 1) << {2: 10, 4: 23, 8: 52}[width]
        if size >= infinity:
            return self.unusual(bits, width, size == infinity, negative)
        value = value_of(size, width)
        least = next(other for other in FORMATS if keeps(value, other))
        text = ("-" if negative else "") + decimal_text(value)
        return text + (INDICATORS[width] if width > least or self.widths else "")

    def unusual(self, bits, width, infinite, negative):
        """NaN and the infinities, by their words if these have the bits."""
        quiet = {2: 0x7E00, 4: 0x7FC00000, 8: 0x7FF8 << 48}[width]
        if not infinite and bits != quiet:
            return f"float'{bits:0{2 * width}x}'"
        word = ("-Infinity" if negative else "Infinity") if infinite else "NaN"
        return word + (INDICATORS[width] if width > 2 or self.widths else "")

    def bytes(self, item, level, tag):
        """A byte string right below a tag, or below none."""
        found = self.items_in(item.content, level, tag)
        text = "h'" + item.content.hex() + "'"
        mark = longer(len(item.content), item.width)
        if found is not None:
            return self.items(found, level, tag, mark)
        return text + mark

    def items(self, found, level, tag, mark):
        """Items between `<<` and `>>`. One alone is not on a line of its own, but below tag 63."""
        if tag != 63:
            return self.around("<<", ">>" + mark, lambda: self.item(found[0], level + 1))
        members = [lambda inner=inner: self.item(inner, level + 1) for inner in found]
        return self.laid_out("<<", "", members, ">>" + mark)

    def around(self, opening, closing, inner):
        """An item, a function to its text, with what is before and after it on its line."""
        self.wrote(opening)
        self.after += len(closing)
        text = opening + inner() + closing
        self.after -= len(closing)
        return text

    def items_in(self, content, level, tag):
        """The items that are written between `<<` and `>>`, if these give the same bytes."""
        return items_in(content, level, tag, self.embedded)

    def text(self, item):
        content = "".join(ESCAPED.get(one) or (f"\\u{ord(one):04x}" if ord(one) in HIDDEN else one)
                          for one in item.content)
        return f'"{content}"' + longer(len(utf8(item.content)), item.width)

    def listed(self, item, brackets, members):
        mark = "_" if item.width is None else longer(len(members), item.width)
        return self.laid_out(brackets[0], mark, members, brackets[1])

    def chunks(self, item):
        if not item.chunks:
            return "''_" if isinstance(item, IndefiniteBytes) else '""_'
        chunks = [lambda chunk=chunk: self.chunk(chunk) for chunk in item.chunks]
        return self.laid_out("(", "_", chunks, ")")

    def chunk(self, item):
        if isinstance(item, Text):
            return self.text(item)
        return "h'" + item.content.hex() + "'" + longer(len(item.content), item.width)

    def item(self, item, level=1, tag=None):
        if isinstance(item, Integer):
            return self.number(item.value, item.value, item.width)
        if isinstance(item, Negative):
            return self.number(-1 - item.value, item.value, item.width)
        if isinstance(item, Float):
            return self.float(item.bits, item.width)
        if isinstance(item, Simple):
            return NAMES.get(item.value, f"simple({item.value})")
        if isinstance(item, Bytes):
            return self.bytes(item, level, tag)
        if isinstance(item, Text):
            return self.text(item)
        if isinstance(item, (IndefiniteBytes, IndefiniteText)):
            return self.chunks(item)
        if isinstance(item, Tagged):
            number = self.number(item.number, item.number, item.width)
            return self.around(number + "(", ")", lambda: self.item(item.value, level + 1, item.number))
        if isinstance(item, Array):
            members = [lambda member=member: self.item(member, level + 1) for member in item.members]
            return self.listed(item, "[]", members)
        pairs = [lambda pair=pair: self.pair(*pair, level + 1) for pair in item.pairs]
        return self.listed(item, "{}", pairs)

    def pair(self, key, value, level):
        begun = self.column
        text = self.item(key, level) + ": "
        self.column = begun
        self.wrote(text)
        return text + self.item(value, level)


def longer(number, width):
    """The indicator of a head that is longer than it has to be."""
    return INDICATORS[width] if width > shortest(number) else ""


def keeps(value, width):
    bits = nearest_or_none(Fraction(value), width)
    return bits is not None and value_of(bits, width) == value


def element_text(kind, content):
    """An element of a typed array, whose highest byte comes first."""
    if kind != "float":
        return str(int.from_bytes(content, "big", signed=kind == "signed"))
    value = value_of(int.from_bytes(content, "big"), len(content))
    if value != value:
        return "NaN"
    sign = "-" if math.copysign(1, value) < 0 else ""
    return sign + ("Infinity" if math.isinf(value) else decimal_text(abs(value)))


def decimal_text(value):
    """The shortest digits of a double, which is not negative, with a point or an exponent."""
    digits, _, exponent = repr(value).partition("e")
    if not exponent:
        return digits
    if exponent == "-05":
        return "0.0000" + digits.replace(".", "")
    return f"{digits}e{int(exponent)}"
