"""Rules that an encoding keeps: RFC 8949, sections 4 and 5.3.1, CTAP 2.1, section 8, the draft of dCBOR, and
docs/RULES.md. `violation` and `violation_in` return the first place that breaks one, and what is wrong there, as a text."""

import struct
import unicodedata
from dataclasses import dataclass, replace

from bytes_form import BREAK, head_at, width_of
from item import DEEPEST, Refused, shortest

WIDTH_NAMES = {0: "Zero", 1: "Eight", 2: "Sixteen", 4: "ThirtyTwo", 8: "SixtyFour"}
FORMATS = {2: ">e", 4: ">f", 8: ">d"}
# of each width of a float: the bits of its fraction
FRACTIONS = {2: 10, 4: 23, 8: 52}
USUAL_NAN = (0x7E00, 2)
KEPT = "kept"


@dataclass(frozen=True)
class Rules:
    """The rules besides the grammar of RFC 8949. The order of keys is one of ORDERS."""

    shortest_heads: bool = False
    shortest_floats: bool = False
    definite_lengths: bool = False
    big_numbers: bool = False
    distinct_keys: bool = False
    nfc: bool = False
    order: str = ""
    no_tags: bool = False
    most_levels: int = DEEPEST
    reduced_floats: bool = False
    few_simples: bool = False


# keys by what is compared of their bytes
ORDERS = {
    "bytes": lambda key: key,
    "length": lambda key: (len(key), key),
    "major_type": lambda key: (key[0] >> 5, len(key), key),
}

PREFERRED = Rules(shortest_heads=True, shortest_floats=True, big_numbers=True)
CORE = replace(PREFERRED, definite_lengths=True, order="bytes")
SETS = {
    "rfc8949": Rules(),
    "valid": Rules(distinct_keys=True),
    "preferred": PREFERRED,
    "core": CORE,
    "length-first": replace(CORE, order="length"),
    "ctap2": replace(CORE, shortest_floats=False, order="major_type", no_tags=True, most_levels=4),
    "dcbor": replace(CORE, reduced_floats=True, few_simples=True, nfc=True),
}


def rules_of(words):
    """The rules of words: of a set by its name, and of single rules, as `shortest_heads` and `keys_by_length`."""
    rules = Rules()
    for word in words.split():
        if word in SETS:
            rules = SETS[word]
        elif word.startswith("keys_by_"):
            rules = replace(rules, order=word.removeprefix("keys_by_"))
        else:
            rules = replace(rules, **{word: True})
    return rules


class Violation(Exception):
    """The first place that breaks a rule, and what is wrong there."""

    def __init__(self, place, words):
        super().__init__(f"{place} {words}")


# ---- floats ----


def shorter_bits(bits, width):
    """The bits of a float in half of its width, or None where that does not have it."""
    narrow = width // 2
    dropped = FRACTIONS[width] - FRACTIONS[narrow]
    if is_nan(bits, width):
        if bits & (1 << dropped) - 1:
            return None
        sign, fraction = bits >> 8 * width - 1, bits & (1 << FRACTIONS[width]) - 1
        ones = (1 << 8 * narrow - 1 - FRACTIONS[narrow]) - 1
        return sign << 8 * narrow - 1 | ones << FRACTIONS[narrow] | fraction >> dropped
    try:
        packed = struct.pack(FORMATS[narrow], float_value(bits, width))
    except OverflowError:
        return None
    found = int.from_bytes(packed, "big")
    return found if float_value(found, narrow) == float_value(bits, width) else None


def float_value(bits, width):
    return struct.unpack(FORMATS[width], bits.to_bytes(width, "big"))[0]


def is_nan(bits, width):
    infinity = (1 << 8 * width - 1) - (1 << FRACTIONS[width])
    return bits & (1 << 8 * width - 1) - 1 > infinity


def shortest_float(bits, width):
    """The bits and the width of a float in the shortest width that has it."""
    while width > 2 and shorter_bits(bits, width) is not None:
        bits, width = shorter_bits(bits, width), width // 2
    return bits, width


def integer_of(bits, width):
    """The integer that a float is where floats are reduced, or None."""
    if is_nan(bits, width):
        return None
    value = float_value(bits, width)
    if value in (float("inf"), float("-inf")) or value != int(value):
        return None
    return int(value) if -(1 << 63) <= int(value) < 1 << 64 else None


# ---- items ----


class Checker:
    """Goes over bytes from the left, up to the first place that breaks a rule."""

    def __init__(self, data, rules):
        self.data, self.rules = data, rules

    def items(self):
        at = 0
        while at < len(self.data):
            at = self.item(at, 1, 0)

    def item(self, at, level, depth):
        """Goes over the item at a place, at a level, in a number of arrays and maps; returns the place after it."""
        if level > DEEPEST:
            raise Violation(at, "NoItem CutShort" if at >= len(self.data) else "NoItem TooDeep")
        major, info, number, after = self.head(at)
        if major == 7:
            self.simple(at, info, number)
            return after
        if major < 2:
            return after
        if major < 4:
            return self.string(at, after, major, number)
        if major == 6:
            return self.tagged(at, after, number, level, depth)
        if depth == self.rules.most_levels:
            raise Violation(at, "TooDeep")
        if major == 4:
            return self.members(after, number, lambda place: self.item(place, level + 1, depth + 1))
        return self.pairs(after, number, lambda place: self.item(place, level + 1, depth + 1))

    def head(self, at):
        """Reads a head, and looks at what is wrong with it alone."""
        try:
            major, info, number, after = head_at(self.data, at)
        except Refused as refused:
            raise Violation(at, f"NoItem {refused.name}") from None
        if major == 6 and self.rules.no_tags:
            raise Violation(at, "Tag")
        if major < 7 and number is None and self.rules.definite_lengths:
            raise Violation(at, "Indefinite")
        if major < 7 and number is not None and self.rules.shortest_heads and width_of(info) > shortest(number):
            raise Violation(at, f"LongHead {number} {WIDTH_NAMES[width_of(info)]}")
        return major, info, number, after

    def simple(self, at, info, number):
        """A simple value or a float."""
        if info == 24 and number < 32:
            raise Violation(at, "LongSimple")
        if info <= 24:
            if self.rules.few_simples and number not in (20, 21, 22):
                raise Violation(at, f"OtherSimple {number}")
            return
        width = width_of(info)
        digits = f"{number:0{2 * width}x}"
        if self.rules.reduced_floats:
            if is_nan(number, width) and (number, width) != USUAL_NAN:
                raise Violation(at, f"OtherNan {digits}")
            integer = integer_of(number, width)
            if integer is not None:
                # the sign is that of the float, so -0.0 has one
                sign = "-" if number >> 8 * width - 1 else ""
                raise Violation(at, f"IntegerFloat {sign}{abs(integer)}")
        bits, least = shortest_float(number, width)
        if self.rules.shortest_floats and least < width:
            raise Violation(at, f"LongFloat {digits} {bits:0{2 * least}x}")

    def string(self, at, after, major, number):
        if number is not None:
            return self.content(at, after, major, number)
        while self.data[after:after + 1] != bytes([BREAK]):
            if after < len(self.data) and (self.data[after] >> 5 != major or self.data[after] & 31 > 27):
                raise Violation(after, "NoItem Head")
            _, _, number, begin = self.head(after)
            after = self.content(after, begin, major, number)
        return after + 1

    def content(self, at, begin, major, number):
        """The content of a string whose head is at a place."""
        content = self.data[begin:begin + number]
        if len(content) < number:
            raise Violation(at, "NoItem CutShort")
        if major == 3:
            try:
                text = content.decode("utf-8")
            except UnicodeDecodeError:
                raise Violation(at, "NoItem Utf8") from None
            if self.rules.nfc and unicodedata.normalize("NFC", text) != text:
                raise Violation(at, "NotNfc")
        return begin + number

    def tagged(self, at, after, number, level, depth):
        if number in (2, 3) and self.rules.big_numbers and level < DEEPEST:
            self.big_number(at, after)
        return self.item(after, level + 1, depth)

    def big_number(self, at, after):
        """Whether the byte string of definite length below a tag 2 or 3, if it is one, is a number as it has to be."""
        if after >= len(self.data) or self.data[after] >> 5 != 2 or self.data[after] == 0x5F:
            return
        _, _, number, begin = self.head(after)
        end = self.content(after, begin, 2, number)
        content = self.data[begin:end]
        if content[:1] == b"\0":
            raise Violation(at, "LeadingZero")
        if len(content) <= 8:
            raise Violation(at, "SmallBigNumber")

    def members(self, at, count, member):
        """Goes over a number of members, or over those before a break."""
        done = 0
        while count is None or done < count:
            if count is None and self.data[at:at + 1] == bytes([BREAK]):
                return at + 1
            at, done = member(at), done + 1
        return at

    def pairs(self, at, count, part):
        first, previous = {}, None

        def pair(place):
            nonlocal previous
            end = part(place)
            key = bytes(self.data[place:end])
            self.key(key, place, previous, first)
            first.setdefault(key, place)
            previous = key, place
            return part(end)

        return self.members(at, count, pair)

    def key(self, key, place, previous, first):
        """Whether a key may come after the one before it; `first` has the places of all keys before it."""
        if self.rules.order and previous:
            order = ORDERS[self.rules.order]
            if order(key) < order(previous[0]):
                raise Violation(place, f"KeyOrder {previous[1]}")
            if key == previous[0]:
                raise Violation(place, f"KeyTwice {previous[1]}")
        if self.rules.distinct_keys and key in first:
            raise Violation(place, f"KeyTwice {first[key]}")


def violation_in(data, rules):
    """The first place that breaks a rule, and what is wrong there; or `kept`."""
    try:
        Checker(data, rules).items()
    except Violation as violation:
        return str(violation)
    return KEPT


def violation(data, rules):
    """The same without the two rules that take memory to check."""
    return violation_in(data, replace(rules, distinct_keys=False, nfc=False))
