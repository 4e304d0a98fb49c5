"""Items that are encoded again, so that they keep rules: docs/RULES.md, "Encoding again", and RFC 8949, section 4.

Items are read with the place of each, changed from the inside out, and written. What no choice of an encoding mends is
looked for before; the two rules that take memory to check are looked at again in what is written. Two keys are one if
their core deterministic encodings are the same bytes, which `violation_of` and `reencode` find.
"""

from bytes_form import BREAK, head, head_at, width_of
from item import OPEN
from rules_form import CORE, KEPT, ORDERS, SETS, USUAL_NAN, Rules, violation_in, integer_of, is_nan, shortest_float


class Unmended(Exception):
    """Two keys, with their places, that are one in what is written."""

    def __init__(self, first, second):
        super().__init__(f"KeyTwice {first} {second}")
        self.first, self.second = first, second


def lasting(rules):
    """The rules that an item keeps in each encoding of it, or in none."""
    return Rules(distinct_keys=rules.distinct_keys, nfc=rules.nfc, no_tags=rules.no_tags,
                 most_levels=rules.most_levels, few_simples=rules.few_simples)


def fixes_keys(rules):
    """Whether keys that are one by CORE have the same encoding by these rules, and two such keys none."""
    return (rules.shortest_heads and rules.shortest_floats and rules.definite_lengths and rules.big_numbers
            and rules.order != "")


def written(data, rules):
    """The items of bytes, encoded again; `Unmended` where keys have an order and two of them become one."""
    writer = Writer(data, rules)
    out, at = b"", 0
    while at < len(data):
        part, at = writer.item(at)
        out += part
    return out


def reencode(data, rules):
    """The hex of bytes that keep the rules, or why there are none."""
    found = violation_in(data, lasting(rules))
    if found != KEPT:
        return f"Violation {found}"
    try:
        if not fixes_keys(rules):
            written(data, CORE)
        again = written(data, rules)
    except Unmended as unmended:
        return str(unmended)
    found = violation_in(again, Rules(distinct_keys=rules.distinct_keys, nfc=rules.nfc))
    return again.hex() if found == KEPT else f"Written {found}"


def violation_of(data, rules):
    """As `violation_in`; and where no key may stand twice, the second of two keys that are one, as `KeyTwice` has them."""
    found = violation_in(data, rules)
    if found != KEPT or not rules.distinct_keys:
        return found
    try:
        written(data, CORE)
    except Unmended as unmended:
        return f"{unmended.second} KeyTwice {unmended.first}"
    return KEPT


def violations(data):
    """A line for each set of rules that is broken."""
    found = [(name, violation_of(data, rules)) for name, rules in SETS.items()]
    return "\n".join(f"{name} {words}" for name, words in found if words != KEPT) or KEPT


class Writer:
    """Writes the items of bytes again. Each method returns what is written, and the place after what was read."""

    def __init__(self, data, rules):
        self.data, self.rules = data, rules

    def head(self, major, number, width):
        """A head; none but the shortest where the rules ask for that."""
        return head(major, number, OPEN if self.rules.shortest_heads else width)

    def breaks(self, at):
        return self.data[at] == BREAK

    def item(self, at):
        major, info, number, after = head_at(self.data, at)
        width = None if number is None else width_of(info)
        if major < 2:
            return self.head(major, number, width), after
        if major < 4:
            return self.string(major, number, width, after)
        if major < 6:
            return (self.array if major == 4 else self.map)(number, width, after)
        if major == 6:
            return self.tagged(number, width, after)
        if info <= 24:
            return self.data[at:after], after
        return self.float(number, width), after

    def string(self, major, number, width, at):
        if number is not None:
            return self.head(major, number, width) + self.data[at:at + number], at + number
        chunks, joined = b"", b""
        while not self.breaks(at):
            _, info, number, begin = head_at(self.data, at)
            at = begin + number
            joined += self.data[begin:at]
            chunks += self.head(major, number, width_of(info)) + self.data[begin:at]
        if self.rules.definite_lengths:
            return head(major, len(joined), OPEN) + joined, at + 1
        return bytes([major << 5 | 31]) + chunks + bytes([BREAK]), at + 1

    def members(self, number, at, size):
        """The members of a container, each as a list of its written parts and where it began; and the place after."""
        found = []
        while len(found) != number:
            if number is None and self.breaks(at):
                return found, at + 1
            place, parts = at, []
            for _ in range(size):
                part, at = self.item(at)
                parts.append(part)
            found.append((parts, place))
        return found, at

    def container(self, major, width, members):
        content = b"".join(part for parts, _ in members for part in parts)
        if width is not None:
            return self.head(major, len(members), width) + content
        if self.rules.definite_lengths:
            return head(major, len(members), OPEN) + content
        return bytes([major << 5 | 31]) + content + bytes([BREAK])

    def array(self, number, width, at):
        members, at = self.members(number, at, 1)
        return self.container(4, width, members), at

    def map(self, number, width, at):
        pairs, at = self.members(number, at, 2)
        if self.rules.order:
            order = ORDERS[self.rules.order]
            # sorting is stable, so of equal keys the first comes first
            pairs.sort(key=lambda pair: order(pair[0][0]))
            for (first, place), (second, later) in zip(pairs, pairs[1:]):
                if first[0] == second[0]:
                    raise Unmended(place, later)
        return self.container(5, width, pairs), at

    def tagged(self, number, width, at):
        value, end = self.item(at)
        if self.rules.big_numbers and number in (2, 3) and value[0] >> 5 == 2 and value[0] != 0x5F:
            return self.big_number(number, width, value), end
        return self.head(6, number, width) + value, end

    def big_number(self, tag, width, value):
        """A big number, or the integer that it is."""
        _, info, _, begin = head_at(value, 0)
        content = value[begin:].lstrip(b"\0")
        if len(content) <= 8:
            return head(tag - 2, int.from_bytes(content, "big"), OPEN)
        return self.head(6, tag, width) + self.head(2, len(content), width_of(info)) + content

    def float(self, bits, width):
        if self.rules.reduced_floats:
            integer = integer_of(bits, width)
            if integer is not None:
                return head(0, integer, OPEN) if integer >= 0 else head(1, -1 - integer, OPEN)
            if is_nan(bits, width):
                bits, width = USUAL_NAN
        if self.rules.shortest_floats:
            bits, width = shortest_float(bits, width)
        return bytes([0xF9 + (2, 4, 8).index(width)]) + bits.to_bytes(width, "big")
