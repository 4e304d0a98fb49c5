"""Whether an item fits a type of CDDL: RFC 8610, section 3; and which misfit is blamed: docs/CDDL.md.

A type fits or not. A group takes members or pairs, refuses, or cuts: then its sequence ends, and so does what it is in,
up to the next alternative.
"""

import operator
import re
import struct
from dataclasses import dataclass, field

import cddl_load
from cddl_item import Item
from cddl_text import MANY, Choice, Control, Name, Range, Tag, Value

TAKES, REFUSES, CUTS = "takes", "refuses", "cuts"
KINDS = ("int", "int", "bytes", "text", "array", "map", "tag", "simple")
ORDERS = {"lt": operator.lt, "le": operator.le, "gt": operator.gt, "ge": operator.ge}
FLOATS = {25: "e", 26: "f", 27: "d"}


@dataclass
class Misfit:
    """What was wanted at a place, after so many bytes had matched. The name and the line are those of what is named."""

    reach: int
    place: int
    path: tuple
    name: str
    line: int
    found: str
    wants: list = field(default_factory=list)
    # how many alternatives came less far, of which name, in which line
    others: tuple = ()

    def add(self, other):
        """The misfit that is blamed, of two."""
        if other is None or other.reach < self.reach:
            return self
        if (other.reach, other.place) == (self.reach, self.place):
            self.wants += [want for want in other.wants if want not in self.wants]
            return self
        return other if other.reach > self.reach or other.place > self.place else self


@dataclass
class Inside:
    """The array or the map whose members or pairs a group takes, and the bytes that matched before it."""

    item: object
    reach: int
    total: int

    def reached(self, rest):
        """The bytes that have matched when these are left."""
        left = sum(part.end - part.start for one in rest for part in (one if isinstance(one, tuple) else (one,)))
        return self.reach + self.item.inside - self.item.start + self.total - left


class Matcher:
    def __init__(self, schema):
        self.schema, self.best, self.names = schema, None, [("", 0)]
        # how many tries are under way whose misfits are not blamed
        self.muted = 0

    def misfit(self, item):
        """The misfit of an item, or None."""
        if second := item.second_key():
            self.note(0, second, "each key once", f"the key {second.shown()} for the second time")
            return self.best
        if self.fits(self.schema.root, item, 0):
            return None
        assert self.best, "a misfit that nobody noted"
        return self.best

    def note(self, reach, item, want, found=None):
        """Notes what was wanted at an item."""
        if self.muted:
            return
        name, line = self.names[-1]
        one = Misfit(reach, item.place(), item.path, name, line, found or item.shown(), [want])
        self.best = self.best.add(one) if self.best else one

    def wanted(self, node):
        return " ".join(self.schema.text[slice(*node.span)].split())

    def fits(self, node, item, reach):
        """Whether an item fits a type. If it does, no misfit in it is blamed."""
        before = self.best
        fits = getattr(self, "fits_" + type(node).__name__.lower())(node, item, reach)
        if fits:
            self.best = before
        return fits

    def quietly(self, function):
        self.muted += 1
        found = function()
        self.muted -= 1
        return found

    def is_fit(self, node, item):
        """Whether an item fits, where nobody is to be told why not."""
        return self.quietly(lambda: self.fits(node, item, 0))

    def leaf(self, fits, node, item, reach):
        if not fits:
            self.note(reach, item, self.wanted(node))
        return fits

    def fits_value(self, node, item, reach):
        fits = item.kind == node.kind and item.value == node.value
        if not fits:
            self.note(reach, item, literal_text(node))
        return fits

    def fits_name(self, node, item, reach):
        definition, body = self.schema.definition(node), self.schema.body(node)
        if definition is None:
            return self.leaf(self.fits(body, item, reach), node, item, reach)
        if definition.is_prelude:
            return self.fits_prelude(node, body, item, reach)
        self.names.append((node.name, self.schema.line(definition.at)))
        fits = self.fits(body, item, reach)
        self.names.pop()
        return fits

    def fits_prelude(self, node, body, item, reach):
        """A name of the prelude is what is wanted, but for the content of its tag."""
        if isinstance(body, Tag) and item.kind == "tag" and item.value == body.number:
            return self.fits(body, item, reach)
        fits = self.is_fit(body, item)
        if not fits:
            self.note(reach, item, node.name)
        return fits

    def fits_choice(self, node, item, reach):
        before, tried = self.best, []
        for one in node.types:
            self.best = None
            if self.fits(one, item, reach):
                return True
            tried.append(self.best)
        self.best = self.furthest(before, tried)
        return False

    def furthest(self, before, tried):
        """The misfit of alternatives that came furthest, which says how many came less far."""
        tried = [one for one in tried if one]
        if not tried:
            return before
        best = tried[0]
        for one in tried[1:]:
            best = best.add(one)
        tied = {(one.name, one.line) for one in tried if (one.reach, one.place) == (best.reach, best.place)}
        if len(tied) > 1:
            best.name, best.line = self.names[-1]
        less = sum(one.reach < best.reach for one in tried)
        if less:
            best.others = (less, *self.names[-1])
        return before.add(best) if before else best

    def fits_major(self, node, item, _):
        if node.major is None:
            return True
        if node.major == 7 and node.number in FLOATS:
            fits = item.kind == "float" and keeps(item.value, FLOATS[node.number])
        else:
            fits = item.kind == KINDS[node.major] or node.major == 7 and item.kind == "float" and node.number is None
            fits = fits and (node.major > 1 or (item.value < 0) == (node.major == 1))
            fits = fits and (node.number is None or self.has_number(node.number, argument(item)))
        return self.leaf(fits, node, item, _)

    def has_number(self, number, found):
        """Whether the argument of a head is that number, or fits that type."""
        return found == number if isinstance(number, int) else self.is_fit(number, whole(found))

    def fits_tag(self, node, item, reach):
        if item.kind != "tag" or node.number is not None and not self.has_number(node.number, item.value):
            self.note(reach, item, f"tag {node.number}" if isinstance(node.number, int) else "a tag")
            return False
        return self.fits(node.content, item.parts[0], reach + item.inside - item.start)

    def fits_range(self, node, item, reach):
        low, high = self.schema.literal(node.low), self.schema.literal(node.high)
        fits = item.kind == low.kind and low.value <= item.value
        fits = fits and (item.value < high.value or node.has_high and item.value == high.value)
        return self.leaf(fits, node, item, reach)

    def fits_unwrap(self, node, item, reach):
        body = node.name
        while isinstance(body, Name):
            body = self.schema.body(body)
        return self.fits(body.content if isinstance(body, Tag) else body, item, reach)

    def fits_enum(self, node, item, reach):
        group = self.schema.group_of(node.group)
        return self.fits(Choice(tuple(self.enumerated(group))), item, reach)

    def enumerated(self, group):
        """The types of the entries of a group."""
        for alternative in group.alternatives:
            for entry in alternative:
                inner = self.schema.group_of(entry.value) if entry.key is None else None
                yield from self.enumerated(inner) if inner else [entry.value]

    def fits_control(self, node, item, reach):
        if node.name in cddl_load.COMPUTED:
            return self.fits(self.schema.literal(node), item, reach)
        if node.name in ("default", "feature"):
            return self.fits(node.target, item, reach)
        if node.name in ("and", "within"):
            return self.fits(node.target, item, reach) and self.fits(node.controller, item, reach)
        if not self.is_fit(node.target, item):
            return self.leaf(False, node, item, reach)
        if node.name in ("cbor", "cborseq"):
            return self.fits_inside(node, item, reach)
        found = getattr(self, "control_" + node.name, self.compared)(node, item)
        if found is not None:
            self.note(reach, item, self.wanted(node), found)
        return found is None

    def fits_inside(self, node, item, reach):
        """Whether the items in a byte string fit."""
        items = item.items_in()
        inner = reach + (item.inside or item.start) - item.start
        if items is None or node.name == "cbor" and len(items) != 1:
            self.note(inner, item, self.wanted(node), "bytes that are no CBOR")
            return False
        for second in filter(None, (one.second_key() for one in items)):
            self.note(inner, second, "each key once", f"the key {second.shown()} for the second time")
            return False
        if node.name == "cbor":
            return self.fits(node.controller, items[0], inner)
        return self.fits(node.controller, type(item)("array", item.start, item.path, parts=tuple(items),
                                                     inside=item.inside or item.start, end=item.end, data=item.data,
                                                     around=item.around), reach)

    def control_size(self, node, item):
        """None if the size fits; otherwise what was found."""
        if item.kind == "int":
            sizes = {*range(9), *self.ends_in(node.controller)}
            enough = (size for size in sizes if size >= 0 and item.value < 256 ** min(size, 8))
            fits = any(self.is_fit(node.controller, whole(size)) for size in enough)
            return None if fits else item.shown()
        content = item.value.encode() if item.kind == "text" else item.value
        if self.is_fit(node.controller, whole(len(content))):
            return None
        return f"{item.shown()} of {len(content)} byte" + "s" * (len(content) != 1)

    def ends_in(self, node):
        """The numbers at the ends of the ranges of a type: if a number fits it, one up to 8 does, or one of these."""
        if isinstance(node, Name):
            return self.ends_in(self.schema.body(node))
        if isinstance(node, Choice):
            return [end for one in node.types for end in self.ends_in(one)]
        if isinstance(node, Range):
            last = self.schema.literal(node.high).value
            return [last if node.has_high else last - 1]
        if isinstance(node, Control) and node.name in ORDERS:
            return [*self.ends_in(node.target), *(self.schema.literal(node.controller).value + at for at in (-1, 0, 1))]
        literal = self.schema.literal(node)
        return [literal.value] if literal and literal.kind == "int" else []

    def control_bits(self, node, item):
        """None if all bits that are set are allowed; otherwise the first that is not."""
        number = item.value if item.kind == "int" else int.from_bytes(item.value, "little")
        wrong = (bit for bit in range(number.bit_length()) if number >> bit & 1)
        found = next((bit for bit in wrong if not self.is_fit(node.controller, whole(bit))), None)
        return None if found is None else f"bit {found} of {item.shown()}"

    def control_regexp(self, node, item):
        pattern = self.schema.literal(node.controller).value
        return None if re.fullmatch(pattern, item.value) else item.shown()

    def control_pcre(self, node, item):
        pattern = self.schema.literal(node.controller).value
        return None if re.search(pattern, item.value) else item.shown()

    def compared(self, node, item):
        """`.eq`, `.ne`, and orders of numbers."""
        if node.name == "eq":
            return None if self.is_fit(node.controller, item) else item.shown()
        if node.name == "ne":
            return None if not self.is_fit(node.controller, item) else item.shown()
        if ORDERS[node.name](item.value, self.schema.literal(node.controller).value):
            return None
        return "" if self.muted else item.shown()

    def fits_array(self, node, item, reach):
        if item.kind != "array":
            self.note(reach, item, "an array")
            return False
        inside = Inside(item, reach, sum(part.end - part.start for part in item.parts))
        outcome, rest = self.take(node.group, item.parts, inside)
        if outcome == TAKES and rest and not self.is_blamed(rest[:1]):
            count = len(item.parts) - len(rest)
            want = f"the end of the array after {count} item" + "s" * (count != 1)
            self.note(inside.reached(rest), rest[0], want)
        return outcome == TAKES and not rest

    def fits_map(self, node, item, reach):
        if item.kind != "map":
            self.note(reach, item, "a map")
            return False
        pairs = tuple(item.pairs())
        inside = Inside(item, reach, sum(part.end - part.start for part in item.parts))
        outcome, rest = self.take(node.group, pairs, inside)
        if outcome == TAKES and rest and not self.is_blamed([value for _, value in rest]):
            extra = min((key for key, _ in rest), key=lambda key: key.start)
            words = f"the key {extra.shown()}, which is in no entry" + self.entry_like(node.group, extra)
            self.note(inside.reached(rest), extra, "the end of the map", words)
        return outcome == TAKES and not rest

    def is_blamed(self, items):
        """Whether one of these items is blamed, since an entry wanted something else there."""
        return self.best and any(one.start <= self.best.place < one.end for one in items)

    def entry_like(self, group, key):
        """The key of an entry that looks like this one, for a message."""
        keys = [entry.key for alternative in group.alternatives for entry in alternative if entry.key is not None]
        texts = [one.value for one in map(self.schema.literal, keys) if one and one.kind == "text"]
        like = cddl_load.nearest(key.value, texts) if key.kind == "text" else None
        return f'; "{like}" is one' if like else ""

    def take(self, group, rest, inside):
        """What the first alternative that does not refuse takes. A cut ends only its own alternative."""
        outcome = REFUSES
        for alternative in group.alternatives:
            found, left = self.sequence(alternative, rest, inside)
            if found == TAKES:
                return found, left
            outcome = CUTS if found == CUTS else outcome
        return outcome, rest

    def sequence(self, entries, rest, inside):
        for entry in entries:
            outcome, rest = self.repeated(entry, rest, inside)
            if outcome != TAKES:
                return outcome, rest
        return TAKES, rest

    def repeated(self, entry, rest, inside):
        group = self.schema.group_of(entry.value) if entry.key is None else None
        if group is not None:
            if not group.alternatives and entry.low:
                self.note(inside.reached(rest), inside.item, self.wanted(entry.value))
            return self.turns(entry, rest, lambda left: self.take(group, left, inside))
        named = self.name_of(entry)
        self.names.append(named)
        if inside.item.kind == "map":
            found = self.pairs(entry, rest, inside)
        else:
            found = self.turns(entry, rest, lambda left: self.member(entry, left, inside))
        self.names.pop()
        return found

    def name_of(self, entry):
        """The name that a message has for an entry: its key, or what it is in."""
        key = entry.key
        if isinstance(key, Name):
            return key.name, self.schema.line(entry.span[0])
        if isinstance(key, Value) and key.kind == "text":
            return key.value, self.schema.line(entry.span[0])
        return self.names[-1]

    def turns(self, entry, rest, turn):
        """Takes as often as it goes. A turn that took nothing is the last one."""
        count = 0
        while count < entry.high:
            outcome, left = turn(rest)
            if outcome == CUTS:
                return CUTS, rest
            if outcome == REFUSES:
                break
            if len(left) == len(rest):
                return TAKES, rest
            count, rest = count + 1, left
        return (TAKES if count >= entry.low else REFUSES), rest

    def member(self, entry, rest, inside):
        if not rest:
            item = inside.item
            self.note(inside.reached(rest), item, self.member_want(entry), f"the end of the array of {len(item.parts)}")
            return REFUSES, rest
        return (TAKES, rest[1:]) if self.fits(entry.value, rest[0], inside.reached(rest)) else (REFUSES, rest)

    def member_want(self, entry):
        literal = isinstance(entry.value, Value)
        return literal_text(entry.value) if literal else self.wanted(entry.value)

    def pairs(self, entry, rest, inside):
        """Takes the first pairs that fit. With a cut, no pair may be left whose key fits."""
        keyed = [pair for pair in rest if self.is_fit(entry.key, pair[0])]
        fitting = [pair for pair in keyed if self.is_fit(entry.value, pair[1])]
        taken = fitting if entry.high == MANY else fitting[:entry.high]
        left = tuple(pair for pair in rest if not any(pair is one for one in taken))
        # with a cut, what comes after the last pair that may be taken is too many, whatever its value
        begin = keyed.index(taken[-1]) + 1 if taken else 0
        after = keyed[begin:] if entry.cut and len(taken) == entry.high else []
        for pair in keyed:
            if not any(pair is one for one in fitting + after):
                self.fits(entry.value, pair[1], inside.reached(left) + pair[0].end - pair[0].start)
        if after:
            self.note_too_many(entry, after[0][0], inside.reached(left))
        if entry.cut and len(keyed) > len(taken):
            return CUTS, rest
        if len(taken) >= entry.low:
            return TAKES, left
        self.note_missing(entry, left, inside)
        return REFUSES, rest

    def key_want(self, entry):
        key = self.schema.literal(entry.key)
        return literal_text(key) if key else self.wanted(entry.key)

    def note_too_many(self, entry, key, reach):
        count = f"at most {entry.high} key" + "s" * (entry.high != 1) if entry.high else "no key"
        # the message names what the map is, not the entry
        own = self.names.pop()
        self.note(reach, key, f"{count} {self.key_want(entry)}", f"the key {key.shown()}")
        self.names.append(own)

    def note_missing(self, entry, left, inside):
        item, key = inside.item, self.schema.literal(entry.key)
        want = "the key " + self.key_want(entry)
        others = [one for one, _ in left if one.kind == "text"]
        like = cddl_load.nearest(key.value, [one.value for one in others]) if key and key.kind == "text" else None
        # the message names what the map is, not the entry that is missing
        own = self.names.pop()
        if like is None:
            self.note(inside.reached(left), item, want, f"{item.shown()} without it")
        else:
            near = next(one for one in others if one.value == like)
            self.note(inside.reached(left), near, want, f"the key {near.shown()}")
        self.names.append(own)


def literal_text(node):
    """A literal as EDN has it."""
    if node.kind == "text":
        return '"' + re.sub(r'(["\\])', r"\\\1", node.value) + '"'
    return f"h'{node.value.hex()}'" if node.kind == "bytes" else str(node.value)


def keeps(value, width):
    """Whether a float is one of a width, as a value."""
    try:
        return value != value or struct.unpack(width, struct.pack(width, value))[0] == value
    except OverflowError:
        return False


def argument(item):
    """The number in the head of an item."""
    if item.kind == "int":
        return item.value if item.value >= 0 else -1 - item.value
    if item.kind in ("array", "map"):
        return len(item.parts) // (2 if item.kind == "map" else 1)
    return len(item.value) if item.kind in ("bytes", "text") else item.value


def whole(number):
    """A number as an item, for types of numbers."""
    return Item("int", 0, (), number)


def message(misfit):
    """The lines of a message: the place and what was wanted there; the path, and how many others came less far."""
    named = f" for {misfit.name} (:{misfit.line})" if misfit.name else ""
    lines = [f"{misfit.place} expected {' / '.join(misfit.wants)}{named}, found {misfit.found}"]
    more = [f"at {'/'.join(misfit.path)}"] if misfit.path else []
    if misfit.others:
        count, name, line = misfit.others
        more.append(f"{count} other alternative{'s' * (count != 1)} of {name} (:{line}) came less far")
    return "\n".join(lines + (["; ".join(more)] if more else []))
