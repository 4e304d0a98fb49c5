"""Byte strings with what is in them: rows worked out by hand from docs/EDN.md, and strings made by a seed."""

from bytes_form import sequence, to_bytes
from inside import SAYING
from item import Array, Bytes, Float, IndefiniteBytes, Integer, Map, Negative, Simple, Tagged, Text, shortest

ALWAYS, ASKED, NEVER = "always", "if asked", "never"

# The tag of a byte string, its content, and whether it is open: always, with -e or by its name, or never.
ROWS = [
    (None, "8105", ASKED), (None, "a10005", ASKED), (None, "c18105", ASKED), (None, "c105", ASKED), (None, "80", ASKED),
    (None, "a0", ASKED), (None, "9f05ff", ASKED), (None, "980105", ASKED), (None, "8142f800", ASKED),
    (None, "81f820", ASKED), (None, "815f4105ff", ASKED), (None, "d8184105", ASKED),
    (None, "", NEVER), (None, "05", NEVER), (None, "25", NEVER), (None, "6161", NEVER), (None, "428105", NEVER),
    (None, "f6", NEVER), (None, "f93e00", NEVER), (None, "5f428105ff", NEVER), (None, "810506", NEVER),
    (None, "82 05", NEVER), (None, "9f05", NEVER), (None, "81f800", NEVER), (None, "81f813", NEVER),
    (None, "81f818", NEVER), (None, "a1f80005", NEVER), (None, "c1f800", NEVER), (None, "8161ff", NEVER),
    (None, "811c", NEVER), (None, "81ff", NEVER), (None, "c1", NEVER), (None, "81" * 128 + "05", NEVER),
    (24, "05", ALWAYS), (24, "8105", ALWAYS), (24, "a10005", ALWAYS), (24, "428105", ALWAYS), (24, "6161", ALWAYS),
    (24, "c249010000000000000000", ALWAYS), (24, "5f428105ff", ALWAYS), (24, "f820", ALWAYS),
    (24, "", NEVER), (24, "0506", NEVER), (24, "810506", NEVER), (24, "8205", NEVER), (24, "f800", NEVER),
    (24, "81f800", NEVER), (24, "81f81f", NEVER), (24, "ff", NEVER), (24, "62c328", NEVER), (24, "9f05", NEVER),
    (63, "", ALWAYS), (63, "05", ALWAYS), (63, "0506", ALWAYS), (63, "810506", ALWAYS), (63, "a1000506", ALWAYS),
    (63, "0582", NEVER), (63, "8105f800", NEVER), (63, "81f80006", NEVER), (63, "05ff", NEVER),
    *((tag, "820506", NEVER) for tag in (2, 3, 37, 52, 54, 64, 65, 86, 87, 260)),
    *((tag, "820506", ASKED) for tag in (1, 4, 21, 22, 23, 25, 36, 38, 53, 55, 62, 88, 259, 261, 4711, 55799)),
    (4711, "a101f818", NEVER), (4711, "05", NEVER), (4711, "82", NEVER),
]

TAGS = [(), (), (), (24,), (24,), (24,), (63,), (63,), (1000,), (55799,), (21,), (22,), (23,), (24, 1000), (1000, 24),
        (24, 2)]
BREAKING = [b"\xf8\x00", b"\xf8\x18", b"\xff", b"\x1c", b"\x61\xff", b"\x82", b"\xf8"]


def tagged(tags, item):
    """The item below these tags, the outermost first."""
    for tag in reversed(tags):
        item = Tagged(tag, shortest(tag), item)
    return item


def string(content):
    return Bytes(content, shortest(len(content)))


def leaf(chance):
    numbers = [Integer(5, 0), Integer(5, 1), Negative(0, 0), Float(0x3E00, 2), Simple(21), Simple(32)]
    strings = [Text("a", 0), Text("", 0), Bytes(b"", 0), IndefiniteBytes((Bytes(b"\x81\x05", 0),))]
    return chance.choice(numbers + strings)


def inner(chance, depth):
    """An item as strings hold it: arrays, maps with small keys, tags, and strings again."""
    kind = chance.randrange(10 if depth else 2)
    if kind < 2:
        return leaf(chance)
    if kind < 4:
        return tagged(any_tags(chance), string(any_content(chance, depth - 1)))
    if kind == 4:
        return tagged((chance.choice([1, 1000, 55799]),), inner(chance, depth - 1))
    count = chance.choice([0, 1, 1, 2, 3])
    width = chance.choice([None, 0, 0, 1, 2])
    members = tuple(inner(chance, depth - 1) for _ in range(count))
    if kind < 8:
        return Array(members, width)
    return Map(tuple((Integer(key, 0), member) for key, member in enumerate(members, chance.randrange(2))), width)


def any_tags(chance):
    return chance.choice([*TAGS, (chance.choice(SAYING),), (chance.choice(SAYING), 1000)])


def has_other_keys(item):
    """Whether a key in an item, or in the items in its byte strings, is no integer."""
    if isinstance(item, Bytes):
        return any(map(has_other_keys, sequence(item.content, 1)[0]))
    if isinstance(item, Map):
        return any(not isinstance(key, Integer) or has_other_keys(value) for key, value in item.pairs)
    if isinstance(item, Array):
        return any(map(has_other_keys, item.members))
    return isinstance(item, Tagged) and has_other_keys(item.value)


def any_content(chance, depth):
    """The content of a string, in which all keys are integers."""
    while True:
        content = some_content(chance, depth)
        if not has_other_keys(string(content)):
            return content


def some_content(chance, depth):
    """An item, several, or something near."""
    kind = chance.randrange(12)
    if kind == 0:
        return to_bytes(leaf(chance))
    if kind == 1:
        return b"".join(to_bytes(inner(chance, depth)) for _ in range(chance.choice([0, 2, 3])))
    content = to_bytes(inner(chance, max(depth, 1)))
    if kind == 2:
        return content[:chance.randrange(len(content))]
    if kind == 3:
        at = chance.randrange(len(content) + 1)
        return content[:at] + chance.choice(BREAKING) + content[at:]
    if kind == 4:
        return b"\x81" + chance.choice(BREAKING)
    if kind == 5 and depth > 1:
        return chance.choice([b"\x81", b"\xc1", b"\xa1\x00"]) * chance.randrange(121, 129) + content
    return content


def any_string(chance):
    """The tags of a byte string and its content."""
    return any_tags(chance), any_content(chance, 3)
