"""Items in bytes: RFC 7049, section 2, and docs/BYTES.md."""

from dataclasses import replace

from item import (
    DEEPEST, OPEN, Array, Bytes, Float, IndefiniteBytes, IndefiniteText, Integer, Map, Negative,
    Refused, Simple, Tagged, Text, stated, utf8,
)

BREAK = 0xFF


def head_at(data, at):
    """Major type, info, the head's number (None for info 31) and the place after the head."""
    if at >= len(data):
        raise Refused("CutShort")
    major, info = data[at] >> 5, data[at] & 31
    if info < 24:
        return major, info, info, at + 1
    if 28 <= info <= 30:
        raise Refused("Head")
    if info == 31:
        # an indefinite length; a break is looked for before heads are, so here it ends nothing
        if major not in (2, 3, 4, 5):
            raise Refused("Head")
        return major, info, None, at + 1
    count = 1 << (info - 24)
    if len(data) - (at + 1) < count:
        raise Refused("CutShort")
    return major, info, int.from_bytes(data[at + 1:at + 1 + count], "big"), at + 1 + count


def width_of(info):
    return 0 if info < 24 else 1 << (info - 24)


def string_at(data, at, major, number, info):
    """The definite string whose head was read, and the place after it."""
    if len(data) - at < number:
        raise Refused("CutShort")
    content = bytes(data[at:at + number])
    if major == 2:
        return Bytes(content, width_of(info)), at + number
    try:
        return Text(content.decode("utf-8"), width_of(info)), at + number
    except UnicodeDecodeError:
        raise Refused("Utf8") from None


def chunks_at(data, at, major):
    """The chunks of an indefinite string up to its break, and the place after that."""
    chunks = []
    while True:
        if at >= len(data):
            raise Refused("CutShort")
        if data[at] == BREAK:
            return tuple(chunks), at + 1
        # the first byte alone says whether a chunk begins here
        if data[at] >> 5 != major or data[at] & 31 > 27:
            raise Refused("Head")
        _, info, number, at = head_at(data, at)
        chunk, at = string_at(data, at, major, number, info)
        chunks.append(chunk)


def members_at(data, at, count, size, level):
    """A number of members of a number of items each, or (None) those before a break; and the place after."""
    members = []
    while count is None or len(members) < count:
        if count is None and at < len(data) and data[at] == BREAK:
            return tuple(members), at + 1
        member = []
        for _ in range(size):
            item, at = item_at(data, at, level)
            member.append(item)
        members.append(tuple(member))
    return tuple(members), at


def item_at(data, at, level):
    """The item at a place, which is at a level, and the place after it."""
    if level > DEEPEST:
        raise Refused("CutShort" if at >= len(data) else "TooDeep")
    major, info, number, at = head_at(data, at)
    width = None if number is None else width_of(info)
    if major == 0:
        return Integer(number, width), at
    if major == 1:
        return Negative(number, width), at
    if major in (2, 3):
        if number is not None:
            return string_at(data, at, major, number, info)
        chunks, at = chunks_at(data, at, major)
        return (IndefiniteBytes if major == 2 else IndefiniteText)(chunks), at
    if major == 4:
        members, at = members_at(data, at, number, 1, level + 1)
        return Array(tuple(member[0] for member in members), width), at
    if major == 5:
        pairs, at = members_at(data, at, number, 2, level + 1)
        return Map(pairs, width), at
    if major == 6:
        value, at = item_at(data, at, level + 1)
        return Tagged(number, width, value), at
    if info <= 24:
        return Simple(number, info == 24), at
    return Float(number, width), at


def parse_bytes_partial(data, level=1):
    """The item that the bytes begin with and its length, or None where they are cut."""
    try:
        return item_at(data, 0, level)
    except Refused as refused:
        if refused.name == "CutShort":
            return None
        raise


def parse_bytes(data, level=1):
    """The item that the bytes are."""
    item, end = item_at(data, 0, level)
    if end < len(data):
        raise Refused("Remaining")
    return item


def sequence(data, level):
    """The longest list of items that can be read one after the other, and the rest that cannot."""
    items, at = [], 0
    while at < len(data):
        try:
            item, at = item_at(data, at, level)
        except Refused:
            break
        items.append(item)
    return tuple(items), bytes(data[at:])


def head(major, value, width):
    """A head that is written."""
    width = stated(value, width)
    if width == 0:
        return bytes([major << 5 | value])
    return bytes([major << 5 | 24 + (1, 2, 4, 8).index(width)]) + value.to_bytes(width, "big")


def float_width(width):
    return 8 if width == OPEN else width


def to_bytes(item):
    """The bytes that an item is written as."""
    if isinstance(item, Integer):
        return head(0, item.value, item.width)
    if isinstance(item, Negative):
        return head(1, item.value, item.width)
    if isinstance(item, Bytes):
        return head(2, len(item.content), item.width) + item.content
    if isinstance(item, Text):
        content = utf8(item.content)
        return head(3, len(content), item.width) + content
    if isinstance(item, (IndefiniteBytes, IndefiniteText)):
        opening = b"\x5f" if isinstance(item, IndefiniteBytes) else b"\x7f"
        return opening + b"".join(map(to_bytes, item.chunks)) + b"\xff"
    if isinstance(item, Array):
        return container(4, len(item.members), item.width, item.members)
    if isinstance(item, Map):
        return container(5, len(item.pairs), item.width, [part for pair in item.pairs for part in pair])
    if isinstance(item, Tagged):
        return head(6, item.number, item.width) + to_bytes(item.value)
    if isinstance(item, Float):
        width = float_width(item.width)
        return bytes([0xF9 + (2, 4, 8).index(width)]) + item.bits.to_bytes(width, "big")
    return bytes([0xE0 + item.value]) if item.value < 24 else bytes([0xF8, item.value])


def container(major, count, width, parts):
    content = b"".join(map(to_bytes, parts))
    if width is None:
        return bytes([major << 5 | 31]) + content + b"\xff"
    return head(major, count, width) + content


def resolve(item):
    """The item with each open width replaced by the one that is written."""
    if isinstance(item, (Integer, Negative)):
        return replace(item, width=stated(item.value, item.width))
    if isinstance(item, Bytes):
        return replace(item, width=stated(len(item.content), item.width))
    if isinstance(item, Text):
        return replace(item, width=stated(len(utf8(item.content)), item.width))
    if isinstance(item, (IndefiniteBytes, IndefiniteText)):
        return replace(item, chunks=tuple(map(resolve, item.chunks)))
    if isinstance(item, Array):
        return Array(tuple(map(resolve, item.members)), resolved_count(item.members, item.width))
    if isinstance(item, Map):
        pairs = tuple((resolve(key), resolve(value)) for key, value in item.pairs)
        return Map(pairs, resolved_count(item.pairs, item.width))
    if isinstance(item, Tagged):
        return Tagged(item.number, stated(item.number, item.width), resolve(item.value))
    if isinstance(item, Float):
        return replace(item, width=float_width(item.width))
    return item


def resolved_count(members, width):
    return None if width is None else stated(len(members), width)
