"""Which byte strings are opened as the items in them, by the rule of docs/EDN.md. EDN, JSON and the places of items ask
it."""

from bytes_form import sequence, to_bytes
from item import Array, Map, Simple, Tagged

# Below these tags bytes are a big number, a UUID, an address or a typed array, and never opened.
SAYING = (2, 3, 37, 52, 54, *range(64, 88), 260)


def is_reserved(item):
    """Whether a simple value from 24 to 31 is in the item, which no text is read as."""
    if isinstance(item, Simple):
        return 24 <= item.value < 32
    if isinstance(item, Array):
        return any(map(is_reserved, item.members))
    if isinstance(item, Map):
        return any(map(is_reserved, sum(item.pairs, ())))
    return isinstance(item, Tagged) and is_reserved(item.value)


def items_in(content, level, tag, opened):
    """The items in a byte string at a level, right below a tag, or None if it is not opened. `opened`: a caller opens
    it if it may be. The items have to be all of the bytes, and to be written as the same bytes."""
    found, rest = sequence(content, level + 1)
    if rest or b"".join(map(to_bytes, found)) != content or any(map(is_reserved, found)):
        return None
    if tag == 63:
        return found
    if len(found) != 1 or tag in SAYING:
        return None
    return found if tag == 24 or opened and isinstance(found[0], (Array, Map, Tagged)) else None
