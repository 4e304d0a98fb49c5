"""Items with their places and paths, as CDDL is matched with them: numbers as values, chunks joined."""

from dataclasses import dataclass
from typing import Optional

import reencode_form
import rules_form
from bytes_form import BREAK, head_at, item_at
from edn_numbers import value_of
from edn_text import Writer
from item import Refused


@dataclass
class Item:
    """An item. Its kind is int, bytes, text, array, map, tag, simple or float."""

    kind: str
    start: int
    path: tuple
    # a number, the bytes or the text of a string, the number of a tag or of a simple value
    value: object = None
    # members, keys and values in turn, or the content of a tag
    parts: tuple = ()
    # where the content begins: what is behind the head; None if it is in chunks
    inside: Optional[int] = None
    end: int = 0
    # the bytes that the item is in
    data: bytes = b""
    # the string that the item is in the chunks of, whose place is said for it
    around: Optional["Item"] = None

    def place(self):
        return self.around.place() if self.around else self.start

    def pairs(self):
        """Keys and values, in the order of the core encodings of the keys."""
        return sorted(zip(self.parts[::2], self.parts[1::2]), key=lambda pair: pair[0].core())

    def second_key(self):
        """The first key in it that its map has had before, or None."""
        seen = set()
        for at, part in enumerate(self.parts):
            if self.kind == "map" and at % 2 == 0 and part.core() in seen:
                return part
            if self.kind == "map" and at % 2 == 0:
                seen.add(part.core())
            if second := part.second_key():
                return second
        return None

    def core(self):
        """The core deterministic encoding."""
        own = self.data[self.start:self.end]
        found = reencode_form.reencode(own, rules_form.SETS["core"])
        return own if " " in found else bytes.fromhex(found)

    def shown(self):
        """The item in a message."""
        if self.kind in ("array", "map"):
            count = len(self.parts) // (2 if self.kind == "map" else 1)
            return f"{'an array' if self.kind == 'array' else 'a map'} of {count}"
        if self.kind == "tag":
            return f"tag {self.value}"
        return Writer().item(item_at(self.data, self.start, 1)[0])

    def items_in(self):
        """The items that the content of a byte string encodes; None if it encodes none."""
        shift = self.inside or 0
        around = self if self.inside is None else self.around
        data = self.data[:shift] + self.value
        starts = [shift]
        try:
            while starts[-1] < len(data):
                starts.append(item_at(data, starts[-1], 1)[1])
        except Refused:
            return None
        steps = ["@"] if len(starts) == 2 else [f"@{start - shift}" for start in starts[:-1]]
        return [placed(data, start, (*self.path, step), around) for start, step in zip(starts, steps)]


def placed(data, at=0, path=(), around=None):
    """The item at a place."""
    major, info, number, inside = head_at(data, at)
    item = Item(("int", "int", "bytes", "text", "array", "map", "tag", "simple")[major], at, path, number, data=data,
                around=around)
    item.inside, item.end = inside, inside
    if major == 1:
        item.value = -1 - number
    elif major in (2, 3):
        string(item, number)
    elif major in (4, 5):
        members(item, number, major - 3)
    elif major == 6:
        item.parts = (placed(data, inside, path, around),)
        item.end = item.parts[0].end
    elif major == 7 and info > 24:
        item.kind, item.value = "float", value_of(number, inside - at - 1)
    return item


def string(item, length):
    """Reads the content of a string."""
    plain, end = item_at(item.data, item.start, 1)
    item.end = end
    if length is None:
        item.inside = None
        kind = "" if item.kind == "text" else b""
        item.value = kind.join(chunk.content for chunk in plain.chunks)
    else:
        item.value = plain.content


def members(item, count, size):
    """Reads members, or keys and values."""
    parts, at = [], item.inside
    while len(parts) < count * size if count is not None else item.data[at] != BREAK:
        is_value = size == 2 and len(parts) % 2
        step = step_of(parts[-1]) if is_value else str(len(parts)) if size == 1 else None
        parts.append(placed(item.data, at, item.path if step is None else (*item.path, step), item.around))
        at = parts[-1].end
    item.parts, item.end = tuple(parts), at + (count is None)


def step_of(key):
    """How a path names a key."""
    return key.value if key.kind == "text" else key.shown()
