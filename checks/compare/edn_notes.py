"""EDN with notes, those that the text has by itself and those of a caller: docs/EDN.md, "What is written"."""

from typing import NamedTuple

from bytes_form import item_at, parse_bytes, to_bytes
from edn_text import Writer, element_text
from inside import SAYING
from item import (
    Array, Bytes, Float, Integer, Map, Negative, Refused, Simple, Tagged, Text,
)
from notes import (
    date_of_epoch, datetime_of_epoch, epoch_of_date, epoch_of_datetime, ipv4_text, ipv6_text, mac_text, pieces, uuid_lines,
)
from tags import ELEMENTS

COLUMNS = 80
MOST_CHARACTERS = 64
# the longest string of a big number whose digits are a note
MOST_BIG = 16
# the most elements of a typed array in a note
MOST_ELEMENTS = 8
ADDRESSES = {(52, 4): ipv4_text, (54, 16): ipv6_text, (260, 4): ipv4_text, (260, 6): mac_text, (260, 16): ipv6_text}


class Note(NamedTuple):
    """A note of a caller: where an item begins, texts for before and after it, and whether a byte string is shown as
    the item in it."""

    start: int
    before: str
    after: str
    encoded: bool


NO_NOTE = Note(0, "", "", False)


def is_comment(text):
    """Whether a comment can have a text."""
    printed = all(0x20 <= ord(one) <= 0x7E and one != "/" for one in text)
    return printed and text != "" and not text.startswith("*")


def number_note(value, tag):
    """The date of a number right below a tag."""
    if tag == 1:
        return datetime_of_epoch(value)
    return date_of_epoch(value) if tag == 100 else None


def text_note(text, tag):
    """The seconds or days of a date right below a tag."""
    read = {0: epoch_of_datetime, 1004: epoch_of_date}.get(tag)
    found = read(text) if read else None
    return None if found is None else f"epoch {found}"


def bytes_note(content, tag):
    """What a byte string is by the tag right above it, or its characters."""
    if tag in (2, 3) and len(content) <= MOST_BIG:
        number = int.from_bytes(content, "big")
        return str(number if tag == 2 else -1 - number)
    if (tag, len(content)) in ADDRESSES:
        return ADDRESSES[tag, len(content)](content)
    if tag == 37 and len(content) == 16:
        return uuid_lines(content)[1].removeprefix("base16(").removesuffix(")")
    return elements(content, tag)


def elements(content, tag):
    """The elements of a typed array (RFC 8746) that a byte string is by the tag right above it."""
    kind, size, little = ELEMENTS.get(tag, (None, 16, False))
    if size == 16 or not content or len(content) % size:
        return None
    shown = [element_text(kind, one[::-1] if little else one) for one in pieces(content, size)[:MOST_ELEMENTS]]
    return ", ".join(shown + ([".."] if len(content) > size * MOST_ELEMENTS else []))


def characters(content, tag):
    """The characters of a byte string as a note, or None."""
    shown = all(0x20 <= byte <= 0x7E and byte != 0x2F for byte in content)
    if tag in SAYING or not shown or not 1 <= len(content) <= MOST_CHARACTERS:
        return None
    return "'" + content.decode().replace("\\", "\\\\").replace("'", "\\'") + "'"


def head_size(item):
    """How many bytes the head of an item takes."""
    width = item.width if isinstance(item, (Array, Map, Tagged, Bytes, Text, Integer, Negative)) else None
    return 1 + (width or 0)


def parts(item):
    if isinstance(item, Array):
        return item.members
    if isinstance(item, Map):
        return [part for pair in item.pairs for part in pair]
    return [item.value] if isinstance(item, Tagged) else []


def longer_simples(item):
    """How many simple values below 24 take two bytes in an item."""
    if isinstance(item, Simple):
        return int(item.two_bytes and item.value < 24)
    return sum(map(longer_simples, parts(item)))


def size(item):
    """How many bytes an item was read from."""
    return len(to_bytes(item)) + longer_simples(item)


class NotedWriter(Writer):
    """A writer that knows where each item begins, since items are written as they come."""

    def __init__(self, notes=(), shown=True, **style):
        super().__init__(**style)
        self.start, self.notes, self.shown = 0, tuple(notes), shown
        self.encoded = False

    def note(self):
        """The note of the item that comes now. One that is passed is lost."""
        while self.notes and self.notes[0].start < self.start:
            self.notes = self.notes[1:]
        if self.notes and self.notes[0].start == self.start:
            note, *others = self.notes
            self.notes = tuple(others)
            return note
        return NO_NOTE

    def comment(self, text):
        return f"/{text}/" if self.shown and text is not None and is_comment(text) else ""

    def item(self, item, level=1, tag=None):
        begun, note = self.start, self.note()
        self.start += head_size(item)
        self.encoded = note.encoded
        before = self.comment(note.before)
        before += before and " "
        self.wrote(before)
        text = super().item(item, level, tag)
        self.start = begun + size(item)
        return before + text + self.comments(item, tag, note)

    def comments(self, item, tag, note):
        """The comments after an item: its own, and that of the caller, which stands in place of characters."""
        own, said = None, self.comment(note.after)
        if isinstance(item, (Integer, Negative)):
            own = number_note(item.value if isinstance(item, Integer) else -1 - item.value, tag)
        elif isinstance(item, Text):
            own = text_note(item.content, tag)
        elif isinstance(item, Simple):
            own = "two bytes" if item.two_bytes and item.value < 32 else None
        elif isinstance(item, Bytes):
            own = bytes_note(item.content, tag)
            if own is None and not said and not self.shown_inside:
                own = characters(item.content, tag)
        elif not isinstance(item, Float):
            return ""
        return "".join(" " + comment for comment in (self.comment(own), said) if comment)

    def bytes(self, item, level, tag):
        text = super().bytes(item, level, tag)
        self.shown_inside = text.startswith("<<")
        return text

    def items_in(self, content, level, tag):
        kept, self.embedded = self.embedded, self.embedded or self.encoded
        found = super().items_in(content, level, tag)
        self.embedded, self.encoded = kept, False
        return found


# ---- styles in words ----


def style_of(words):
    """Whether there are notes, and the rest of a style: none or more of `pretty`, `lines`, `notes`, `embedded`,
    `widths` and `width=COLUMNS`."""
    columns = next((int(word.removeprefix("width=")) for word in words if word.startswith("width=")), COLUMNS)
    lines = "lines" in words or "pretty" in words
    style = {"widths": "widths" in words, "embedded": "embedded" in words, "columns": columns if lines else None}
    return "notes" in words or "pretty" in words, style


def note_of(word):
    """A note in the words `PLACE=BEFORE=AFTER`, with `<<` before the place of a string that is shown as an item."""
    place, before, after = word.split("=", 2)
    return Note(int(place.removeprefix("<<")), before, after, place.startswith("<<"))


def front_to_edn(data, words, notes=()):
    """The text of the item at the front, and its length."""
    item, end = item_at(data, 0, 1)
    shown, style = style_of(words)
    return NotedWriter(notes, shown, **style).item(item), end


def bytes_to_edn(data, words, notes=()):
    try:
        parse_bytes(data)
        return front_to_edn(data, words, notes)[0]
    except Refused as refused:
        return refused.name


def partial_to_edn(data, words, notes=()):
    try:
        text, end = front_to_edn(data, words, notes)
        return f"{end} {text}"
    except Refused as refused:
        return "truncated" if refused.name == "CutShort" else refused.name


def noted(call, data, argument):
    """Makes one of these calls with the notes of an argument, in a pretty style, or in one line if one is `line`."""
    words = argument.split("; ")
    notes = [note_of(word) for word in words if "=" in word]
    return call(data, [] if words[0] == "line" else ["pretty"], notes)
