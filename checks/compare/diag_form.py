"""Items read from diagnostic notation: RFC 7049, section 6, and what this project adds.

Texts are read as they are spelled, at any depth; how deep they go is found on the way, and only then
held against the limit. A text that nothing reads has one of several refusals, since its faults have
no order (see `allowed_refusals`).
"""

import base64
import binascii

from bytes_form import to_bytes
from item import (
    DEEPEST, OPEN, Array, Bytes, Float, IndefiniteBytes, IndefiniteText, Integer, Map, Negative,
    Simple, Tagged, Text, fits,
)

WHITESPACE = " \t\r\n"
DECIMAL = "0123456789"
BASES = {"0x": (16, DECIMAL + "abcdefABCDEF"), "0o": (8, "01234567"), "0b": (2, "01")}
MOST = 1 << 64
# Python's own stack has an end; what is nested deeper is not read
DEEPEST_READ = 1000
# which digits may be between the quotes, and whether comments may be between those
DIGITS = {
    "h": (DECIMAL + "abcdefABCDEF", True),
    "b32": ("ABCDEFGHIJKLMNOPQRSTUVWXYZ234567=", True),
    "h32": (DECIMAL + "ABCDEFGHIJKLMNOPQRSTUV=", True),
    "b64": ("ABCDEFGHIJKLMNOPQRSTUVWXYZabcdefghijklmnopqrstuvwxyz" + DECIMAL + "+/-_=", False),
}
NAMED = {"false": 20, "true": 21, "null": 22, "undefined": 23}
OPENINGS = "[{(<"


class NoReading(Exception):
    """The text is no notation."""


class TooFarDown(Exception):
    """The text nests deeper than this program reads."""


def decode_base32(digits, alphabet):
    """The bytes whose one encoding the digits are (RFC 4648, sections 6 and 7)."""
    encode = base64.b32encode if alphabet == "b32" else base64.b32hexencode
    decode = base64.b32decode if alphabet == "b32" else base64.b32hexdecode
    try:
        content = decode(digits)
    except binascii.Error:
        raise NoReading from None
    if encode(content).decode() != digits:
        raise NoReading
    return content


def decode_base64(digits):
    """The bytes whose encoding, standard or for URLs, the digits are (RFC 4648, sections 4 and 5)."""
    padded = digits.replace("-", "+").replace("_", "/")
    padded += "=" * (-len(padded) % 4)
    try:
        content = base64.b64decode(padded, validate=True)
    except binascii.Error:
        raise NoReading from None
    standard = base64.b64encode(content).decode()
    url_safe = base64.urlsafe_b64encode(content).decode().rstrip("=")
    if digits not in (standard, url_safe):
        raise NoReading
    return content


class Reader:
    """Reads one text. Each method takes the place where its part begins and returns its value and end."""

    def __init__(self, text):
        self.text = text
        # the deepest level of an item
        self.deepest = 0

    def starts(self, at, word):
        return self.text.startswith(word, at)

    def run(self, at, characters):
        """The end of the longest run of these characters."""
        while at < len(self.text) and self.text[at] in characters:
            at += 1
        return at

    def blank(self, at):
        """The end of whitespace and comments. Nothing that may follow begins as they do."""
        while True:
            at = self.run(at, WHITESPACE)
            close = self.text.find("/", at + 1) if self.starts(at, "/") else -1
            if close < 0:
                return at
            at = close + 1

    def expect(self, at, word):
        if not self.starts(at, word):
            raise NoReading
        return at + len(word)

    def item(self, at, level):
        """An item with the blanks round it."""
        if level > DEEPEST_READ:
            raise TooFarDown
        self.deepest = max(self.deepest, level)
        item, at = self.core(self.blank(at), level)
        return item, self.blank(at)

    def core(self, at, level):
        text = self.text
        if self.starts(at, "''_"):
            return IndefiniteBytes(()), at + 3
        if self.starts(at, '""_'):
            return IndefiniteText(()), at + 3
        if self.starts(at, "(_"):
            return self.chunks(at + 2, level)
        if self.starts(at, "["):
            return self.container(at + 1, level, "]", self.item, Array)
        if self.starts(at, "{"):
            return self.container(at + 1, level, "}", self.pair, Map)
        if self.starts(at, '"'):
            return self.joined_text(at, level)
        if self.is_notation(at):
            return self.joined_bytes(at, level)
        if self.starts(at, "-"):
            value, width, at = self.number(at + 1)
            return self.in_width(Negative, value - 1, width), at
        if at < len(text) and text[at] in DECIMAL:
            value, width, at = self.number(at)
            if not self.starts(at, "("):
                return self.in_width(Integer, value, width), at
            number = self.in_width(Integer, value, width)
            value, at = self.item(at + 1, level + 1)
            return Tagged(number.value, number.width, value), self.expect(at, ")")
        if self.starts(at, "float'"):
            return self.float(at + 6)
        return self.simple(at)

    def number(self, at):
        """A value, the width that is written after it or None, and the end."""
        base, digits = BASES.get(self.text[at:at + 2], (10, DECIMAL))
        begin = at if base == 10 else at + 2
        end = self.run(begin, digits)
        if end == begin:
            raise NoReading
        value, at = int(self.text[begin:end], base), end
        if not self.starts(at, "_"):
            return value, None, at
        end = self.run(at + 1, DECIMAL)
        if end == at + 1 or int(self.text[at + 1:end]) > 3:
            raise NoReading
        return value, (1, 2, 4, 8)[int(self.text[at + 1:end])], end

    def in_width(self, kind, value, width):
        if value not in range(MOST):
            raise NoReading
        if width is None:
            return kind(value, 0 if value < 24 else OPEN)
        if not fits(value, width):
            raise NoReading
        return kind(value, width)

    def is_notation(self, at):
        return any(self.starts(at, word) for word in ("h'", "b32'", "h32'", "b64'", "'", "<<"))

    def notation(self, at, level):
        """One notation of bytes, in an item at a level."""
        if self.starts(at, "<<"):
            items, at = self.members(at + 2, ">>", lambda at: self.item(at, level + 1))
            return b"".join(map(to_bytes, items)), at
        if self.starts(at, "'"):
            content, at = self.quoted(at + 1, "'")
            return content.encode("utf-8"), at
        name = self.text[at:self.text.index("'", at)]
        digits, at = self.digits(at + len(name) + 1, *DIGITS[name])
        if name == "h":
            if len(digits) % 2:
                raise NoReading
            return bytes.fromhex(digits), at
        return decode_base64(digits) if name == "b64" else decode_base32(digits, name), at

    def quoted(self, at, quote):
        """The content before the closing quote; a backslash escapes only itself and the quote."""
        content = []
        while not self.starts(at, quote):
            if self.starts(at, "\\"):
                at += 1
                if not (self.starts(at, "\\") or self.starts(at, quote)):
                    raise NoReading
            if at >= len(self.text):
                raise NoReading
            content.append(self.text[at])
            at += 1
        return "".join(content), at + 1

    def digits(self, at, alphabet, comments):
        """Digits with blanks between them up to the closing quote: none and no blank, or at least one."""
        digits, begin = [], at
        while not self.starts(at, "'"):
            blank = self.blank(at) if comments else self.run(at, WHITESPACE)
            end = self.run(blank, alphabet)
            if end == at:
                raise NoReading
            digits.append(self.text[blank:end])
            at = end
        digits = "".join(digits)
        if not digits and at > begin:
            raise NoReading
        return digits, at + 1

    def joined_bytes(self, at, level):
        """One notation or more, with blanks between them."""
        content, at = self.notation(at, level)
        while self.is_notation(self.blank(at)) and not self.starts(self.blank(at), "''_"):
            more, at = self.notation(self.blank(at), level)
            content += more
        return Bytes(content, OPEN), at

    def joined_text(self, at, level):
        """A text, and further texts and notations of bytes, with blanks between them."""
        content, at = self.quoted(self.expect(at, '"'), '"')
        content = content.encode("utf-8")
        while True:
            next_at = self.blank(at)
            if self.starts(next_at, '"') and not self.starts(next_at, '""_'):
                more, at = self.quoted(next_at + 1, '"')
                content += more.encode("utf-8")
            elif self.is_notation(next_at) and not self.starts(next_at, "''_"):
                more, at = self.notation(next_at, level)
                content += more
            else:
                break
        try:
            return Text(content.decode("utf-8"), OPEN), at
        except UnicodeDecodeError:
            raise NoReading from None

    def members(self, at, close, member):
        """A blank, members with commas between them, perhaps a last comma and whitespace, the close."""
        members = []
        at = self.blank(at)
        while not self.closes(at, close):
            if members:
                at = self.expect(at, ",")
            value, at = member(at)
            members.append(value)
        if self.starts(at, ","):
            at = self.run(at + 1, WHITESPACE)
        return tuple(members), at + len(close)

    def closes(self, at, close):
        """Whether a list ends here: at its close, or at a comma, whitespace and its close."""
        if self.starts(at, ","):
            end = self.run(at + 1, WHITESPACE)
            return end > at + 1 and self.starts(end, close)
        return self.starts(at, close)

    def container(self, at, level, close, member, kind):
        indefinite = self.starts(at, "_")
        members, at = self.members(at + indefinite, close, lambda at: member(at, level + 1))
        return kind(members, None if indefinite else OPEN), at

    def pair(self, at, level):
        key, at = self.item(at, level)
        value, at = self.item(self.expect(at, ":"), level)
        return (key, value), at

    def chunks(self, at, level):
        """The chunks of an indefinite string, all of bytes or all of text."""
        kinds = set()

        def chunk(at):
            at = self.blank(at)
            is_text = self.starts(at, '"')
            if {not is_text} & kinds or not (is_text or self.is_notation(at)):
                raise NoReading
            if self.starts(at, "''_") or self.starts(at, '""_'):
                raise NoReading
            kinds.add(is_text)
            string, at = (self.joined_text if is_text else self.joined_bytes)(at, level)
            return string, self.blank(at)

        chunks, at = self.members(at, ")", chunk)
        return (IndefiniteText if kinds == {True} else IndefiniteBytes)(chunks), at

    def float(self, at):
        end = self.run(at, DIGITS["h"][0])
        if end - at not in (4, 8, 16):
            raise NoReading
        return Float(int(self.text[at:end], 16), (end - at) // 2), self.expect(end, "'")

    def simple(self, at):
        for word, value in NAMED.items():
            if self.starts(at, word):
                return Simple(value), at + len(word)
        at = self.expect(at, "simple(")
        end = self.run(at, DECIMAL)
        if end == at or int(self.text[at:end]) > 255:
            raise NoReading
        return Simple(int(self.text[at:end])), self.expect(end, ")")


def allowed_refusals(text):
    """The errors that a text may get if no limit of levels reads it."""
    allowed = {"Notation"}
    if "_" in text:
        allowed.add("PastWidth")
    if '"' in text:
        allowed.add("Utf8")
    if sum(text.count(opening) for opening in OPENINGS) >= DEEPEST:
        allowed.add("TooDeep")
    return allowed


def read(text):
    """The item of a text and the deepest level in it, or None."""
    reader = Reader(text)
    try:
        item, end = reader.item(0, 1)
    except NoReading:
        return None
    return (item, reader.deepest) if end == len(text) else None


def parse_diag(text):
    """The item of a text, or the set of errors of which it gets one."""
    try:
        found = read(text)
    except TooFarDown:
        return allowed_refusals(text) | {"TooDeep"}
    if found is None:
        return allowed_refusals(text)
    item, deepest = found
    return item if deepest <= DEEPEST else {"TooDeep"}
