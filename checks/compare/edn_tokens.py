"""Texts and their tokens, and the digits of bytes: docs/EDN.md, "Blanks" and "Strings"."""

import re

from item import Refused

SPACES = b" \t\r\n"
WORD = re.compile(rb"[A-Za-z0-9_.]*")
NUMBER = re.compile(rb"[-+]?(?:[A-Za-z0-9_.]|(?<=[eEpP])[-+])*")
ESCAPES = {b'"': '"', b"\\": "\\", b"/": "/", b"b": "\b", b"f": "\f", b"n": "\n", b"r": "\r", b"t": "\t"}


class Reader:
    """A text, and the place where reading is."""

    def __init__(self, text):
        self.text, self.at = text, 0

    def begins(self, *fronts):
        return any(self.text.startswith(front, self.at) for front in fronts)

    def take(self, front):
        if not self.begins(front):
            return False
        self.at += len(front)
        return True

    def want(self, front):
        if not self.take(front):
            raise Refused("Notation")

    def past(self, end, from_here):
        """Goes to the place after an end, or to the end of the text if that may be the end, too."""
        found = self.text.find(end, self.at + from_here)
        if found < 0 and end != b"\n":
            raise Refused("Notation")
        self.at = len(self.text) if found < 0 else found + len(end)

    def blank(self, slashes=True):
        """Goes over blanks, in which a slash begins a comment or not; whether there were any."""
        begun = self.at
        while self.at < len(self.text):
            if self.text[self.at] in SPACES:
                self.at += 1
            elif self.begins(b"#") or slashes and self.begins(b"//"):
                self.past(b"\n", 1)
            elif not slashes:
                break
            elif self.begins(b"/*"):
                self.past(b"*/", 2)
            elif self.begins(b"/"):
                self.past(b"/", 1)
            else:
                break
        return self.at > begun

    def word(self, pattern=WORD):
        found = pattern.match(self.text, self.at).group()
        self.at += len(found)
        return found


def quoted(reader, quote):
    """The text up to a quote, with JSON's escapes."""
    parts = []
    while not reader.take(quote):
        if reader.at >= len(reader.text):
            raise Refused("Notation")
        if reader.take(b"\\"):
            parts.append(escaped(reader, quote))
        else:
            end = min(place for place in (reader.text.find(quote, reader.at), reader.text.find(b"\\", reader.at),
                                          len(reader.text)) if place >= 0)
            parts.append(reader.text[reader.at:end].decode())
            reader.at = end
    return "".join(parts)


def escaped(reader, quote):
    begun = reader.at - 1
    try:
        return escaped_character(reader, quote)
    except Refused as refused:
        raise Refused(refused.name, begun) from None


def escaped_character(reader, quote):
    character = reader.text[reader.at:reader.at + 1]
    reader.at += 1
    if character in ESCAPES:
        return ESCAPES[character]
    if character == b"'" and quote == b"'":
        return "'"
    if character != b"u":
        raise Refused("Notation")
    if reader.begins(b"{"):
        found = re.compile(rb"\{([0-9A-Fa-f]+)\}").match(reader.text, reader.at)
        code = int(found.group(1), 16) if found else -1
        if not 0 <= code < 0x110000 or 0xD800 <= code < 0xE000:
            raise Refused("Notation")
        reader.at = found.end()
        return chr(code)
    code = unit(reader)
    if 0xDC00 <= code < 0xE000:
        raise Refused("Notation")
    if 0xD800 <= code < 0xDC00:
        reader.want(b"\\u")
        second = unit(reader)
        if not 0xDC00 <= second < 0xE000:
            raise Refused("Notation")
        code = 0x10000 + (code - 0xD800 << 10) + second - 0xDC00
    return chr(code)


def unit(reader):
    found = re.compile(rb"[0-9A-Fa-f]{4}").match(reader.text, reader.at)
    if not found:
        raise Refused("Notation")
    reader.at = found.end()
    return int(found.group(), 16)


def digits_of(reader, base):
    """The bytes of digits up to the apostrophe, with blanks and comments between them. An error has the place of the
    first character with which no encoding goes on, or of the apostrophe where digits are missing."""
    begun, end = reader.at, reader.text.find(b"'", reader.at)
    if end < 0:
        raise Refused("Notation", len(reader.text))
    inner = Reader(reader.text[begun:end])
    reader.at = end + 1
    places = list(digit_places(inner, base))
    digits = b"".join(inner.text[place:place + 1] for place in places)
    try:
        return decoded(digits, base)
    except Refused as refused:
        wrong = [place for count, place in enumerate(places, 1) if not goes_on(digits[:count], base)]
        raise Refused(refused.name, begun + wrong[0] if wrong else end) from None


def digit_places(inner, base):
    """Where the digits are; a comment that does not end is none."""
    while inner.at < len(inner.text):
        try:
            if inner.blank(base != 64):
                continue
        except Refused:
            pass
        yield inner.at
        inner.at += 1


def goes_on(digits, base):
    """Whether digits that are 0, or padding, make an encoding of them."""
    zero = b"A" if base in (32, 64) else b"0"
    return any(is_encoding(digits + more * count, base) for more in (zero, b"=") for count in range(8))


def is_encoding(digits, base):
    try:
        decoded(digits, base)
    except Refused:
        return False
    return True


ALPHABETS = {
    32: (5, "ABCDEFGHIJKLMNOPQRSTUVWXYZ234567", 8), 33: (5, "0123456789ABCDEFGHIJKLMNOPQRSTUV", 8),
    64: (6, "ABCDEFGHIJKLMNOPQRSTUVWXYZabcdefghijklmnopqrstuvwxyz0123456789+/", 4),
}


def decoded(digits, base):
    """The bytes whose encoding the digits are, exactly."""
    if base == 16:
        if not re.fullmatch(rb"(?:[0-9A-Fa-f]{2})*", digits):
            raise Refused("Notation")
        return bytes.fromhex(digits.decode())
    size, alphabet, group = ALPHABETS[base]
    plain = digits.rstrip(b"=").decode("latin-1")
    # either of the alphabets of base 64, and not both of them in one string
    if base == 64 and not set(plain) & set("+/"):
        plain = plain.replace("-", "+").replace("_", "/")
    if any(digit not in alphabet for digit in plain):
        raise Refused("Notation")
    padding = len(digits) - len(plain)
    rest = len(plain) * size % 8
    if rest >= size or padding and (padding >= group or len(digits) % group):
        raise Refused("Notation")
    number = 0
    for digit in plain:
        number = number << size | alphabet.index(digit)
    if number & (1 << rest) - 1:
        raise Refused("Notation")
    return (number >> rest).to_bytes(len(plain) * size // 8, "big")
