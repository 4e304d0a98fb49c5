"""EDN, the notation that people write, read into bytes: docs/EDN.md, RFC 8949, section 8, and RFC 8610, appendix G."""

import re
import socket
from fractions import Fraction

from edn_numbers import (
    FORMATS, SPECIAL, STATED, float_head, float_item, head, integer, named_float, tag_head, word_item,
)
from edn_tokens import NUMBER, Reader, digits_of, quoted
from item import DEEPEST, Refused, utf8
from notes import seconds_of_datetime

WORDS = {b"false": 20, b"true": 21, b"null": 22, b"undefined": 23}
PREFIXES = {b"h": 16, b"b64": 64, b"b32": 32, b"h32": 33}


def number_item(reader, level):
    """A number or a tag. What a word is, is decided by all of it, so what is wrong has the place where it begins."""
    begun = reader.at
    word = reader.word(NUMBER)
    is_tag = reader.take(b"(")
    try:
        found = tag_head(word) if is_tag else word_item(word, level)
    except Refused as refused:
        raise Refused(refused.name, begun) from None
    return found + tagged_rest(reader, level) if is_tag else found


def tagged_rest(reader, level):
    reader.blank()
    value = item(reader, level + 1)[0]
    reader.blank()
    reader.want(b")")
    return value


def is_string(reader):
    return reader.begins(b'"', b"'", b"<<", *(name + b"'" for name in PREFIXES))


def piece(reader, level):
    """A piece of a string: whether it is a text, and its bytes."""
    if reader.take(b'"'):
        return True, utf8(quoted(reader, b'"'))
    if reader.take(b"'"):
        return False, utf8(quoted(reader, b"'"))
    if reader.take(b"<<"):
        return False, b"".join(members(reader, b">>", level + 1, lambda: item(reader, level + 1)))
    name = reader.word()
    reader.want(b"'")
    return False, digits_of(reader, PREFIXES[name])


def string(reader, level):
    """A string of pieces that are joined: whether it is a text, its bytes, and the width, "indefinite" after `_`."""
    is_text, content = piece(reader, level)
    while True:
        begun = reader.at
        reader.blank()
        if not reader.take(b"+") or re.compile(rb"[0-9.]").match(reader.text, reader.at):
            reader.at = begun
            break
        reader.blank()
        if not is_string(reader):
            raise Refused("Notation")
        content += piece(reader, level)[1]
    width = None
    if reader.begins(b"_"):
        begun, indicator = reader.at, reader.word()
        if indicator != b"_" and indicator not in STATED:
            raise Refused("Notation", begun)
        width = STATED.get(indicator, "indefinite")
    if is_text:
        try:
            content.decode("utf-8")
        except UnicodeDecodeError:
            raise Refused("Notation") from None
    return is_text, content, width


def string_item(reader, level):
    """A string; an empty one before `_` is one of indefinite length without chunks."""
    is_text, content, width = string(reader, level)
    if width != "indefinite":
        return head(3 if is_text else 2, len(content), width) + content
    if content:
        raise Refused("Notation")
    return b"\x7f\xff" if is_text else b"\x5f\xff"


def members(reader, closing, level, member):
    """The members up to what closes them; each says what it is, and whether it is a string. Two strings are apart by a
    comma, or, as items of a whole text, which nothing closes, by the end of a line."""
    found = []
    reader.blank()
    while not closes(reader, closing):
        content, was_string = member()
        found.append(content)
        begun = reader.at
        apart = reader.blank()
        between = reader.text[begun:reader.at]
        if closes(reader, closing):
            break
        if reader.take(b","):
            reader.blank()
        elif not apart or was_string and is_string(reader) and (closing or b"\n" not in between):
            raise Refused("Notation")
    return found


def closes(reader, closing):
    return reader.at == len(reader.text) if closing is None else reader.take(closing)


def count_of(reader, closing):
    """The width of a count after an opening: none, "indefinite", or a number."""
    if not reader.begins(b"_"):
        return None
    indicator, word = reader.at, reader.word()
    if word != b"_" and word not in STATED:
        raise Refused("Notation", indicator)
    begun = reader.at
    apart = reader.blank()
    reader.at = begun
    if word == b"_" and (apart or reader.begins(closing)):
        return "indefinite"
    if word != b"_" and apart:
        return STATED[word]
    raise Refused("Notation")


def container(major, width, count, content):
    if width == "indefinite":
        return bytes([major << 5 | 31]) + content + b"\xff"
    return head(major, count, width) + content


def pair(reader, level):
    key = item(reader, level)[0]
    reader.blank()
    reader.want(b":")
    reader.blank()
    value, was_string = item(reader, level)
    return key + value, was_string


def chunks(reader, level):
    if count_of(reader, b")") != "indefinite":
        raise Refused("Notation")

    kinds = []

    def chunk():
        if not is_string(reader):
            raise Refused("Notation")
        is_text, content, width = string(reader, level)
        kinds.append(is_text)
        if kinds[0] != is_text or width == "indefinite":
            raise Refused("Notation")
        return head(3 if is_text else 2, len(content), width) + content, True

    content = b"".join(members(reader, b")", level, chunk))
    return (b"\x7f" if kinds and kinds[0] else b"\x5f") + content + b"\xff"


def simple(reader):
    reader.want(b"(")
    reader.blank()
    begun, word = reader.at, reader.word()
    value = integer(word) if re.fullmatch(rb"[0-9]+|0x[0-9A-Fa-f]+|0o[0-7]+|0b[01]+", word) else 256
    if value > 255 or 24 <= value < 32:
        raise Refused("PastWidth", begun)
    reader.blank()
    reader.want(b")")
    return bytes([0xE0 | value]) if value < 24 else bytes([0xF8, value])


def address(content, level):
    """The tag of a network address, and the bytes of the address or of a prefix of it, which is an array."""
    text, slash, digits = content.partition(b"/")
    is_ipv6 = b":" in content
    try:
        found = socket.inet_pton(socket.AF_INET6 if is_ipv6 else socket.AF_INET, text.decode("ascii"))
    except (OSError, ValueError):
        raise Refused("Notation") from None
    if not slash:
        return 54 if is_ipv6 else 52, head(2, len(found)) + found
    if level == DEEPEST:
        raise Refused("TooDeep")
    if not re.fullmatch(rb"0|[1-9][0-9]*", digits) or int(digits) > 8 * len(found):
        raise Refused("Notation")
    if int.from_bytes(found, "big") & (1 << 8 * len(found) - int(digits)) - 1:
        raise Refused("Notation")
    kept = found.rstrip(b"\0")
    return 54 if is_ipv6 else 52, head(4, 2) + head(0, int(digits)) + head(2, len(kept)) + kept


def named_address(reader, level, is_tagged):
    """The bytes of an address or a prefix, which is one level deeper below its tag."""
    end = reader.text.find(b"'", reader.at)
    if end < 0:
        raise Refused("Notation")
    if is_tagged and level == DEEPEST:
        raise Refused("TooDeep")
    tag, found = address(reader.text[reader.at:end], level + is_tagged)
    reader.at = end + 1
    return head(6, tag) + found if is_tagged else found


def named_date(reader, level, is_tagged):
    """The bytes of the seconds of a date with a time, which are one level deeper below tag 1."""
    end = reader.text.find(b"'", reader.at)
    found = seconds_of_datetime(reader.text[reader.at:end].decode()) if end >= 0 else None
    if not found or found[1] is not None and found[0] < 0:
        raise Refused("Notation")
    if is_tagged and level == DEEPEST:
        raise Refused("TooDeep")
    reader.at = end + 1
    seconds, digits = found
    if digits is not None:
        value = float_item(False, seconds + Fraction(int(digits[:9].ljust(9, "0")), 10**9), None)
    else:
        value = head(0, seconds) if seconds >= 0 else head(1, -1 - seconds)
    return head(6, 1) + value if is_tagged else value


def named(reader, level):
    begun, word = reader.at, reader.word()
    if word in (b"dt", b"DT") and reader.take(b"'"):
        return named_date(reader, level, word == b"DT")
    if word in (b"ip", b"IP") and reader.take(b"'"):
        return named_address(reader, level, word == b"IP")
    if word == b"float" and reader.take(b"'"):
        begun, bits = reader.at, digits_of(reader, 16)
        if len(bits) not in FORMATS:
            raise Refused("Notation", begun)
        return float_head(int.from_bytes(bits, "big"), len(bits))
    if word == b"simple":
        return simple(reader)
    if word in WORDS:
        return bytes([0xE0 | WORDS[word]])
    if word.partition(b"_")[0] in SPECIAL:
        try:
            return named_float(word)
        except Refused as refused:
            raise Refused(refused.name, begun) from None
    raise Refused("Notation", begun)


def item(reader, level):
    """The bytes of the item at the place, which is at a level; and whether it is a string."""
    if level > DEEPEST:
        raise Refused("TooDeep")
    if is_string(reader):
        return string_item(reader, level), True
    if reader.begins(*(bytes([byte]) for byte in b"0123456789+-.")):
        return number_item(reader, level), False
    for major, opening, closing, member in ((4, b"[", b"]", item), (5, b"{", b"}", pair)):
        if reader.take(opening):
            width = count_of(reader, closing)
            found = members(reader, closing, level, lambda: member(reader, level + 1))
            return container(major, width, len(found), b"".join(found)), False
    if reader.take(b"("):
        return chunks(reader, level), True
    return named(reader, level), False


def edn_to_bytes(text):
    """The bytes of the items of a text. An error has the place where the reader stops."""
    try:
        text.decode("utf-8")
    except UnicodeDecodeError:
        raise Refused("Notation") from None
    reader = Reader(text)
    try:
        return b"".join(members(reader, None, 1, lambda: item(reader, 1)))
    except Refused as refused:
        raise Refused(refused.name, reader.at if refused.place is None else refused.place) from None
