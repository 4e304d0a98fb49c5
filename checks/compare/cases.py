"""Inputs made by a seed: items, what is nearly an item, and texts."""

import base64

from bytes_form import to_bytes
from diag_text import INDICATORS, NAMES, to_diag, to_diag_pretty
from dump import to_hex
from item import (
    OPEN, WIDTHS, Array, Bytes, Float, IndefiniteBytes, IndefiniteText, Integer, Map, Negative, Simple,
    Tagged, Text, fits, utf8,
)
from tags import ELEMENTS, NAMES as TAG_NAMES

CHARACTERS = ["a", "b", "#", '"', "'", "\\", "/", "\n", "\r", "\t", " ", "\0", "\x7f", "\x85", "é", "\u2028", "😀"]
DATES = [
    "2013-03-21T20:04:00Z", "2013-03-21t21:34:00.12+01:30", "1990-12-31T23:59:60Z", "1969-12-31T23:59:59.5Z",
    "0000-01-01T00:00:00-23:59", "9999-12-31T23:59:60.9999999999z", "2013-02-29T00:00:00Z", "2013-03-21",
    "1940-10-09", "2000-02-29", "1900-02-29", "0000-01-01", "2013-3-21", "2013-03-21T20:04:00.Z", "2013-03-21T20:04Z",
    "2013-03-21T24:00:00Z", "2013-03-21T20:04:00+24:00", "2013-03-21T20:04:00\u22121:00", "-001-01-01", "+2013-03-21",
]
URLS = [
    "https://example.com", "http://", "http://[::1]:80/", "http://[::1", "mailto:a@b", "a", "//a", "http://a:99999/",
    "http://1.2.3.256/", "file:///etc", "http:a", "urn:uuid:1", "http://a b/", "ftp://u:p@h/", "http://@/",
    "x://<", "x:<",
]
SECONDS = [0, 1363896240, 253402300799, 253402300800, 377705116800, 377705116799, (1 << 63) - 1, (1 << 64) - 1]
DAYS = [0, 3994, 2932896, 2932897, 4371586, 4371587, 106751991167, (1 << 64) - 1]


def number(chance):
    return chance.choice([
        chance.randrange(24), chance.randrange(300), chance.randrange(1 << 17), chance.randrange(1 << 33),
        chance.randrange(1 << 64),
        chance.choice([23, 24, 255, 256, 65535, 65536, (1 << 32) - 1, 1 << 32, (1 << 64) - 1]),
    ])


def width_for(chance, value):
    """A width that a value fits, often the shortest."""
    if chance.random() < 0.3:
        return OPEN
    return chance.choice([width for width in WIDTHS if fits(value, width)][:chance.choice([1, 1, 2, 5])])


def some_bytes(chance):
    count = chance.randrange(6)
    if chance.random() < 0.3:
        count = chance.choice([0, 1, 2, 3, 4, 6, 8, 15, 16, 17, 23, 24, 25, 33, 60, 255, 256])
    if chance.random() < 0.2:
        return bytes(count)
    return bytes(chance.choice([chance.randrange(256), 32 + chance.randrange(95)]) for _ in range(count))


def some_text(chance):
    count = chance.choice([12, 15, 16, 23, 24, 25, 51, 52, 255]) if chance.random() < 0.2 else chance.randrange(6)
    return "".join(chance.choice(CHARACTERS) for _ in range(count))


def bytes_item(chance, content=None):
    content = some_bytes(chance) if content is None else content
    return Bytes(content, width_for(chance, len(content)))


def text_item(chance, content=None):
    content = some_text(chance) if content is None else content
    return Text(content, width_for(chance, len(utf8(content))))


def integer(chance, value):
    return Integer(value, width_for(chance, value))


def any_item(chance, depth=0):
    """A well formed item, at most some levels deep."""
    kind = chance.randrange(8 if depth > 5 else 14)
    if kind == 0:
        return integer(chance, number(chance))
    if kind == 1:
        value = number(chance)
        return Negative(value, width_for(chance, value))
    if kind == 2:
        return bytes_item(chance)
    if kind == 3:
        return text_item(chance)
    if kind == 4:
        return IndefiniteBytes(tuple(bytes_item(chance) for _ in range(chance.randrange(4))))
    if kind == 5:
        return IndefiniteText(tuple(text_item(chance) for _ in range(chance.randrange(4))))
    if kind == 6:
        return Simple(chance.choice([chance.randrange(256), 20 + chance.randrange(4), 20 + chance.randrange(14)]))
    if kind == 7:
        width = chance.choice([2, 4, 8, OPEN])
        return Float(chance.randrange(1 << (64 if width == OPEN else 8 * width)), width)
    count = chance.choice([0, 1, 1, 2, 3, 5, 12]) if depth < 3 else chance.randrange(3)
    width = None if chance.random() < 0.3 else width_for(chance, count)
    if kind in (8, 9):
        return Array(tuple(any_item(chance, depth + 1) for _ in range(count)), width)
    if kind == 10:
        return Map(tuple((any_item(chance, depth + 1), any_item(chance, depth + 1)) for _ in range(count)), width)
    return tagged_item(chance, depth)


def tagged_item(chance, depth):
    tag = chance.choice([number(chance), 24, 24, 63, 63, 21, 22, 23, chance.choice(list(TAG_NAMES))])
    value = fitting(chance, tag, depth) if chance.random() < 0.8 else any_item(chance, depth + 1)
    return Tagged(tag, width_for(chance, tag), value)


def fitting(chance, tag, depth):
    """A value that often has the type that a tag needs."""
    if tag == 24:
        content = to_bytes(any_item(chance, depth + 1))
        return bytes_item(chance, damaged(chance, content) if chance.random() < 0.2 else content)
    if tag == 63:
        content = b"".join(to_bytes(any_item(chance, depth + 2)) for _ in range(chance.randrange(4)))
        return bytes_item(chance, damaged(chance, content) if chance.random() < 0.3 else content)
    if tag in (0, 1004):
        return text_item(chance, chance.choice(DATES))
    if tag in (1, 100):
        value = max(0, chance.choice(SECONDS if tag == 1 else DAYS) + chance.randrange(-1, 2)) % (1 << 64)
        return (Integer if chance.random() < 0.5 else Negative)(value, OPEN)
    if tag in (28, 29):
        return any_item(chance, depth + 1) if tag == 28 else integer(chance, chance.randrange(3))
    if tag == 32:
        return text_item(chance, chance.choice(URLS))
    if tag in (33, 34):
        return text_item(chance, encoded_text(chance))
    if tag in (37, 52, 54, 260):
        return address(chance, {37: 16, 52: 4, 54: 16}.get(tag) or chance.choice([4, 6, 16]))
    if tag in ELEMENTS:
        return bytes_item(chance, some_bytes(chance)[:1] * (ELEMENTS[tag][1] * chance.randrange(4)))
    return any_item(chance, depth + 1)


def encoded_text(chance):
    content = some_bytes(chance)
    text = chance.choice([base64.b64encode, base64.urlsafe_b64encode])(content).decode()
    text = text.rstrip("=") if chance.random() < 0.5 else text
    return text[:-1] + "B" if text and chance.random() < 0.2 else text


def address(chance, size):
    octets = bytes(chance.choice([0, 0, 255, chance.randrange(256)]) for _ in range(size))
    octets = bytes(10) + b"\xff\xff" + octets[:4] if size == 16 and chance.random() < 0.2 else octets
    plain = bytes_item(chance, octets if chance.random() < 0.8 else octets[:chance.randrange(size)])
    if chance.random() < 0.5:
        return plain
    length = integer(chance, chance.randrange(130))
    prefix = bytes_item(chance, octets[:chance.randrange(size + 1)] + chance.choice([b"", b"\x01", b"\0"]))
    second = chance.choice([length, Simple(22), text_item(chance)])
    third = chance.choice([integer(chance, 7), text_item(chance), Simple(22)])
    members = chance.choice([
        (length, prefix), (length,), (plain,), (plain, second), (plain, second, third), (length, plain, third),
    ])
    return Array(members, None if chance.random() < 0.2 else OPEN)


def damaged(chance, content):
    """Bytes with one place changed."""
    at = chance.randrange(len(content) + 1)
    byte = bytes([chance.choice([chance.randrange(256), 0xFF, 0x9F, 0x5F, 0x7F, 0x1C, 0x18, 0xC0, 0x61])])
    return chance.choice([
        content[:at], content[:at] + byte + content[at:], content[:at] + byte + content[at + 1:],
        content[:at] + content[at + 1:], content + byte,
    ])


# ---- inputs of each form ----


def item_bytes(chance):
    """The bytes of an item, now and then with a second spelling of a simple value, or damaged."""
    content = to_bytes(any_item(chance))
    kind = chance.randrange(10)
    if kind == 0:
        content = b"\x82" + content + bytes([0xF8, chance.randrange(256)])
    if kind in (1, 2, 3):
        content = damaged(chance, content)
    if kind == 4:
        content = bytes(
            chance.choice([chance.randrange(256), 0x9F, 0x5F, 0xFF, 0x82, 0xA1]) for _ in range(chance.randrange(12))
        )
    if kind == 5:
        opening = chance.choice([b"\x81", b"\x9f", b"\xc1", b"\xa1\x00"])
        content = opening * chance.choice([120, 126, 127, 128, 129]) + content
    return content


def hex_text(chance):
    """Bytes in hex as somebody may write them, or something near."""
    content = item_bytes(chance)
    if chance.random() < 0.2:
        text = to_hex(any_item(chance))
    else:
        parts = []
        for byte in content:
            parts.append(f"{byte:02X}" if chance.random() < 0.1 else f"{byte:02x}")
            if chance.random() < 0.2:
                parts.append(chance.choice([" ", "  ", "\n", "\r\n", " # ff\n", "#\r\r\n", "\n\n", "# \u00e9 #\n"]))
        text = "".join(parts)
    if chance.random() < 0.3:
        text = damaged_text(chance, text, list("0123456789abcdefgG \t\r\n#\x0b\u00a0x"))
    return utf8(text)


def damaged_text(chance, text, characters):
    at = chance.randrange(len(text) + 1)
    character = chance.choice(characters)
    return chance.choice([
        text[:at], text[:at] + character + text[at:], text[:at] + character + text[at + 1:], text[:at] + text[at + 1:],
    ])


def blank(chance):
    if chance.random() < 0.8:
        return ""
    return "".join(chance.choice([" ", "\n", "\t", "\r", "/x/", "/'\"#/", "//"]) for _ in range(chance.randrange(3)))


def number_text(chance, value, width):
    others = [f"0x{value:x}", f"0x{value:X}", f"0o{value:o}", f"0b{value:b}", f"00{value}"]
    spelled = chance.choice([str(value)] * 4 + others)
    indicator = INDICATORS.get(width, "")
    if indicator and chance.random() < 0.2:
        indicator = "_0" + indicator[1:]
    return spelled + indicator


def spread(chance, digits, blanks):
    """Digits with blanks between them."""
    if not digits or chance.random() < 0.7:
        return digits
    at = chance.randrange(len(digits) + 1)
    return digits[:at] + chance.choice(blanks) + digits[at:]


def quoted(content, quote):
    return quote + content.replace("\\", "\\\\").replace(quote, "\\" + quote) + quote


def notation(chance, content):
    """One notation of some bytes."""
    whitespace = [" ", "\n", "  ", "\t"]
    kind = chance.randrange(7)
    if kind == 0:
        return "b32'" + spread(chance, base64.b32encode(content).decode(), whitespace + ["/x/"]) + "'"
    if kind == 1:
        return "h32'" + spread(chance, base64.b32hexencode(content).decode(), whitespace + ["/x/"]) + "'"
    if kind == 2:
        return "b64'" + spread(chance, base64.b64encode(content).decode(), whitespace) + "'"
    if kind == 3:
        return "b64'" + spread(chance, base64.urlsafe_b64encode(content).decode().rstrip("="), whitespace) + "'"
    if kind == 4 and content.isascii():
        return quoted(content.decode(), "'")
    digits = content.hex() if chance.random() < 0.8 else content.hex().upper()
    return "h'" + spread(chance, digits, whitespace + ["/'/", "//"]) + "'"


def notations(chance, content):
    at = chance.randrange(len(content) + 1)
    if chance.random() < 0.7:
        return notation(chance, content)
    return notation(chance, content[:at]) + blank(chance) + notation(chance, content[at:])


def text_notation(chance, content):
    if chance.random() < 0.8:
        return quoted(content, '"')
    at = chance.randrange(len(content) + 1)
    rest = content[at:]
    more = quoted(rest, '"') if chance.random() < 0.5 else notation(chance, utf8(rest))
    return quoted(content[:at], '"') + blank(chance) + more


def listed(chance, opening, members, closing):
    last = chance.choice([""] * 6 + [", ", ",\n", ",", ",/x/"])
    return opening + blank(chance) + ",".join(members) + last + closing


def spelled(chance, item):
    """An item in notation as somebody may write it."""
    return blank(chance) + spelled_core(chance, item) + blank(chance)


def spelled_core(chance, item):
    if isinstance(item, Integer):
        return number_text(chance, item.value, item.width)
    if isinstance(item, Negative):
        return "-" + number_text(chance, item.value + 1, item.width)
    if isinstance(item, Simple):
        return NAMES.get(item.value, f"simple({item.value})") if chance.random() < 0.8 else f"simple(0{item.value})"
    if isinstance(item, Float):
        digits = f"{item.bits:0{2 * (8 if item.width == OPEN else item.width)}x}"
        return f"float'{digits if chance.random() < 0.8 else digits.upper()}'"
    if isinstance(item, Bytes):
        return notations(chance, item.content)
    if isinstance(item, Text):
        return text_notation(chance, item.content)
    if isinstance(item, Tagged):
        return number_text(chance, item.number, item.width) + "(" + tag_content(chance, item) + ")"
    if isinstance(item, Array):
        members = [spelled(chance, member) for member in item.members]
        return listed(chance, "[_" if item.width is None else "[", members, "]")
    if isinstance(item, Map):
        members = [spelled(chance, key) + ":" + spelled(chance, value) for key, value in item.pairs]
        return listed(chance, "{_" if item.width is None else "{", members, "}")
    if not item.chunks and chance.random() < 0.7:
        return "''_" if isinstance(item, IndefiniteBytes) else '""_'
    return listed(chance, "(_", [spelled(chance, chunk) for chunk in item.chunks], ")")


def tag_content(chance, item):
    if chance.random() < 0.3:
        inner = [spelled(chance, any_item(chance, 5)) for _ in range(chance.randrange(3))]
        return blank(chance) + listed(chance, "<<", inner, ">>") + blank(chance)
    return spelled(chance, item.value)


def diag_text(chance):
    """A text in notation, or something near."""
    item = any_item(chance)
    kind = chance.randrange(6)
    text = to_diag(item) if kind == 0 else to_diag_pretty(item) if kind == 1 else spelled(chance, item)
    if chance.random() < 0.1:
        count = chance.choice([63, 64, 126, 127, 128, 129])
        opening, closing = chance.choice([("[", "]"), ("24(<<", ">>)"), ("1(", ")"), ("{1:", "}"), ("<<", ">>")])
        text = opening * count + text + closing * count
    if chance.random() < 0.4:
        characters = list("[]{}()<>,:\"'\\/_-0123456789xhbo =+ \t\n\re.")
        text = damaged_text(chance, text, characters + ["''_", '""_', "é", "h'", "<<", "(_"])
    return utf8(text)


INPUTS = {"bytes": item_bytes, "hex": hex_text, "diag": diag_text}
