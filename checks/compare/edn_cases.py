"""EDN made by a seed: items as somebody may write them, and what is nearly EDN."""

import base64

import cases
from bytes_form import resolve, sequence, to_bytes
from edn_text import INDICATORS, NAMES, Writer
from item import (
    Array, Bytes, Float, IndefiniteBytes, IndefiniteText, Integer, Map, Negative, Simple, Tagged, Text, shortest, utf8,
)

BLANKS = [" ", "\n", "\t", "\r", "/x/", "/'\"#/", "// y\n", "# z\n", "/* / */", "  "]
DECIMALS = [
    "0.1", "1.5", "-0.0", "65504.0", "65519.999", "65520.0", "5.960464477539063e-8", "2.98e-8", "2.9802322387695312e-8",
    "1e300", "1e308", "1.7976931348623157e308", "1.7976931348623159e308", "4.9e-324", "2e-324", "3.4028235e38",
    "3.4028236e38", "16777217.0", "1.", ".5", "+.5", "1E5", "0.00006103515625", "1e-45", "7e-46", "1.100000023841858",
]
CHARACTERS = [*"[]{}()<>,:\"'\\/_-+0123456789xhbofeEpinNaI #*= \t\n\r.u", "''_", "é", "h'", "<<", "(_", "//", "/*"]


def blank(chance):
    return "".join(chance.choice(BLANKS) for _ in range(chance.choice([0, 0, 0, 1, 1, 2])))


def some_blank(chance):
    return chance.choice(BLANKS) + blank(chance)


def indicator(chance, number, width):
    """The width that is stated, always where it has to be."""
    needed = width != shortest(number)
    return INDICATORS[width] if needed or chance.random() < 0.15 else ""


def number(chance, value, encoded, width):
    others = [f"0x{value:x}", f"0x{value:X}", f"0o{value:o}", f"0b{value:b}", f"00{value}"]
    return chance.choice([str(value)] * 4 + others) + indicator(chance, encoded, width)


def text_content(chance, content, quote):
    parts = []
    for one in content:
        code, plain = ord(one), one not in '\\' + quote
        escapes = [f"\\u{{{code:x}}}", f"\\u{{0{code:X}}}"]
        if code < 0x10000:
            escapes.append(f"\\u{code:04x}")
        else:
            escapes.append(f"\\u{0xD800 + (code - 0x10000 >> 10):04x}\\u{0xDC00 + (code - 0x10000 & 0x3FF):04X}")
        if one in "\\/" + quote:
            escapes.append("\\" + one)
        parts.append(one if plain and chance.random() < 0.8 else chance.choice(escapes))
    return quote + "".join(parts) + quote


def spread(chance, digits, blanks):
    at = chance.randrange(len(digits) + 1)
    return digits[:at] + (chance.choice(blanks) if chance.random() < 0.3 else "") + digits[at:]


def piece(chance, content):
    """A piece of these bytes."""
    kind = chance.randrange(8)
    if kind < 3:
        return "h'" + spread(chance, content.hex(), BLANKS[:4] + ["/x/", "# y\n", "// y\n"]) + "'"
    if kind == 3:
        return "b64'" + spread(chance, base64.b64encode(content).decode(), BLANKS[:4] + ["# y\n"]) + "'"
    if kind == 4:
        return "b32'" + spread(chance, base64.b32encode(content).decode().rstrip("="), BLANKS[:4]) + "'"
    if kind == 5:
        return "h32'" + base64.b32hexencode(content).decode() + "'"
    items, rest = sequence(content, 3)
    if kind == 6 and not rest:
        return listed(chance, "<<", [spelled(chance, item) for item in items], ">>")
    try:
        return text_content(chance, content.decode(), "'")
    except UnicodeDecodeError:
        return "h'" + content.hex() + "'"


def pieces(chance, content, is_text):
    at = chance.randrange(len(content) + 1)
    if chance.random() < 0.8:
        return text_content(chance, content, '"') if is_text else piece(chance, content)
    first, rest = content[:at], content[at:]
    if not is_text:
        parts = piece(chance, first), piece(chance, rest)
    elif chance.random() < 0.5:
        parts = text_content(chance, first, '"'), text_content(chance, rest, '"')
    else:
        parts = text_content(chance, first, '"'), piece(chance, utf8(rest))
    return (blank(chance) + "+" + blank(chance)).join(parts)


def string(chance, item):
    is_text = isinstance(item, Text)
    length = len(utf8(item.content)) if is_text else len(item.content)
    return pieces(chance, item.content, is_text) + indicator(chance, length, item.width)


def listed(chance, opening, members, closing):
    """Members apart by commas, or by a blank where the one before ends with none of a string."""
    text = opening + blank(chance)
    for place, member in enumerate(members):
        last = place + 1 == len(members)
        apart = chance.choice([",", ", ", " ,", ",\n"])
        if not last and chance.random() < 0.2 and not quoted_end(member) and not quoted_end(members[place + 1]):
            apart = " "
        text += member + (blank(chance) + apart + blank(chance) if not last else "")
    if members and chance.random() < 0.1:
        text += ","
    return text + blank(chance) + closing


def quoted_end(text):
    return any(mark in text for mark in "'\"<(")


def counted(chance, opening, count, width):
    if width is None:
        return opening + "_" + some_blank(chance)
    mark = indicator(chance, count, width)
    return opening + (mark + some_blank(chance) if mark else "")


def spelled(chance, item):
    if isinstance(item, Integer):
        return chance.choice(["", "", "", "+"]) + number(chance, item.value, item.value, item.width)
    if isinstance(item, Negative):
        return "-" + number(chance, item.value + 1, item.value, item.width)
    if isinstance(item, Float):
        digits = f"{item.bits:0{2 * item.width}x}"
        return f"float'{digits}'" if chance.random() < 0.3 else Writer().item(item)
    if isinstance(item, Simple):
        value = f"simple({blank(chance)}{item.value}{blank(chance)})"
        return NAMES.get(item.value, value) if chance.random() < 0.8 else value
    if isinstance(item, (Bytes, Text)):
        return string(chance, item)
    if isinstance(item, (IndefiniteBytes, IndefiniteText)):
        if not item.chunks:
            return "(_ )" if isinstance(item, IndefiniteBytes) and chance.random() < 0.5 else Writer().item(item)
        return listed(chance, "(_ ", [string(chance, chunk) for chunk in item.chunks], ")")
    if isinstance(item, Tagged):
        tag = number(chance, item.number, item.number, item.width)
        return tag + "(" + blank(chance) + spelled(chance, item.value) + blank(chance) + ")"
    if isinstance(item, Array):
        members = [spelled(chance, member) for member in item.members]
        return listed(chance, counted(chance, "[", len(members), item.width), members, "]")
    members = [spelled(chance, key) + blank(chance) + ":" + blank(chance) + spelled(chance, value)
               for key, value in item.pairs]
    return listed(chance, counted(chance, "{", len(members), item.width), members, "}")


def edn_text(chance):
    """A text in EDN, or something near."""
    kind = chance.randrange(8)
    if kind == 0:
        large = f"{chance.random()}e{chance.randrange(-330, 310)}"
        others = [chance.uniform(-1e5, 1e5), f"{chance.random():.30f}", large]
        digits = f"{chance.randrange(16 ** chance.choice([1, 13, 14, 15, 16, 40])):x}"
        point = chance.randrange(len(digits) + 1)
        others += 2 * [f"0x{digits[:point]}.{digits[point:]}p{chance.choice([0, 1, -1, -1022, -1074, 970])}"]
        tie = 2 * chance.randrange(1 << 23) + 1
        after = "0" * chance.choice([0, 20]) + chance.choice(["", "1"])
        others += [f"0x1.{tie:06x}{after}p{chance.choice([0, 1, -150, -126, 127])}", f"{1 + tie / (1 << 24):.24f}{after}"]
        text = str(chance.choice(DECIMALS + others)) + chance.choice(["", "", "_1", "_2", "_3", "f", "f16"])
    elif kind == 1:
        value = chance.choice([1 << 64, chance.randrange(1 << 70), chance.randrange(1 << 200), 10 ** 30])
        digits = [str(value), f"0x{value:x}", f"0b{value:b}", f"0o{value:o}"]
        text = chance.choice(["", "-", "+"]) + chance.choice(digits)
    else:
        items = [resolve(cases.any_item(chance)) for _ in range(chance.choice([1, 1, 1, 0, 2, 3]))]
        text = listed(chance, "", [spelled(chance, item) for item in items], "")
    if chance.random() < 0.1:
        count = chance.choice([63, 64, 126, 127, 128, 129])
        opening, closing = chance.choice([("[", "]"), ("24(<<", ">>)"), ("1(", ")"), ("{1:", "}"), ("<<", ">>")])
        text = opening * count + text + closing * count
    if chance.random() < 0.4:
        text = cases.damaged_text(chance, text, CHARACTERS)
    return utf8(text)


def sequence_bytes(chance):
    """Items one after the other, none a simple value below 32 in two bytes."""
    return b"".join(to_bytes(strict(cases.any_item(chance))) for _ in range(chance.choice([1, 1, 2, 4])))


def strict(item):
    """The item with 32 in place of each simple value from 24 to 31."""
    if isinstance(item, Simple):
        return Simple(32) if 24 <= item.value < 32 else item
    if isinstance(item, Array):
        return Array(tuple(map(strict, item.members)), item.width)
    if isinstance(item, Map):
        return Map(tuple((strict(key), strict(value)) for key, value in item.pairs), item.width)
    if isinstance(item, Tagged):
        return Tagged(item.number, item.width, strict(item.value))
    return item
