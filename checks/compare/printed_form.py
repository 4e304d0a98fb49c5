"""Bytes as programs print and have them, read by patterns: docs/INPUTS.md. The kind of a text, and where each byte is.

A reading is a list of pairs, a byte and its place in the text, or None."""

import re

ADDRESS = re.compile(r"([ \t]*)(0x)?([0-9A-Fa-f]{4,16})(?: <[^>\n]*>)?(:?)(?=[ \t]|$)")
MOST_REPEATED = 1 << 24
SPACE = r"(?:[ \t\n\f\r]|//[^\n]*|\#[^\n]*|/\*(?:.|\n)*?\*/|\\(?=[\r\n]|\Z))*"
TYPES = set("""BYTE Buffer Byte Int8Array UINT8 UInt8 UInt8Array Uint8Array Uint8ClampedArray Uint8List byte byteArrayOf
bytearray bytes char i8 int8 int8_t sbyte u8 ubyteArrayOf uchar uint8 uint8_t vec""".split())
CALLS = set("fromhex from_hex hex hexToBytes parseHex unhexlify decode_hex".split())
NUMBER = re.compile(r"(?:\(\w*\)" + SPACE + r")?(?P<at>-?)(?:0[xX](?P<hex>[0-9A-Fa-f]+)|0[bB](?P<bits>[01]+)|(?P<ten>\d+))"
                    r"(?:u|U|u8|_u8|i8|UL|L)?(?![\w$])(?:\.toByte\(\))?")
ESCAPES = dict(zip("abtnvfre\\'\"?", b"\a\b\t\n\v\f\r\x1b\\'\"?"))
REST = re.compile(SPACE + r"(?:[)\]};,]" + SPACE + r")*(?:unsigned int [\w$]*" + SPACE + "=" + SPACE + r"(?P<count>\d+);\s*)?\Z")


def pairs(text, begins):
    """Pairs of hex digits, with blanks between them and nothing else."""
    if not re.fullmatch(r"[ \t]*(?:(?:0x)?[0-9A-Fa-f]{2}[ \t]*)*\s*", text):
        return None
    return [(int(found[1], 16), begins + found.start(1)) for found in re.finditer("(?:0x)?([0-9A-Fa-f]{2})", text)] or None


def shows(column, line):
    """Whether a text column shows these bytes, with bars or brackets around it or without; blanks do not count."""
    inner = re.fullmatch(r"\|(.*)\||>(.*)<", column, re.S)
    line = [byte for byte, _ in line if byte != 0x20]
    for text in [column] + ([inner[1] or inner[2] or ""] if inner else []):
        text = re.sub(r"[ \t\r\n\f]", "", text)
        if len(text) == len(line) and all(
                not 0x20 < byte < 0x7F or one in (chr(byte), ".") for byte, one in zip(line, text)):
            return True
    return False


def units(rest, at, colon):
    """The bytes of a line of a dump, behind its address."""
    unit = r"(?:0x)?[0-9A-Fa-f]{2}|(?:[0-9A-Fa-f]{2})+" if colon else r"(?:0x)?[0-9A-Fa-f]{2}"
    found, end = [], 0
    while True:
        gap = len(rest[end:]) - len(rest[end:].lstrip(" \t"))
        more = rest[end + gap:]
        if not more or (end and gap > 1 and shows(more, found)):
            return found
        one = re.match(rf"(?:{unit})(?=[ \t]|$)", more)
        if not one:
            return None
        found += pairs(one[0], at + end + gap)
        end += gap + one.end()


def dump_in(text, base, begins):
    """A dump whose addresses are in this base."""
    found, last, first, style, lines, at = [], [], None, None, 0, begins
    stars, over, sure = False, False, False
    for line in text.split("\n"):
        here, at = at, at + len(line) + 1
        line = line.rstrip(" \t\r\f")
        if not line:
            continue
        if over or len(line) > 4096:
            return None
        if line == "*":
            if stars or not last:
                return None
            stars = True
            continue
        address = ADDRESS.match(line)
        if not address or style not in (None, (address[2], address[4])):
            return None
        style = address[2], address[4]
        try:
            value = int(address[3], base)
        except ValueError:
            return None
        if first is None:
            first, sure = value, address[2] or (address[4] and len(address[3]) > 7)
        missing = value - first - len(found)
        if missing < 0 or bool(missing) != stars or missing > MOST_REPEATED or (missing and missing % len(last)):
            return None
        found += last * (missing // len(last)) if missing else []
        last = units(line[address.end():], here + address.end(), address[4])
        if last is None:
            return None
        found, stars, over, lines = found + last, False, not last, lines + 1
    return found if found and not stars and (sure or first == 0 or lines > 1) else None


def dump(text):
    """A dump, with the name of the program that writes such."""
    heading = re.match(r"(?:\$ |\(gdb\) )[^\n]*\n|[^\n]*\n(?=\t0x0000:)", text)
    begins = heading.end() if heading else 0
    text = text[begins:]
    line = text.split("\n", 1)[0]
    address = ADDRESS.match(line)
    if not address:
        return None
    seven = len(address[3]) == 7 and not address[2] and not address[4]
    readings = [found for base in ((8, 10, 16) if seven else (16,)) if (found := dump_in(text, base, begins))]
    if not readings or len({len(found) for found in readings}) > 1:
        return None
    if line[address.end():].lstrip().startswith("0x"):
        return "Gdb", readings[0]
    name = {5: "Wireshark", 4: "Wireshark", 6: "Od", 7: "Od"}.get(len(address[3]), "Hexdump")
    return "Tcpdump" if address[2] else "Xxd" if address[4] else name, readings[0]


def number(found):
    """The byte of a number, or None."""
    digits = found["hex"] or found["bits"] or found["ten"]
    value = int(digits, 16 if found["hex"] else 2 if found["bits"] else 10)
    if found["ten"] and digits[0] == "0" and value > 7:
        return None
    if found["at"]:
        return -value % 256 if value <= 128 else None
    return value if value < 256 else None


def array(text, at):
    """The bytes of an array that begins with a bracket here, and what may follow."""
    close = re.escape({"{": "}", "[": "]", "(": ")"}[text[at]])
    found, at = [], at + 1
    while True:
        at = re.compile(SPACE).match(text, at).end()
        if re.compile(close).match(text, at):
            return found if ends(text, at + 1, len(found)) else None
        one = NUMBER.match(text, at)
        if not one or number(one) is None:
            return None
        found.append((number(one), one.start("at")))
        comma = re.compile(SPACE + f"(?:,|(?={close}))").match(text, one.end())
        if not comma:
            return None
        at = comma.end()


def ends(text, at, count):
    """Whether nothing follows but brackets, and the length that xxd -i declares."""
    rest = REST.match(text, at)
    return bool(count and rest and int(rest["count"] or count) == count)


def hex_string(text, at, says, is_bytes):
    """The bytes of hex in quotes that begin here, if something before or behind says that they are hex."""
    quote = text[at]
    found = re.compile(rf"{quote}(\\\\x|\\x)?([^{quote}]*){quote}(, ?(?:'hex'|\"hex\")|::bytea)?").match(text, at)
    if not found:
        return None
    plain = found[1] and quote == "'" and len(found[2]) > 2 and not is_bytes
    if not (says or found[3] or plain):
        return None
    bytes_ = pairs(found[2], found.start(2))
    return bytes_ if bytes_ and ends(text, found.end(), len(bytes_)) else None


def strings(text, at, is_bytes, is_c):
    """The bytes of strings that begin here, side by side."""
    found, escaped = [], False
    piece = re.compile(r"\\x([0-9A-Fa-f]{1,2})|\\([0-7]{1,3})|\\([abtnvfre\\'\"?])|([^\\\x00-\x1f\x7f])")
    while True:
        quote, at = text[at], at + 1
        while text[at:at + 1] != quote:
            one = piece.match(text, at)
            if not one or (one[2] and int(one[2], 8) > 255):
                return None
            if one[1] and is_c and len(one[1]) == 2 and re.match("[0-9A-Fa-f]", text[one.end():]):
                return None
            value = bytes([int(one[1], 16)]) if one[1] else bytes([int(one[2], 8)]) if one[2] else bytes(
                [ESCAPES[one[3]]]) if one[3] else one[4].encode()
            found += [(byte, at) for byte in value]
            escaped, at = escaped or bool(one[1] or one[2]), one.end()
        more = re.compile(SPACE + r"\+?" + SPACE + ("b?" if is_bytes else "")).match(text, at + 1).end()
        if text[more:more + 1] not in ("'", '"'):
            break
        at = more
    return found if (is_bytes or escaped) and ends(text, at + 1, len(found)) else None


def code(text):
    """Bytes in code: the first array of bytes, or the first strings."""
    word, word_end, sign, types, at = "", 0, "", [], 0
    empty, is_c, b_end = True, False, 0
    for _ in range(1024):
        at = re.compile(SPACE).match(text, at).end()
        if text.startswith("'B'", at):
            types, at = ["B"], at + 3
        one = text[at:at + 1]
        if one in ("'", '"'):
            is_bytes = at > 0 and b_end == at
            says = word in CALLS if sign == "(" else not sign and word_end == at and word in ("E", "X", "x")
            found = hex_string(text, at, says, is_bytes)
            if found:
                return "QuotedHex", found
            found = None if not is_bytes and sign and sign in "[,:" else strings(text, at, is_bytes, is_c)
            return ("Escapes", found) if found else None
        if one == "{":
            hexed = empty and re.compile(r"\{" + SPACE + "0x").match(text, at)
            may = types or sign == "=" or hexed
        else:
            may = one and one in "[(" and types and (sign or word_end != at or re.search("(^o|O)f$", word))
        found = array(text, at) if may else None
        if found:
            return "Array", found
        name = re.compile(r"[A-Za-z0-9_$]+").match(text, at)
        if name and name[0] == "b":
            b_end = at = name.end()
            continue
        if name:
            word, word_end, sign = name[0], name.end(), ""
            types += [word] if word in TYPES else []
            is_c, at = is_c or word in ("char", "uint8_t", "uchar"), name.end()
        elif one and one in "[]()=<>,;:.*&!@":
            sign, at = one, at + 1
        else:
            return None
        empty = False
    return None


def rows(text):
    """A column of psql."""
    lines, at, found = text.split("\n"), 0, []
    for index, line in enumerate(lines):
        row = line.strip(" \t\r\f")
        if index == 1 and not re.fullmatch("-{3,}", row):
            return None
        if index > 1 and row and not re.fullmatch(r"\(.*\)", row):
            values = pairs(line[3:], at + 3) if line.startswith(" \\x") else None
            if values is None:
                return None
            found += values
        at += len(line) + 1
    return ("Psql", found) if found else None


def printed(text):
    """What a text of bytes is, and the bytes with their places."""
    buffer = re.fullmatch(r"<Buffer ((?:.|\n)*)>\s*", text)
    if text.startswith("<Buffer "):
        found = pairs(buffer[1], 8) if buffer else None
        return ("Buffer", found) if found else None
    return dump(text) or rows(text) or code(text)
