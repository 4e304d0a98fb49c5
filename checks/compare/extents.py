"""How bytes begin, where hex is wrong, where bytes stop being UTF-8, and the turns of a reader: docs/BYTES.md."""

from bytes_form import BREAK, head_at, item_at, string_at
from hex_form import HEX_DIGITS
from item import DEEPEST, Refused, utf8


def refusal(data):
    """Why no item begins so, or None."""
    try:
        item_at(data, 0, 1)
    except Refused as refused:
        return refused.name
    return None


def extent(data):
    """How bytes begin. Fewer bytes than those that have a fault are cut, and more have the same fault."""
    name = refusal(data)
    if name is None:
        return f"item {item_at(data, 0, 1)[1]}"
    if name == "CutShort":
        return "truncated"
    cut, end = 0, len(data)
    while end - cut > 1:
        half = (cut + end) // 2
        cut, end = (half, end) if refusal(data[:half]) == "CutShort" else (cut, half)
    return f"malformed {name} {end}"


# ---- hex with comments ----


def kept(text):
    """What is kept of hex, as pairs of a byte and its place."""
    found, place = [], 0
    for line in utf8(text).split(b"\n"):
        whole = place + len(line) < len(utf8(text))
        content = line[:-1] if whole and line.endswith(b"\r") else line
        content = content.partition(b"#")[0]
        found += [(byte, place + at) for at, byte in enumerate(content) if byte != 0x20]
        place += len(line) + 1
    return found


def hex_error(text):
    """The error of hex and its place, or None."""
    found = kept(text)
    wrong = [place for byte, place in found if byte not in HEX_DIGITS]
    if len(found) % 2:
        return "OddHex", wrong[0] if wrong else found[-1][1]
    return ("BadHex", wrong[0]) if wrong else None


def hex_fault(text):
    return " ".join(map(str, hex_error(text) or ["none"]))


def hex_place(text, number):
    """Where both digits of a byte stand."""
    places = [place for _, place in kept(text)]
    return str(places[2 * number]) if 2 * number + 1 < len(places) else "none"


def hex_bytes(text):
    """The bytes of hex, or the name of its error."""
    wrong = hex_error(text)
    return wrong[0] if wrong else bytes(byte for byte, _ in kept(text)).decode().lower()


# RFC 3629, section 4: the first bytes of a character, and the bytes that may follow
TAIL = range(0x80, 0xC0)
CHARACTERS = [
    (range(0x00, 0x80), []), (range(0xC2, 0xE0), [TAIL]),
    (range(0xE0, 0xE1), [range(0xA0, 0xC0), TAIL]), (range(0xE1, 0xED), [TAIL] * 2),
    (range(0xED, 0xEE), [range(0x80, 0xA0), TAIL]), (range(0xEE, 0xF0), [TAIL] * 2),
    (range(0xF0, 0xF1), [range(0x90, 0xC0), TAIL, TAIL]), (range(0xF1, 0xF4), [TAIL] * 3),
    (range(0xF4, 0xF5), [range(0x80, 0x90), TAIL, TAIL]),
]


def utf8_fault(data):
    """The place of the first byte with which no UTF-8 goes on, or of an end within a character."""
    at = 0
    while at < len(data):
        rest = next((more for first, more in CHARACTERS if data[at] in first), None)
        if rest is None:
            return str(at)
        at += 1
        for allowed in rest:
            if at >= len(data) or data[at] not in allowed:
                return str(at)
            at += 1
    return "none"


# ---- turns ----


class Turns:
    """Counts the turns of a reader, up to the first thing that is not there or wrong, and knows the last string."""

    def __init__(self, data):
        self.data, self.count = data, 0
        # where the content of the last string begins
        self.content = 0

    def string(self, at, major, number, info):
        self.content = at
        return string_at(self.data, at, major, number, info)[1]

    def item(self, at, level):
        self.count += 1
        if level > DEEPEST:
            raise Refused("CutShort" if at >= len(self.data) else "TooDeep")
        major, info, number, after = head_at(self.data, at)
        if major in (2, 3) and number is not None:
            return self.string(after, major, number, info)
        if major in (2, 3):
            return self.chunks(after, major)
        if major in (4, 5, 6):
            count = {4: number, 5: None if number is None else 2 * number, 6: 1}[major]
            return self.parts(after, level + 1, count, 2 if major == 5 else 1)
        return after

    def breaks(self, at):
        return self.data[at:at + 1] == bytes([BREAK])

    def chunks(self, at, major):
        while True:
            self.count += 1
            if self.breaks(at):
                return at + 1
            if at < len(self.data) and (self.data[at] >> 5 != major or self.data[at] & 31 > 27):
                raise Refused("Head")
            _, info, number, after = head_at(self.data, at)
            at = self.string(after, major, number, info)

    def parts(self, at, level, count, size):
        done = 0
        while count is None or done < count:
            if count is None and done % size == 0 and self.breaks(at):
                at += 1
                break
            at, done = self.item(at, level), done + 1
        self.count += 1
        return at


def counted(data):
    """The turns of a reader, and where the content of the last string begins."""
    counter = Turns(data)
    try:
        counter.item(0, 1)
    except Refused:
        pass
    return counter.count, counter.content


def turns(data):
    return counted(data)[0]


def place_of_fault(data, name, end):
    """The place of a fault that the first bytes up to an end have: of a text that ends there, its first wrong byte."""
    if name == "Utf8":
        begin = counted(data)[1]
        return begin + int(utf8_fault(data[begin:end]))
    return max(end - 1, 0)
