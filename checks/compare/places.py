"""Where in an item bytes are cut or at fault, and the paths of an item: a decoder written from RFC 8949, section 3, and
docs/DECISIONS.md. Steps of paths are those of share/man/cborcat.1."""

import re

from bytes_form import parse_bytes
from edn_form import edn_to_bytes
from edn_text import HIDDEN, Writer
from item import Refused, Text

# the longest key that a message names; in lines of paths 1,024 bytes are
LONGEST = 40


class Stop(Exception):
    """Bytes are cut or at fault: what cborcat says, without the name of the input."""


def there(count, noun=""):
    if count == 0:
        return f"no {noun} is there" if noun else "none is there"
    noun = noun and f" {noun}{'' if count == 1 else 's'}"
    return f"{count}{noun} {'is' if count == 1 else 'are'} there"


def joined(path, word):
    return f"{path}/{word}" if path else word


def is_notation(text):
    try:
        edn_to_bytes(text.encode())
        return True
    except Refused:
        return False


def is_plain(text):
    """Whether a step can be the text as it stands: it is read as no other step."""
    odd = any(one in "\"'/ \t\r\n" or ord(one) in HIDDEN for one in text)
    return not (text == "" or odd or is_notation(text) or re.fullmatch(r"\*|@[0-9]*", text) or re.match("[0-9]+:", text))


class Decoder:
    """Reads one item after the other from data that begins at a byte of an input. It gathers the lines of -t paths and
    the spots of all items: where each begins and ends, its path, whether it is in a key, and the line that says so.
    With a writer it enters the byte strings that the writer shows as items."""

    def __init__(self, data, begins=0, longest=LONGEST, writer=None):
        self.data, self.begins, self.longest, self.writer = data, begins, longest, writer
        self.at, self.leaves, self.spots, self.number = 0, [], [], 0
        # the open tags and containers: what each is called, whether a break ends it, the key of the value that is next
        self.open = []

    def take(self, count):
        part = self.data[self.at:self.at + count]
        self.at += len(part)
        return part

    def byte(self, place):
        return f"byte {self.begins + place}"

    def cut(self, noun, path, in_key, start, rest):
        words = f"the {noun}{' in a key' if in_key else ''}{f' at {path}' if path else ''}"
        words += f" ({self.byte(start)})" if in_key or path else f" at {self.byte(start)}"
        raise Stop(f"truncated: {words} has {rest}\n")

    def fault(self, place, line, words=""):
        at, byte = self.begins + place, self.data[place]
        if 28 <= byte & 31 <= 30:
            words = f"{byte:02x}: lengths 28 to 30 are reserved"
        elif not words and byte != 0xff:
            words = f"{byte:02x}: this major type has no indefinite length"
        raise Stop(f"byte {at} (0x{at:x}): {words or self.wrong_break(place)}\n{line}")

    def wrong_break(self, place):
        """Why the break at a place ends nothing."""
        if not any(ends for _, ends, _ in self.open):
            return "a break (ff), but no indefinite-length item is open"
        noun, ends, key = self.open[-1]
        if ends:
            text = Writer().item(parse_bytes(self.data[key:place]))
            named = len(text.encode()) <= LONGEST and "/" not in text
            return f"a break, and the key {text if named else f'at {self.byte(key)}'} has no value"
        if noun.startswith("tag "):
            return f"a break, and the {noun} has no item"
        return f"a break (ff), but the {noun} around it has a definite length"

    def items(self):
        while self.at < len(self.data):
            self.item("", False, "")
            self.number += 1

    def numbered(self, path):
        """A path of -t paths and --at: after the number of its item, if that is not the first."""
        return (f"{self.number}:" if self.number else "") + (path or "/")

    def item(self, path, in_key, line, begins=None):
        """Reads an item. The line says where it is; its tags begin at a place."""
        start = self.at
        begins = start if begins is None else begins
        number = len(self.spots)
        self.spots.append((start, None, path, in_key, line))
        if self.content(path, in_key, line, begins) and not in_key:
            self.leaves.append((begins, self.numbered(path), self.data[begins:self.at]))
        self.spots[number] = (start, self.at, path, in_key, line)

    def content(self, path, in_key, line, begins):
        """Reads what an item is; returns whether it is a line of paths."""
        start = self.at
        first = self.take(1)[0]
        major, info = first >> 5, first & 31
        if 28 <= info <= 30 or (info == 31 and major not in (2, 3, 4, 5)):
            self.fault(start, line)
        size = 1 << info - 24 if 24 <= info <= 27 else 0
        argument = self.take(size)
        if len(argument) < size:
            self.cut("head", path, in_key, start, f"{size + 1} bytes, {there(len(argument) + 1)}")
        number = None if info == 31 else int.from_bytes(argument, "big") if size else info
        if major in (4, 5) and (number or (number is None and self.data[self.at:self.at + 1] != b"\xff")):
            self.container(path, in_key, line, (start, major == 5, number))
            return False
        if major == 6:
            if self.at == len(self.data):
                self.cut(f"tag {number}", path, in_key, start, "no item")
            self.open.append((f"tag {number}", False, None))
            self.item(path, in_key, line, begins)
            self.open.pop()
            return False
        if major in (4, 5) and number is None:
            self.at += 1
        if major in (2, 3):
            self.string(path, in_key, line, (start, "text" if major == 3 else "byte string", number))
        return not (major == 2 and number and self.writer and not in_key and self.enters(path, line, number))

    def enters(self, path, line, count):
        """Reads the items in the byte string of which the last bytes were read, if they are shown; whether they are."""
        end, around = self.at, self.open
        tag = int(around[-1][0].removeprefix("tag ")) if around and around[-1][0].startswith("tag ") else None
        if self.writer.items_in(self.data[end - count:end], len(around) + 1, tag) is None:
            return False
        self.at = end - count
        self.open = around + [("byte string", False, None)]
        while self.at < end:
            step = f"@{self.at + count - end}" if tag == 63 else "@"
            self.item(joined(path, step), False, line)
        self.open = around
        return True

    def string(self, path, in_key, line, head):
        start, noun, number = head
        if number is not None:
            content = self.take(number)
            if len(content) < number:
                bytes_ = "byte" if number == 1 else "bytes"
                self.cut(noun, path, in_key, start, f"{number} {bytes_}, {there(len(content))}")
            return
        chunks = 0
        while self.data[self.at:self.at + 1] != b"\xff":
            place = self.at
            for byte in self.data[place:place + 1]:
                if byte >> 5 != self.data[start] >> 5 or byte & 31 > 27:
                    kind = "text string" if noun == "text" else noun
                    self.fault(place, line, f"a chunk of a {kind} has to be a {kind} of definite length")
            try:
                self.content("", True, "", place)
            except (Stop, IndexError):
                self.cut(f"{noun} of indefinite length", path, in_key, start, f"no end, {there(chunks, 'chunk')}")
            chunks += 1
        self.at += 1

    def key_name(self, start):
        """The key that begins at a place, as a step of a path."""
        item = parse_bytes(self.data[start:self.at])
        if isinstance(item, Text) and is_plain(item.content):
            text = item.content
        else:
            # a path is split at each slash outside of two quotes
            text = re.sub(r"\\(.)", lambda found: found[0].replace('\\"', "\\u0022"), Writer().item(item))
        return text if len(text.encode()) <= self.longest else f"(key at {self.byte(start)})"

    def container(self, path, in_key, outer, head):
        """Reads the parts of a container. In a key the line is that of the key."""
        start, is_map, count = head
        noun = "map" if is_map else "array"
        of = f"{noun} {'of indefinite length' if count is None else f'of {count}'} at {self.byte(start)}"
        index = 0
        while count is None or index < count:
            if count is None and self.data[self.at:self.at + 1] == b"\xff":
                self.at += 1
                break
            self.part_is_there(path, in_key, head, there(index))
            self.open.append((noun, count is None, None))
            if not is_map:
                place = path if in_key else joined(path, str(index))
                self.item(place, in_key, outer if in_key else self.line(place, False, of, there(index)))
            else:
                key = self.at
                self.item(path, True, outer if in_key else self.line(path, True, of, there(index)))
                count_there = f"{index} and a key are there" if index else "a key is there"
                self.part_is_there(path, in_key, head, count_there)
                self.open[-1] = (noun, count is None, key)
                place = path if in_key else joined(path, self.key_name(key))
                self.item(place, in_key, outer if in_key else self.line(place, False, of, count_there))
            self.open.pop()
            index += 1

    def line(self, path, in_key, of, count_there):
        where = f"at {path}, " if path else ""
        return f"    {where}in {'a key of ' if in_key else ''}the {of}, of which {count_there}\n"

    def part_is_there(self, path, in_key, head, words):
        start, is_map, count = head
        if self.at < len(self.data):
            return
        noun = "map" if is_map else "array"
        if count is None:
            self.cut(f"{noun} of indefinite length", path, in_key, start, f"no end, {words}")
        parts = ("pair" if is_map else "item") + ("" if count == 1 else "s")
        self.cut(noun, path, in_key, start, f"{count} {parts}, {words}")


def said(data, begins=0):
    """What cborcat says of these bytes, without the name of the input and the excerpt; nothing of whole items."""
    try:
        Decoder(data, begins).items()
    except Stop as stop:
        return str(stop)
    return ""


def starts(data):
    """The places where items that follow one another begin."""
    found, decoder = [], Decoder(data)
    while decoder.at < len(data):
        found.append(decoder.at)
        try:
            decoder.item("", False, "")
        except Stop:
            break
    return found


def heads(data):
    """The places of the heads of items."""
    decoder = Decoder(data)
    decoder.items()
    return [start for start, *_ in decoder.spots]
