"""Reads the lines of a page by Python's own parser of HTML: what is in their cells, and what is wrong with them."""

import html.parser
import re

# The elements, and the attributes that each may have.
LINES = {"span": {"class", "data-s", "data-e", "data-k", "data-n"}, "a": {"class", "id", "href"}, "b": {"class"},
         "i": {"class"}, "details": {"open"}, "summary": set(), "p": {"class", "data-s", "data-k"}}
PAGE = {"html": {"lang"}, "head": set(), "meta": {"charset", "http-equiv", "content", "name"}, "title": set(),
        "style": set(), "body": set(), "header": set(), "h1": set(), "div": {"class"}, "footer": {"id", "role"},
        "input": {"id", "type", "placeholder", "aria-label"}, "button": {"id", "type"}, "script": set(),
        "main": {"id", "tabindex", "aria-label"}, **LINES, "span": LINES["span"] | {"id", "role"}}
EMPTY = {"meta", "input"}
KINDS = set("nsbgvcme")


class Lines(html.parser.HTMLParser):
    """The elements of lines, or of a whole page. `wrong` says what is not as it has to be."""

    def __init__(self, known):
        super().__init__(convert_charrefs=True)
        self.known, self.open, self.wrong = known, [], []
        self.texts, self.digits = [], []  # what is in each cell of text, and in each of bytes
        self.spans = []  # of each item: its first byte, the byte after it, its step, whether it is a key, its text
        self.offsets, self.faults = [], []  # the offsets with the number of their line, and the last lines
        self.raw = {"style": "", "script": ""}
        self.policy = ""

    def handle_starttag(self, tag, attributes):
        given = dict(attributes)
        for name in given:
            if name not in self.known.get(tag, set()):
                self.wrong.append(f"<{tag} {name}>")
        if tag not in self.known:
            self.wrong.append(f"<{tag}>")
        words = (given.get("class") or "").split()
        if given.get("http-equiv") == "Content-Security-Policy":
            self.policy = given["content"]
        if tag == "span" and words[:1] == ["t"]:
            self.texts.append("")
        if tag == "span" and words == ["h"]:
            self.digits.append("")
        if tag == "a":
            self.offsets.append((len(self.digits), int(given["id"][1:], 16), given["href"]))
        if tag == "p":
            self.faults.append([int(given["data-s"]), given["data-k"], ""])
        if "data-e" in given:
            self.spans.append([int(given["data-s"]), int(given["data-e"]), given.get("data-k"), "k" in words, ""])
        if tag in ("b", "i") and not (len(words) == 1 and words[0] in KINDS):
            self.wrong.append(f"<{tag} class={words}>")
        if tag not in EMPTY:
            self.open.append((tag, words, given))

    def handle_endtag(self, tag):
        if not self.open or self.open[-1][0] != tag:
            self.wrong.append(f"</{tag}> where {[name for name, _, _ in self.open]} are open")
            return
        self.open.pop()

    def handle_data(self, data):
        classes = [words[0] for _, words, _ in self.open if words]
        if self.open and self.open[-1][0] in self.raw:
            self.raw[self.open[-1][0]] += data
        elif "t" in classes:
            self.texts[-1] += data
            if "data-e" in self.open[-1][2]:
                self.spans[-1][4] += data
        elif "h" in classes:
            self.digits[-1] += data
        elif classes[-1:] == ["f"]:
            self.faults[-1][2] += data

    def bytes(self):
        """The bytes that the cells have."""
        return bytes.fromhex(" ".join(self.digits))

    def text(self):
        """The text that the cells have: a line for each."""
        return "".join(text + "\n" for text in self.texts)


def read(text, known=None):
    """The lines in a text."""
    lines = Lines(known or LINES)
    lines.feed(text)
    lines.close()
    if lines.open:
        lines.wrong.append(f"{[name for name, _, _ in lines.open]} are not closed")
    return lines


def head(data, at):
    """Of the head at a place: its major type, its number (None for an indefinite length or a break), and its end."""
    major, info = data[at] >> 5, data[at] & 31
    if info < 24:
        return major, info, at + 1
    if info == 31:
        return major, None, at + 1
    end = at + 1 + (1 << (info - 24))
    return major, int.from_bytes(data[at + 1:end], "big"), end


def end_of(data, at):
    """Where the item at a place ends, or the data if it is truncated."""
    if at >= len(data):
        return len(data)
    major, number, end = head(data, at)
    if major in (2, 3) and number is not None:
        return min(end + number, len(data))
    if major < 2 or (major == 7 and number is not None):
        return min(end, len(data))
    left = {2: -1, 3: -1, 4: number, 5: None if number is None else 2 * number, 6: 1, 7: 0}[major]
    if number is None:
        while end < len(data) and data[end] != 0xff:
            end = end_of(data, end)
        return min(end + 1, len(data))
    for _ in range(left):
        end = end_of(data, end)
    return end


def items(data, enters, at=0, step=None, is_key=False, fault=None):
    """Each item at a place, before those in it: its first byte, the byte after it, its step (a key as its bytes), and
    whether it is a key. `enters` says whether the items in the byte string at a place are shown."""
    major, number, inner = head(data, at)
    end = end_of(data, at)
    yield at, end, step, is_key
    if major in (2, 3):
        if number is None:
            while data[inner] != 0xff:
                yield inner, end_of(data, inner), None, False
                inner = end_of(data, inner)
        elif enters(at):
            content = inner
            while inner < end:
                inside = end_of(data, inner)
                whole = content == inner and inside == end
                yield from items(data, enters, inner, "@" if whole else f"@{inner - content}")
                inner = inside
    elif major == 6:
        yield from items(data, enters, inner)
    elif major in (4, 5):
        index, key = 0, None
        while inner < end and not (number is None and data[inner] == 0xff):
            after = end_of(data, inner)
            if major == 4:
                yield from items(data, enters, inner, str(index))
            elif index % 2 == 0:
                key = data[inner:after]
                yield from items(data, enters, inner, None, True)
            else:
                yield from items(data, enters, inner, key)
            index, inner = index + 1, after


def sequence(data, enters):
    """The same of one item after the other."""
    at, number = 0, 0
    while at < len(data):
        yield from items(data, enters, at, f"{number}:" if number else None)
        at, number = end_of(data, at), number + 1


# The least number that needs a head of so many bytes.
LEAST = {1: 0, 2: 24, 3: 1 << 8, 5: 1 << 16, 9: 1 << 32}


def step_of(key):
    """The step to the value of a key, as far as it is known here: of a number in its shortest head, or of a text that is
    a plain word."""
    major, number, end = head(key, 0)
    if major < 2 and number < LEAST[end]:
        return None
    if major == 0:
        return str(number)
    if major == 1:
        return str(-1 - number)
    if major == 3 and re.fullmatch(rb"[a-z][A-Za-z]*[A-Z][A-Za-z]*", key[end:]):
        return key[end:].decode()
    return None


def faults(lines, data, text, whole=True):
    """What is wrong with the lines of data whose notation is this text."""
    yield from lines.wrong
    if lines.text() != text:
        yield f"the text is {lines.text()!r}"
    if lines.bytes() != data:
        yield f"the bytes are {lines.bytes().hex()}"
    at = 0
    places = {line: offset for line, offset, _ in lines.offsets}
    for number, digits in enumerate(lines.digits):
        if digits and places.get(number) != at:
            yield f"line {number} begins at byte {at}, and its offset is {places.get(number)}"
        if not digits and number in places:
            yield f"line {number} has no bytes, and an offset"
        at += len(bytes.fromhex(digits))
    if not whole:
        return
    entered = {span[0] for span in lines.spans if span[4].startswith("<<")}
    wanted = list(sequence(data, entered.__contains__))
    for (start, end, step, is_key), span in zip(wanted, lines.spans):
        if isinstance(step, bytes):
            step = step_of(step) or span[2]
        if [start, end, step, is_key] != span[:4]:
            yield f"the item {start, end, step, is_key} is {span}"
            return
    if len(wanted) != len(lines.spans):
        yield f"{len(wanted)} items, {len(lines.spans)} spans"
