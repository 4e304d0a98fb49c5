"""CDDL, read from a text into rules: RFC 8610, appendix B, with the changes of RFC 9682.

A node is equal to another one if it means the same: where it stands in the text is no part of that.
"""

import base64
import re
from dataclasses import dataclass, field
from typing import Optional

MANY = float("inf")
NAME = re.compile(r"[A-Za-z@_$](?:[-.]*[A-Za-z0-9@_$])*")
BLANK = re.compile(r"(?:[ \r\n]|;[^\n]*(?:\n|\Z))*")
HEX_FLOAT = re.compile(r"-?0x[0-9A-Fa-f]+(?:\.[0-9A-Fa-f]+)?p[-+]?[0-9]+")
FLOAT = re.compile(r"-?(?:0|[1-9][0-9]*)(?:\.[0-9]+(?:[eE][-+]?[0-9]+)?|[eE][-+]?[0-9]+)")
INTEGER = re.compile(r"-?(?:0x[0-9A-Fa-f]+|0b[01]+|0|[1-9][0-9]*)")
TEXT = re.compile(r'"((?:[^"\\\n]|\\.)*)"')
BYTES = re.compile(r"(h|b64)?'((?:[^'\\]|\\.)*)'", re.DOTALL)
ESCAPE = re.compile(r"\\(?:u\{0*([0-9A-Fa-f]{1,6})\}|u([0-9A-Fa-f]{4})|(.))", re.DOTALL)
LETTERS = {"b": "\b", "f": "\f", "n": "\n", "r": "\r", "t": "\t"}
BOUND = r"(?:0x[0-9A-Fa-f]+|0b[01]+|[0-9]+)"
OCCURRENCE = re.compile(rf"({BOUND})?\*({BOUND})?|\+|\?")


class Fault(Exception):
    """What is wrong in a text: the place of a character, and words if they are known."""

    def __init__(self, at, words):
        super().__init__(words)
        self.at, self.words = at, words


class NoMatch(Exception):
    """The text does not go on as it was tried."""


@dataclass(frozen=True)
class Node:
    """Something that stands from one place of the text to another."""

    span: tuple = field(default=(0, 0), compare=False, kw_only=True)


@dataclass(frozen=True)
class Value(Node):
    """A literal. The kind is there since 1 is not 1.0."""

    kind: str
    value: object


@dataclass(frozen=True)
class Name(Node):
    name: str
    arguments: tuple = ()


@dataclass(frozen=True)
class Choice(Node):
    types: tuple


@dataclass(frozen=True)
class Array(Node):
    group: "Group"


@dataclass(frozen=True)
class Map(Node):
    group: "Group"


@dataclass(frozen=True)
class Unwrap(Node):
    name: Node


@dataclass(frozen=True)
class Enum(Node):
    """`&` before a group, or before the name of one."""

    group: Node


@dataclass(frozen=True)
class Tag(Node):
    """The number is None for any tag, and may be a type."""

    number: object
    content: Node


@dataclass(frozen=True)
class Major(Node):
    """`#1.5`; a major type of None is that of any item."""

    major: Optional[int]
    number: object = None


@dataclass(frozen=True)
class Range(Node):
    low: Node
    high: Node
    has_high: bool


@dataclass(frozen=True)
class Control(Node):
    name: str
    target: Node
    controller: Node


@dataclass(frozen=True)
class Entry(Node):
    """Members of an array or pairs of a map: a type with a key or without one, or a group."""

    low: int
    high: object
    key: Optional[Node]
    cut: bool
    value: Node

    def is_type(self):
        """Whether nothing here says that this is a group."""
        return (self.low, self.high, self.key) == (1, 1, None) and not isinstance(self.value, Group)


@dataclass(frozen=True)
class Group(Node):
    """Alternatives, each a tuple of entries."""

    alternatives: tuple


@dataclass(frozen=True)
class Rule(Node):
    name: str
    parameters: tuple
    assignment: str
    body: Node


def remembered(kind):
    """Has the hash of a node computed once: arguments of generic rules may be nested deep."""
    computed = kind.__hash__

    def remember(self):
        if "_hash" not in self.__dict__:
            object.__setattr__(self, "_hash", computed(self))
        return self._hash
    kind.__hash__ = remember


for one_kind in Node.__subclasses__():
    remembered(one_kind)


class Reader:
    """Reads a text. What is wrong is said of the furthest place where something was wanted."""

    def __init__(self, text):
        self.text, self.at = text, 0
        self.furthest, self.wanted = -1, None
        # what stands at a place, and its end: a key is read as a type first, and then again as one without a key
        self.types = {}

    def no_match(self, wanted):
        if self.at > self.furthest:
            self.furthest, self.wanted = self.at, wanted
        raise NoMatch

    def blank(self):
        self.at = BLANK.match(self.text, self.at).end()

    def begins(self, text):
        return self.text.startswith(text, self.at)

    def take(self, text):
        found = self.begins(text)
        self.at += len(text) * found
        return found

    def want(self, text):
        if not self.take(text):
            self.no_match(text)

    def need(self, text):
        """Takes a text. If it is not there, that is no fault: something else may stand here."""
        if not self.take(text):
            raise NoMatch

    def match(self, pattern):
        found = pattern.match(self.text, self.at)
        if found:
            self.at = found.end()
        return found

    def attempt(self, function):
        """What the function reads; None if the text does not go on so."""
        begun = self.at
        try:
            return function()
        except NoMatch:
            self.at = begun
            return None

    def rules(self):
        found = []
        self.blank()
        try:
            while self.at < len(self.text):
                found.append(self.rule())
                self.blank()
        except NoMatch:
            raise Fault(self.furthest, f"expected {self.wanted}, found {self.token(self.furthest)}") from None
        return found

    def token(self, at):
        """What stands at a place, in a message."""
        found = re.compile(r'[A-Za-z0-9@_$]+|//=|/=|//|=>|\.\.\.?|"[^"\n]*"?|.', re.DOTALL).match(self.text, at)
        return found[0] if found else "the end"

    def rule(self):
        begun = self.at
        name = self.name("a rule")
        parameters = self.listed(lambda: self.name("a name"))
        self.blank()
        assignment = next((mark for mark in ("//=", "/=", "=") if self.take(mark)), None)
        if not assignment or assignment == "=" and self.begins(">"):
            self.no_match("=")
        self.blank()
        body = self.type() if assignment == "/=" else self.entry()
        return Rule(name, parameters, assignment, body, span=(begun, self.at))

    def name(self, wanted):
        return (self.match(NAME) or self.no_match(wanted))[0]

    def listed(self, one):
        """Parameters or arguments, if there are some."""
        if not self.take("<"):
            return ()
        found = []
        while not found or self.take(","):
            self.blank()
            found.append(one())
            self.blank()
        self.want(">")
        return tuple(found)

    def several(self, one, mark, refused=None):
        """One or more, with a mark between them."""
        found = [one()]
        while True:
            begun = self.at
            self.blank()
            if refused and self.begins(refused) or not self.take(mark):
                self.at = begun
                return tuple(found)
            self.blank()
            found.append(one())

    def type(self):
        begun = self.at
        types = self.several(self.type1, "/", "//")
        return types[0] if len(types) == 1 else Choice(types, span=(begun, self.at))

    def type1(self):
        begun = self.at
        if begun not in self.types:
            found = self.attempt(self.type1_anew)
            self.types[begun] = found, self.at
        found, self.at = self.types[begun]
        if found is None:
            raise NoMatch
        return found

    def type1_anew(self):
        begun = self.at
        target = self.type2()
        ended = self.at
        self.blank()
        operator = self.match(re.compile(r"\.\.\.?|\.([A-Za-z@_$](?:[-.]*[A-Za-z0-9@_$])*)"))
        if not operator:
            self.at = ended
            return target
        self.blank()
        right = self.type2()
        span = (begun, self.at)
        if operator[1]:
            return Control(operator[1], target, right, span=span)
        return Range(target, right, operator[0] == "..", span=span)

    def type2(self):
        begun = self.at
        found = self.value() or self.bracketed() or self.marked()
        if found is None:
            found = self.reference("a type")
        return with_span(found, (begun, self.at))

    def reference(self, wanted):
        """The name of a rule with its arguments."""
        begun = self.at
        return Name(self.name(wanted), self.listed(self.type1), span=(begun, self.at))

    def bracketed(self):
        """A type in parentheses, an array or a map."""
        if self.take("("):
            return self.until(self.type, ")")
        if self.take("["):
            return Array(self.until(self.group, "]"))
        if self.take("{"):
            return Map(self.until(self.group, "}"))
        return None

    def until(self, function, closing):
        self.blank()
        found = function()
        self.blank()
        self.want(closing)
        return found

    def marked(self):
        """A type that begins with `~`, `&` or `#`."""
        if self.take("~"):
            self.blank()
            return Unwrap(self.reference("a name"))
        if self.take("&"):
            self.blank()
            if self.take("("):
                return Enum(self.until(self.group, ")"))
            return Enum(self.reference("a group"))
        return self.numbered() if self.take("#") else None

    def numbered(self):
        """What follows `#`."""
        major = self.match(re.compile("[0-7]"))
        if not major:
            return Major(None)
        number = None
        if self.begins(".") and not self.begins(".."):
            self.at += 1
            number = self.head_number()
        if major[0] == "6" and self.take("("):
            return Tag(number, self.until(self.type, ")"))
        return Major(int(major[0]), number)

    def head_number(self):
        if self.take("<"):
            return self.until(self.type, ">")
        return int((self.match(re.compile(BOUND)) or self.no_match("a number"))[0], 0)

    def value(self):
        """A literal, if there is one."""
        found = self.match(HEX_FLOAT)
        if found:
            return Value("float", float.fromhex(found[0]))
        found = self.match(FLOAT)
        if found:
            return Value("float", float(found[0]))
        found = self.match(INTEGER)
        if found:
            return Value("int", int(found[0], 0))
        found = self.match(TEXT)
        if found:
            return Value("text", unescaped(found[1]))
        found = self.match(BYTES)
        return Value("bytes", self.content(found)) if found else None

    def content(self, found):
        """The bytes of a literal."""
        plain = "".join(found[2].split())
        try:
            if found[1] == "h":
                return bytes.fromhex(plain)
            if found[1] == "b64":
                return base64.urlsafe_b64decode(plain.replace("+", "-").replace("/", "_") + "=" * (-len(plain) % 4))
        except ValueError:
            self.at = found.start()
            self.no_match("a type")
        return unescaped(found[2].replace("\r\n", "\n")).encode()

    def group(self):
        begun = self.at
        alternatives = self.several(self.entries, "//")
        return Group(alternatives, span=(begun, self.at))

    def entries(self):
        """The entries of an alternative; a comma between them may be left out."""
        found = []
        while self.at < len(self.text) and not self.text[self.at] in ")]}" and not self.begins("//"):
            found.append(self.entry())
            ended = self.at
            self.blank()
            if self.take(","):
                ended = self.at
                self.blank()
        if found:
            self.at = ended
        return tuple(found)

    def entry(self):
        begun = self.at
        low, high = self.occurrence()
        key, cut = self.attempt(self.member_key) or (None, False)
        value = self.attempt(self.type)
        if value is None and key is None and self.take("("):
            value = self.until(self.group, ")")
        if value is None:
            self.no_match("a type")
        return Entry(low, high, key, cut, value, span=(begun, self.at))

    def occurrence(self):
        found = self.match(OCCURRENCE)
        if not found:
            return 1, 1
        self.blank()
        if found[0] in "+?":
            return (1, MANY) if found[0] == "+" else (0, 1)
        return int(found[1] or "0", 0), int(found[2], 0) if found[2] else MANY

    def member_key(self):
        """A key, and whether it cuts."""
        return self.attempt(self.word_key) or self.type_key()

    def word_key(self):
        begun = self.at
        key = self.value()
        if key is None:
            key = Value("text", self.name("a type"))
        key = with_span(key, (begun, self.at))
        self.blank()
        self.need(":")
        self.blank()
        return key, True

    def type_key(self):
        key = self.type1()
        self.blank()
        cut = self.take("^")
        self.blank()
        self.need("=>")
        self.blank()
        return key, cut


def with_span(node, span):
    """The node, which stands there; one in parentheses keeps its own place."""
    if node.span == (0, 0):
        object.__setattr__(node, "span", span)
    return node


def unescaped(content):
    """The characters of a literal. Two halves of a surrogate pair are one character."""
    def one(found):
        if found[1] or found[2]:
            return chr(int(found[1] or found[2], 16))
        return LETTERS.get(found[3], found[3])
    return ESCAPE.sub(one, content).encode("utf-16", "surrogatepass").decode("utf-16")


def read(text):
    return Reader(text).rules()
