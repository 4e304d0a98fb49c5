"""CDDL made by a seed: some rules, and items that are made after them, a part of them damaged.

A maker gives two texts at once: of CDDL, and a function to an item in EDN that mostly fits.
"""

from item import Refused

TEXTS = ["", "a", "b", "ab", "aab", "abcd", "é", "key"]
KEYS = ["a", "b", "c", "d"]
NAMES = {
    "int": ["0", "5", "-1", "300"], "uint": ["0", "7", "256"], "nint": ["-1", "-70000"], "bool": ["true", "false"],
    "tstr": [f'"{text}"' for text in TEXTS], "bstr": ["h''", "h'01'", "h'0203ff'"], "float": ["0.5", "-2.0", "1.1"],
    "number": ["1", "1.0", "-3", "2.5"], "nil": ["null"], "any": ["1", "[1, 2]", '{"a": 1}', "null", "2(h'05')"],
    "time": ["1(1700000000)", "1(1.5)"], "tdate": ['0("2013-03-21T20:04:00Z")'],
    "biguint": ["2(h'010000000000000000')"],
}
LITERALS = [("1", "1"), ("-2", "-2"), ("1.5", "1.5"), ('"a"', '"a"'), ('"ab"', '"ab"'), ("h'01'", "h'01'"),
            ("true", "true"), ("0..5", "3"), ("-3...3", "2"), ("0.0..1.0", "0.5")]
CONTROLS = [("tstr .size (1..3)", '"ab"'), ("uint .size 1", "255"), ("bstr .size 2", "h'0102'"), ("int .lt 5", "4"),
            ("number .ge 1", "1"), ("int .ne 3", "2"), ("uint .bits (0..3)", "9"), ("bstr .bits (0 / 9)", "h'0102'"),
            ('tstr .regexp "[ab]+"', '"aab"'), ("1 .plus 2", "3"), ('"a" .cat "b"', '"ab"'), ("int .default 7", "1"),
            ("tstr .eq \"a\"", '"a"'),
            ("uint .size (2 / 70)", "65536"), ("&(x: 1, y: 2)", "2")]
OTHERS = ["0", "-1", "1.0", "1.5", '"a"', '"zz"', "h'01'", "null", "true", "[]", "[1]", "{}", '{"a": 1}', "1(2)",
          "<<1>>"]
OCCURRENCES = [("", 1, 1), ("", 1, 1), ("? ", 0, 1), ("* ", 0, 3), ("+ ", 1, 3), ("2*3 ", 2, 3), ("*2 ", 0, 2),
               ("1* ", 1, 2)]


class Maker:
    """Makes rules, those that are referred to first."""

    def __init__(self, chance):
        self.chance, self.types, self.groups, self.lines = chance, [], {"[": [], "{": []}, []

    def rules(self):
        """The text, the first rule at its beginning, and a function to an item."""
        for number in range(self.chance.randrange(4)):
            kind = self.chance.choice("t[{")
            name = f"r{number}"
            if kind == "t":
                text, made = self.type(2)
                self.types.append((name, made))
            else:
                text, made = self.group(kind, 2)
                text = f"({text})"
                self.groups[kind].append((name, made))
            self.lines.insert(0, f"{name} = {text}")
        text, made = self.type(3)
        if self.chance.random() < 0.2:
            self.lines.append("pair<t, u> = [t, * u]")
            text, made = f"pair<{self.in_brackets(text)}, int>", lambda inner=made: f"[{inner()}, 1, 2]"
        return "\n".join([f"root = {text}", *self.lines]), made

    def in_brackets(self, text):
        return f"({text})"

    def damaged(self, made):
        """Now and then something else."""
        return lambda: self.chance.choice(OTHERS) if self.chance.random() < 0.06 else made()

    def type(self, depth):
        kinds = [self.plain]
        if depth:
            kinds += [self.choice, self.array, self.array, self.map, self.map, self.tag, self.embedded, self.both]
        text, made = self.chance.choice(kinds)(depth)
        return text, self.damaged(made)

    def plain(self, _):
        if self.types and self.chance.random() < 0.3:
            return self.chance.choice(self.types)
        if self.chance.random() < 0.4:
            name = self.chance.choice(sorted(NAMES))
            return name, lambda: self.chance.choice(NAMES[name])
        text, item = self.chance.choice(LITERALS + CONTROLS)
        return self.in_brackets(text), lambda: item

    def choice(self, depth):
        parts = [self.type(depth - 1) for _ in range(self.chance.randrange(2, 4))]
        return self.in_brackets(" / ".join(text for text, _ in parts)), lambda: self.chance.choice(parts)[1]()

    def both(self, depth):
        text, made = self.type(depth - 1)
        return f"({text} .and {self.chance.choice(['any', text])})", made

    def tag(self, depth):
        number = self.chance.choice([0, 1, 24, 1000])
        text, made = self.type(depth - 1)
        return f"#6.{number}({text})", lambda: f"{number}({made()})"

    def embedded(self, depth):
        if self.chance.random() < 0.5:
            text, made = self.type(depth - 1)
            return f"(bstr .cbor {text})", lambda: f"<<{made()}>>"
        text, made = self.group("[", depth - 1)
        return f"(bstr .cborseq [{text}])", lambda: f"<<{', '.join(made())}>>"

    def array(self, depth):
        text, made = self.group("[", depth - 1)
        opening = self.chance.choice(["[", "[", "[_ "])
        return f"[{text}]", lambda: opening + ", ".join(made()) + "]"

    def map(self, depth):
        text, made = self.group("{", depth - 1)
        return f"{{{text}}}", lambda: "{" + ", ".join(f"{key}: {value}" for key, value in self.distinct(made())) + "}"

    def distinct(self, pairs):
        """The pairs in some order, each key once."""
        found = list(dict(pairs).items())
        self.chance.shuffle(found)
        return found

    def group(self, kind, depth):
        """A group, and a function to its members, or to its pairs."""
        parts = [self.entries(kind, depth) for _ in range(self.chance.choice([1, 1, 1, 2, 3]))]
        return " // ".join(text for text, _ in parts), lambda: self.chance.choice(parts)[1]()

    def entries(self, kind, depth):
        parts = [self.entry(kind, depth) for _ in range(self.chance.randrange(4))]
        return ", ".join(text for text, _ in parts), lambda: [one for _, made in parts for one in made()]

    def entry(self, kind, depth):
        mark, low, high = self.chance.choice(OCCURRENCES)
        text, made = self.once(kind, depth)
        return mark + text, lambda: [one for _ in range(self.chance.randint(low, high)) for one in made()]

    def once(self, kind, depth):
        if self.groups[kind] and self.chance.random() < 0.2:
            return self.chance.choice(self.groups[kind])
        if depth > 0 and self.chance.random() < 0.2:
            text, made = self.group(kind, depth - 1)
            return f"({text})", made
        text, made = self.type(depth)
        if kind == "[":
            return text, lambda: [made()]
        key, key_made = self.key()
        return key + text, lambda: [(key_made(), made())]

    def key(self):
        word = self.chance.choice(KEYS)
        words = [f"{word}: ", f'"{word}" => ', f'"{word}" ^ => ']
        kinds = [*((text, f'"{word}"') for text in words), ("1: ", "1"), ("2 => ", "2"), ("[1] => ", "[1]")]
        if self.chance.random() < 0.75:
            text, item = self.chance.choice(kinds)
            return text, lambda: item
        name = self.chance.choice(["tstr", "int", "any"])
        mark = self.chance.choice([" => ", " ^ => "])
        return name + mark, lambda: self.chance.choice(NAMES["tstr" if name == "any" else name])


def made(chance, count, read):
    """Rules, and the bytes of some items."""
    text, item = Maker(chance).rules()
    found = []
    for _ in range(count):
        try:
            found.append(read(item().encode()))
        except Refused:
            continue
    return text, found
