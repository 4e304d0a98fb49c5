"""What `cborcat --diff` writes, and its status. Expected lines are written by hand from the items."""

import json
import os
import random
import time

from bytes_form import to_bytes
from cases import any_item

# Two items in notation, what differs by value, and what differs with `--exact` besides.
PAIRS = [
    ("1", "1", "", ""),
    ("1", "2", "~ /  1 -> 2\n", ""),
    ("1", "1.0", "~ /  1 -> 1.0\n", ""),
    ("1", "1_0", "", "= but for its encoding: /  1 -> 1_0\n"),
    ("1.5", "1.5_3", "", "= but for its encoding: /  1.5 -> 1.5_3\n"),
    ('"a"', "'a'", "~ /  \"a\" -> h'61' /'a'/\n", ""),
    ("[1, 2]", "[1]", "- 1  2\n", ""),
    ("[1]", "[1, [2, 3]]", "+ 1  [2, 3]\n", ""),
    ("[_ 1]", "[1]", "", "= but for its encoding: /  [_ 1] -> [1]\n"),
    ('{"a": 1, "b": 2}', '{"b": 2, "a": 1}', "",
     '= but for its encoding: /  {"a": 1, "b": 2} -> {"b": 2, "a": 1}\n'),
    ('{"a": 1, 2: 3}', '{2: 3, "b": 1}', "- a  1\n+ b  1\n", ""),
    ('{"a": {"b": [1, 2]}}', '{"a": {"b": [1, 3]}}', "~ a/b/1  2 -> 3\n", ""),
    ("{1: 2}", "{1_0: 3}", "~ 1  2 -> 3\n", ""),
    ("1(2)", "1(3)", "~ /  1(2 /1970-01-01T00:00:02Z/) -> 1(3 /1970-01-01T00:00:03Z/)\n", ""),
    ("1([2])", "1([3])", "~ 0  2 -> 3\n", ""),
    ("1([2])", "2([2])", "~ /  1([2]) -> 2([2])\n", ""),
    ("24(<<[1]>>)", "24(<<[2]>>)", "~ @/0  1 -> 2\n", ""),
    ("[h'8101']", "[h'8102']", "~ 0  h'8101' -> h'8102'\n", ""),
    ("[1, 2], 3", "[1, 2], 4", "~ 1:/  3 -> 4\n", ""),
    ("1, 2", "1", "- 1:/  2\n", ""),
    ("1", "1, 2", "+ 1:/  2\n", ""),
    ("(_ \"a\", \"b\")", '"ab"', "", "= but for its encoding: /  (_ \"a\", \"b\") -> \"ab\"\n"),
    ("2(h'05')", "5", "", "= but for its encoding: /  2(h'05' /5/) -> 5\n"),
    # Members that both have stay together.
    ("[1, 2, 3]", "[1, 3]", "- 1  2\n", ""),
    ("[1, 3]", "[1, 2, 3]", "+ 1  2\n", ""),
    ("[1, 2, 3, 4]", "[0, 1, 2, 9, 4]", "+ 0  0\n~ 2  3 -> 9\n", ""),
    ('[{"a": 1}, {"b": 2}]', '[0, {"a": 1}, {"b": 3}]', "+ 0  0\n~ 1/b  2 -> 3\n", ""),
    ("[[1, 2], [3, 4]]", "[[3, 4], [1, 2]]", "- 0  [1, 2]\n+ 1  [1, 2]\n", ""),
    ("[1, 2, 3, 4]", "[5, 6, 4]", "~ 0  1 -> 5\n~ 1  2 -> 6\n- 2  3\n", ""),
    ("[1, 2]", "[7, 1_0, 2]", "+ 0  7\n", "= but for its encoding: 0  1 -> 1_0\n"),
    ('[{1: 2, 3: 4}, 5]', '[6, {3: 4, 1: 2}, 5]', "+ 0  6\n",
     "= but for its encoding: 0  {1: 2, 3: 4} -> {3: 4, 1: 2}\n"),
    ("1, 2, 3", "2, 3, 4", "- /  1\n+ 2:/  4\n", ""),
    ("1, [2, 3], 4", "0, 1, [2], 4", "+ /  0\n- 1:1  3\n", ""),
]

# Maps with a key that stands twice, in hex, which notation cannot have: the first is compared with the first.
TWICE = [
    ("a201020103", "a201030102", "~ 1  2 -> 3\n~ 1  3 -> 2\n"),
    ("a201020103", "a201020104", "~ 1  3 -> 4\n"),
    ("a201020103", "a10102", "- 1  3\n"),
    ("a10102", "a201020103", "+ 1  3\n"),
    ("a3010201030104", "a3010205060103", "- 1  4\n+ 5  6\n"),
]


# Options, two items, what is written, and the status.
PARTS = [
    (["-p", "a"], '{"a": [1, 2], "b": 1}', '{"a": [1, 3], "b": 2}', "~ a/1  2 -> 3\n", 1),
    (["-p", "/a/1/"], '{"a": [1, 2], "b": 1}', '{"a": [1, 3], "b": 2}', "~ a/1  2 -> 3\n", 1),
    (["-p", "a/0"], '{"a": [1, 2], "b": 1}', '{"a": [1, 3], "b": 2}', "", 0),
    (["-p", "*/x"], '[{"x": 1}, {"x": 2}]', '[{"x": 1}, {"x": 3}]', "~ 1/x  2 -> 3\n", 1),
    (["-p", "*"], "[1, 2, 3]", "[0, 1, 2, 3]", "+ 0  0\n", 1),
    (["-p", "a"], '{"a": 1}', "{}", "- a  1\n", 1),
    (["-p", "a"], '{"a": 1}, {"a": 2}', '{"a": 1}, {"a": 3}', "~ 1:a  2 -> 3\n", 1),
    (["-p", "1:"], '1, {"a": 2}', '0, {"a": 3}', "~ 1:a  2 -> 3\n", 1),
    (["-p", "0:"], '1, {"a": 2}', '1, {"a": 3}', "", 0),
    (["-p", "@/1"], "h'820102'", "h'820103'", "~ @/1  2 -> 3\n", 1),
    (["-p", "a", "--exact"], '{"a": 1, "b": 1}', '{"a": 1_0, "b": 2}', "= but for its encoding: a  1 -> 1_0\n", 1),
    # Names, and where they lead to another key.
    (["--as=CWT"], '{1: "a", 4: 60}', '{1: "b", 4: 61}',
     '~ iss  "a" -> "b"\n~ exp  60 /1970-01-01T00:01:00Z/ -> 61 /1970-01-01T00:01:01Z/\n', 1),
    (["--as=CWT"], '{1: "a", "iss": 2}', '{1: "b", "iss": 3}', '~ 1  "a" -> "b"\n~ iss  2 -> 3\n', 1),
    (["--no-notes"], "18([h'a10126', {}, 1(60), h''])", "18([h'a10126', {}, 1(61), h''])", "~ 2  1(60) -> 1(61)\n", 1),
    (["--no-names"], "1(60)", "1(61)", "~ /  1(60 /1970-01-01T00:01:00Z/) -> 1(61 /1970-01-01T00:01:01Z/)\n", 1),
    ([], "18([h'a10126', {}, h'', h''])", "18([h'a10127', {}, h'', h''])",
     "~ protected/alg  -7 /ES256/ -> -8 /EdDSA/\n", 1),
    (["--no-names"], "18([h'a10126', {}, h'', h''])", "18([h'a10127', {}, h'', h''])",
     "~ 0  h'a10126' -> h'a10127'\n", 1),
    (["-p", "protected"], "18([h'a10126', {}, h'', h''])", "18([h'a10127', {}, h'', h''])",
     "~ protected/alg  -7 /ES256/ -> -8 /EdDSA/\n", 1),
    (["-p", "0/@"], "18([h'a10126', {}, h'', h''])", "18([h'a10127', {}, h'', h''])",
     "~ 0/@/alg  -7 /ES256/ -> -8 /EdDSA/\n", 1),
]

# Two long strings, and how each is written.
WINDOWS = [
    ('"' + 100 * "a" + '"', '"' + 50 * "a" + "b" + 49 * "a" + '"',
     '"...' + 33 * "a" + '..." /byte 50 of 100/', '"...' + 16 * "a" + "b" + 16 * "a" + '..." /byte 50 of 100/'),
    ('"' + 100 * "a" + '"', '"' + 40 * "a" + "XY" + 60 * "a" + '"',
     '"...' + 32 * "a" + '..." /after 40 of 100 bytes/',
     '"...' + 16 * "a" + "XY" + 16 * "a" + '..." /bytes 40 to 41 of 102/'),
    ("h'" + 140 * "0" + "'", "h'" + 139 * "0" + "1'",
     "h'..." + 34 * "0" + "' /byte 69 of 70/", "h'..." + 33 * "0" + "1' /byte 69 of 70/"),
    ('"' + 10 * "x" + 200 * "o" + 10 * "y" + '"', '"' + 10 * "x" + 300 * "n" + 10 * "y" + '"',
     '"' + 10 * "x" + 32 * "o" + "..." + 32 * "o" + 10 * "y" + '" /bytes 10 to 209 of 220/',
     '"' + 10 * "x" + 32 * "n" + "..." + 32 * "n" + 10 * "y" + '" /bytes 10 to 309 of 320/'),
    ('"' + 70 * "a" + '\u00e9"', '"' + 70 * "a" + '\u00e8"',
     '"...' + 16 * "a" + 'é" /bytes 70 to 71 of 72/', '"...' + 16 * "a" + 'è" /bytes 70 to 71 of 72/'),
    ('""', '"' + 65 * "a" + '"', '"" /after 0 of 0 bytes/', '"' + 32 * "a" + "..." + 32 * "a" + '" /bytes 0 to 64 of 65/'),
    ('"' + 64 * "a" + '"', '"' + 63 * "a" + 'b"', '"' + 64 * "a" + '"', '"' + 63 * "a" + 'b"'),
    ('"' + 65 * "a" + '"', "h''", '"' + 65 * "a" + '"', "h''"),
]


def any_value(chance, depth):
    """A value of JSON. Its numbers are from a wide range, so that hardly any stands twice."""
    kind = chance.randrange(6) if depth > 0 else chance.randrange(2)
    if kind == 0:
        return chance.randrange(10 ** 6)
    if kind == 1:
        return f"t{chance.randrange(10 ** 6)}"
    if kind < 4:
        return [any_value(chance, depth - 1) for _ in range(chance.randrange(8))]
    return {f"k{chance.randrange(20)}": any_value(chance, depth - 1) for _ in range(chance.randrange(6))}


def changed(chance, value):
    """The value with one part changed, added or left out; value is a container."""
    value = json.loads(json.dumps(value))
    at = value
    while True:
        inner = [part for part in (at.values() if isinstance(at, dict) else at) if isinstance(part, (dict, list))]
        if not inner or chance.randrange(3) == 0:
            break
        at = chance.choice(inner)
    new = any_value(chance, 1)
    if isinstance(at, dict):
        key = f"k{chance.randrange(20)}"
        if key in at and chance.randrange(2):
            del at[key]
        else:
            at[key] = new
    else:
        place = chance.randrange(len(at) + 1)
        kind = chance.randrange(3) if place < len(at) else 0
        at[place:place + (kind > 0)] = [new] if kind < 2 else []
    return value


class Cell:
    """A value whose parts are cells, so that one can be changed or marked as removed in its place."""

    def __init__(self, value):
        self.removed = False
        self.put(value)

    def put(self, value):
        if isinstance(value, dict):
            value = {key: Cell(part) for key, part in value.items()}
        elif isinstance(value, list):
            value = [Cell(part) for part in value]
        self.value = value

    def follow(self, steps):
        cell = self
        for step in steps:
            cell = cell.value[int(step) if isinstance(cell.value, list) else step]
        return cell

    def purge(self):
        """Drops what was marked."""
        if isinstance(self.value, dict):
            self.value = {key: part for key, part in self.value.items() if not part.removed}
        elif isinstance(self.value, list):
            self.value = [part for part in self.value if not part.removed]
        else:
            return
        for part in self.value.values() if isinstance(self.value, dict) else self.value:
            part.purge()

    def plain(self):
        if isinstance(self.value, dict):
            return {key: part.plain() for key, part in self.value.items()}
        if isinstance(self.value, list):
            return [part.plain() for part in self.value]
        return self.value


def steps_of(path):
    """The steps of a path in a sequence, the first of which is the number of the item."""
    number, mark, rest = path.rpartition(":")
    return [number if mark else "0"] + [step for step in rest.split("/") if step]


def applied(items, lines):
    """What the lines make of a list of items: paths of ~ and - are those of the old items, of + those of the new."""
    root = Cell(items)
    rows = [line[2:].split("  ", 1) + [line[0]] for line in lines]
    for cell, text, mark in [(root.follow(steps_of(path)), text, mark) for path, text, mark in rows if mark != "+"]:
        if mark == "-":
            cell.removed = True
        else:
            cell.put(json.loads(text.split(" -> ")[1]))
    root.purge()
    for path, text, mark in rows:
        if mark == "+":
            *way, last = steps_of(path)
            around = root.follow(way).value
            if isinstance(around, list):
                around.insert(int(last), Cell(json.loads(text)))
            else:
                around[last] = Cell(json.loads(text))
    return root.plain()


def any_differences(same, diff, write):
    """Generated items, some edits of them, and others: the lines make the new items of the old ones."""
    for seed in range(300):
        chance = random.Random(seed)
        items = [any_value(chance, 3) for _ in range(chance.randrange(1, 5))]
        others = items
        if seed % 3:
            for _ in range(chance.randrange(1, 4)):
                others = changed(chance, others)
        else:
            others = [any_value(chance, 3) for _ in range(chance.randrange(1, 5))]
        texts = [", ".join(json.dumps(item) for item in some) for some in (items, others)]
        old, new = write("old.edn", texts[0].encode()), write("new.edn", texts[1].encode())
        written, said, status = diff("--no-notes", old, new)
        lines = written.decode().splitlines()
        same(f"lines of {texts[0]} and {texts[1]}", (applied(items, lines), said, status),
             (others, "", int(items != others)))


def few_lines(same, diff, write):
    """Edits of an array of numbers that are all different: at most a line for each."""
    for seed in range(100):
        chance = random.Random(seed)
        numbers = chance.sample(range(10 ** 6), chance.randrange(1, 40))
        others = list(numbers)
        edits = chance.randrange(1, 8)
        for _ in range(edits):
            place = chance.randrange(len(others) + 1)
            kind = chance.randrange(3) if place < len(others) else 0
            others[place:place + (kind > 0)] = [chance.randrange(10 ** 6)] if kind < 2 else []
        old, new = ({"a": [some, {"b": 1}]} for some in (numbers, others))
        paths = [write(f"{name}.edn", json.dumps(item).encode()) for name, item in (("old", old), ("new", new))]
        written, said, status = diff(*paths)
        lines = written.decode().splitlines()
        same(f"few lines of {numbers} and {others}: {lines}", len(lines) <= edits, True)
        same(f"lines of {numbers} and {others}", (applied([old], lines), said, status),
             ([new], "", int(old != new)))


def long_sequences(same, diff, write):
    """One item more in many, and many that are moved: a line each, in no long time."""
    items = [to_bytes(item) for item in (any_item(random.Random(seed)) for seed in range(200))]
    many = [b"\x82" + b"\x1a" + number.to_bytes(4, "big") + items[number % 200] for number in range(100_000)]
    old, new = write("old.cbor", b"".join(many)), write("new.cbor", b"".join(many[:40_000] + [b"\x01"] + many[40_000:]))
    began = time.monotonic()
    same("one more of 100,000", diff("-f", "bytes", old, new), (b"+ 40000:/  1\n", "", 1))
    same("one less of 100,000", diff("-f", "bytes", new, old), (b"- 40000:/  1\n", "", 1))
    new = write("new.cbor", b"\x01" + b"".join(many[:50_000] + many[50_001:]) + b"\x02")
    written, said, status = diff("-f", "bytes", "--no-notes", old, new)
    marks = [line.split(b"  ")[0] for line in written.splitlines()]
    same("at both ends and in the middle", (marks, said, status), ([b"+ /", b"- 50000:/", b"+ 100000:/"], "", 1))
    same("seconds of a few of 100,000", time.monotonic() - began < 30, True)
    numbers = list(range(20_000))
    random.Random(1).shuffle(numbers)
    old = write("old.edn", json.dumps(list(range(20_000))).encode())
    new = write("new.edn", json.dumps(numbers).encode())
    began = time.monotonic()
    written, said, status = diff(old, new)
    same("in another order", (len(written.splitlines()) <= 20_000, said, status), (True, "", 1))
    same("seconds of another order", time.monotonic() - began < 30, True)


def check(run, same, folder):
    """All of it, on files of the folder."""
    def write(name, data):
        path = os.path.join(folder, name)
        with open(path, "wb") as file:
            file.write(data)
        return path

    def diff(*words):
        return run("--diff", *words)

    for first, second, by_value, more in PAIRS:
        old, new = write("old.edn", first.encode()), write("new.edn", second.encode())
        same(f"{first} and {second}", diff(old, new), (by_value.encode(), "", 1 if by_value else 0))
        exact = by_value + more
        same(f"{first} and {second}, exactly", diff("--exact", old, new), (exact.encode(), "", 1 if exact else 0))
        same(f"{first} and itself", diff("--exact", old, old), (b"", "", 0))

    old, new = write("old.edn", b"[h'8101']"), write("new.edn", b"[h'8102']")
    same("into a byte string", diff("-e", old, new), (b"~ 0/@/0  1 -> 2\n", "", 1))
    for first, second, wanted in TWICE:
        old, new = write("old.cbor", bytes.fromhex(first)), write("new.cbor", bytes.fromhex(second))
        same(f"{first} and {second}", diff(old, new), (wanted.encode(), "", 1))
    old, new = write("old.edn", b"[h'8101']"), write("new.edn", b"[h'8102']")
    bad = write("bad.cbor", b"\x82\x01")
    said = f"cborcat: {bad}: truncated: the array at byte 0 has 2 items, 1 is there\n"
    same("no CBOR", diff(old, bad), (b"", said, 2))
    same("one file", diff(old), (b"", "cborcat: --diff compares two files\n", 2))
    same("exactly alone", run("--exact", old), (b"", "cborcat: --exact is for --diff\n", 2))
    for words, first, second, wanted, status in PARTS:
        old, new = write("old.edn", first.encode()), write("new.edn", second.encode())
        same(f"{words} of {first} and {second}", diff(*words, old, new), (wanted.encode(), "", status))
    for path, said in (("c", 'c: no such key; the map has "a"'), ("5:", "5: no such item; 1 item came, from 0 on")):
        old = write("old.edn", b'{"a": 1}')
        wanted = 2 * f"cborcat: {old}: {said}\n"
        same(f"{path} in neither", diff("-p", path, old, old), (b"", wanted, 2))
    for first, second, before, after in WINDOWS:
        old, new = write("old.edn", first.encode()), write("new.edn", second.encode())
        same(f"{first} and {second}", diff("--no-notes", old, new), (f"~ /  {before} -> {after}\n".encode(), "", 1))
    any_differences(same, diff, write)
    few_lines(same, diff, write)
    long_sequences(same, diff, write)
    old, new = write("old.edn", b"[h'8101']"), write("new.edn", b"[h'8102']")
    out = os.path.join(folder, "difference")
    same("into a file", (diff(old, new, "-o", out), open(out, "rb").read()), ((b"", "", 1), b"~ 0  h'8101' -> h'8102'\n"))

    for seed in range(100):
        chance = random.Random(seed)
        data, other = to_bytes(any_item(chance)), to_bytes(any_item(chance))
        old, new = write("old.cbor", data), write("new.cbor", other)
        same(f"item {seed} and itself", diff("--exact", old, old), (b"", "", 0))
        written, said, status = diff("--exact", old, new)
        same(f"items of {seed}", (bool(written), said, status), (data != other, "", int(data != other)))
