"""What `checks/cborcat` checks of places: cuts, faults, the lines of -t paths, and --at."""
import os
import random

import places
from bytes_form import to_bytes
from cases import any_item
from edn_text import Writer


# what is wrong with the byte 1f
WRONG = "1f: this major type has no indefinite length"


class Program:
    """The program, and what counts a check."""

    def __init__(self, run, same, examples):
        self.run, self.same, self.examples = run, same, examples
        self.names = sorted(it for it in os.listdir(examples) if it.endswith((".hex", ".cbor")))

    def data(self, name):
        return self.run("-t", "bytes", f"{self.examples}/{name}")[0]

    def lines(self, *words, **how):
        """The lines of -t paths: places, paths and texts."""
        shown = self.run("-t", "paths", "--places", *words, **how)[0].decode()
        return [it.split("  ", 2) for it in shown.splitlines()]

    def as_bytes(self, text):
        return self.run("-f", "diag", "-t", "bytes", data=text.encode())[0]


def check(run, same, examples):
    """All of it: run runs the program, and same compares."""
    program = Program(run, same, examples)
    cuts_and_faults(program)
    leaves(program)
    any_leaves(program)
    odd_paths(program)
    bytes_at(program)
    partial(program)
    texts(program)
    any_texts(program)


def cuts_and_faults(program):
    """Bytes that are cut at each place, and a wrong byte at each head, against a decoder of places."""
    run, same = program.run, program.same
    for name in program.names:
        data = program.data(name)
        for end in range(len(data)):
            said = places.said(data[:end])
            wanted = (b"", f"cborcat: standard input: {said}", 1) if said else (b"", "", 0)
            same(f"{name} cut at {end}", run("-f", "bytes", "-c", data=data[:end]), wanted)
        for at in places.heads(data):
            for byte in (0x1f, 0x3d, 0xff):
                wrong = data[:at] + bytes([byte]) + data[at + 1:]
                error, status = run("-f", "bytes", "-c", data=wrong)[1:]
                lines = error.splitlines(keepends=True)
                said = f"cborcat: standard input: {places.said(wrong)}"
                same(f"{name} with {byte:02x} at {at}", ("".join(lines[:-2]), status), (said, 1))


def leaves(program):
    """The lines of -t paths: their places, their items, and where their paths lead; and --at for each."""
    run, same = program.run, program.same
    for name in program.names:
        if name == "log.cbor":  # of its items each path leads to a part of several
            continue
        data = program.data(name)
        lines = program.lines("--no-names", f"{program.examples}/{name}")
        decoder = places.Decoder(data, writer=Writer())
        decoder.items()
        found = [(int(at, 16), path, program.as_bytes(text)) for at, path, text in lines]
        same(f"{name}: lines", found, decoder.leaves)
        lines += program.lines(f"{program.examples}/{name}") + program.lines("-e", f"{program.examples}/{name}")
        for at, path, text in lines:
            part = run("-f", "bytes", "-t", "bytes", "-p", path, data=data)[0]
            same(f"{name}: {path}", part, program.as_bytes(text))
            byte = int(at, 16)
            words = ["-e"] if "@" in path else ["--no-names"]
            shown = run("-f", "bytes", f"--at={byte}", *words, data=data)[0].decode()
            same(f"{name}: --at={at}", shown.splitlines()[0], f"path: {path}")


def any_leaves(program):
    """Of items made by a seed: the bytes at the place of each line are its item."""
    chance = random.Random(2)
    for _ in range(100):
        data = b"".join(to_bytes(any_item(chance)) for _ in range(chance.randrange(1, 4)))
        for at, path, text in program.lines("-f", "bytes", data=data):
            at, item = int(at, 16), program.as_bytes(text.rsplit("  ", 1)[-1])
            program.same(f"{data.hex()}: {path}", data[at:at + len(item)], item)


ODD = r"""{"": 0, "@": 1, "a b": 2, "\\": 3, "a/b": 4, "1": 5, 1: 6, "true": 7, "a\"b": 8, {"\"/": 1}: 9, h'2f': 10,
    "\u00e9": 11, 1.5: 12, [1, 2]: 13, "(x": 14, "a'": 15, "*": 16, "1:a": 17,
    ":": 18}"""


def odd_paths(program):
    """Keys that need quotes, a value in more than one item, many lines, and what has no paths."""
    run, same = program.run, program.same
    lines = run("-t", "paths", "-f", "diag", "-x", f"[{ODD}]")[0].decode().splitlines()
    same("odd keys", len(lines), 19)
    for number, line in enumerate(lines):
        path, text = line.rsplit("  ", 1)
        same(f"the path {path}", text, str(number))
        found = run("-f", "diag", "-t", "diag", "-p", path, "-x", f"[{ODD}]")[0]
        same(f"-p {path}", found, f"{number}\n".encode())
    same("of two items", run("-t", "paths", "-f", "hex", "-x", "01 8102"), (b"/  1\n1:0  2\n", "", 0))
    same("with places", run("-t", "paths", "--places", "-f", "hex", "-x", "01 8102"),
         (b"0x0  /  1\n0x2  1:0  2\n", "", 0))
    same("--places of another form", run("--places", "-x", "1"), (b"", "cborcat: --places is for -t paths\n", 2))
    many = b"\x99\xea\x60" + b"\x01" * 60000
    same("many lines", run("-t", "paths", data=many)[0].count(b"\n"), 60000)
    same("no -p", run("-t", "paths", "-p", "1", "-x", "[1, 2]")[::2], (b"", 2))
    same("before a cut", run("-t", "paths", data=b"\x01\x82\x02"), (
        b"/  1\n", "cborcat: standard input: truncated: the array at byte 1 has 2 items, 1 is there\n", 1))


def bytes_at(program):
    """The item that a byte of the data belongs to."""
    def same_at(what, byte, digits, lines, said="", words=()):
        found = program.run(f"--at={byte}", *words, data=bytes.fromhex(digits))
        program.same(what, found, ("".join(f"{it}\n" for it in lines).encode(), said, 1 if said else 0))

    item = "8201a16161420001"
    same_at("in a string", 6, item, ["path: 1/a", "head: 42 # bytes(2)", "item: bytes 5 to 7 (0x5 to 0x7)"])
    same_at("in a key", 3, item, ["path: 1, in a key", "head: 61 # text(1)", "item: bytes 3 to 4 (0x3 to 0x4)"])
    same_at("in a later item", 2, "01810200", ["path: 1:0", "head: 02 # 2", "item: byte 2 (0x2)"])
    same_at("after an offset", 2, "ff018102", ["path: 1:/", "head: 81 # array(1)", "item: bytes 2 to 3 (0x2 to 0x3)"],
            words=["--offset=1"])
    same_at("past the end", 2, "0105", [],
            "cborcat: standard input: byte 2: no item has this byte; 2 bytes came\n", ["-f", "bytes"])
    same_at("before a fault", 1, "82011f", ["path: 0", "head: 01 # 1", "item: byte 1 (0x1)"],
            f"cborcat: standard input: byte 2 (0x2): {WRONG}\n"
            "    at 1, in the array of 2 at byte 0, of which 1 is there\n    82 01 1f\n          ^^\n")
    same_at("of a cut text", 3, "82016361", ["path: 1", "head: 63 # text(3)", "item: from byte 2 (0x2) on, not whole"],
            "cborcat: standard input: truncated: the text at 1 (byte 2) has 3 bytes, 1 is there\n")
    same_at("before an offset", 0, "01ff05", [],
            "cborcat: standard input: byte 0: no item has this byte; 3 bytes came\n", ["--offset=2"])
    for words in (["-t", "hex"], ["-p", "1"], ["-c"]):
        program.same(f"--at {words}", program.run("--at=1", *words, data=b"\x81\xff")[2], 2)


# what is said of the integer 7 in three bytes
LONG_SEVEN = "not preferred: the number 7 takes 3 bytes; 1 is enough"


# A text, its form, and the line and the column of the integer 7 in three bytes.
TEXTS = [
    ("7_1", "diag", 1, 1),
    ("1, 2 7_1", "diag", 1, 6),
    ("/a/ 1\n# b\n\t7_1", "diag", 3, 2),
    ('{"\u00e4": "\u00e4\u20ac", /c/ 7_1: 1}', "diag", 1, 17),
    ("{1: 2, 3: 7_1}", "diag", 1, 11),
    ("{_ 1: [_ 2, 7_1]}", "diag", 1, 13),
    ("(_ 'a', h'01'), 24(<<1, 2>>), 7_1", "diag", 1, 31),
    ("[DT'1970-01-01T00:00:00Z', ip'1.2.3.4', 7_1]", "diag", 1, 41),
    ("[18446744073709551616, ''_, 1.5, 7_1]", "diag", 1, 34),
    ("1(  2(/c/ [  'a' + <<1>> + h'02', 7_1]))", "diag", 1, 35),
    ("\ufeff[7_1]", "diag", 1, 3),
    ("[-1, simple(99), false, NaN, float'3c00',7_1,]", "diag", 1, 42),
    ("82 01 # one\n19 0007", "hex", 2, 1),
    ("8201190007", "hex", 1, 5),
    ("gg\nEZ AAc=", "base64", 2, 1),
    ("\ufeffggEZAAc", "base64", 1, 4),
    ("uint8_t m[] = {0x82, 1,\n 25, 0, 7};", "hex", 2, 2),
]


def texts(program):
    """A violation in a text is at its line and column, and its line is shown."""
    for text, form, line, column in TEXTS:
        shown = "".join(it if " " <= it <= "~" else " " if it == "\t" else "?" for it in text.split("\n")[line - 1])
        mark = "^^" if form == "hex" else "^"
        said = program.run("--check=preferred", "-f", form, data=text.encode())[1].splitlines()
        same_lines = [it for it in said if not it.startswith("    in ") and not it.startswith("    at ")]
        wanted = [f"cborcat: standard input:{line}:{column}: {LONG_SEVEN}", f"    {shown}",
                  f"    {' ' * (column - 1)}{mark}"]
        program.same(f"the place of 7_1 in {text!r}", same_lines[-3:], wanted)
    said = program.run("--check=preferred", "--set", "0=1", "-x", "[0, 7_1]")[1]
    program.same("after a change", said.splitlines()[0],
                 f"cborcat: -x: byte 2 (0x2) of the changed bytes: {LONG_SEVEN}")
    program.same("a byte in the text of a message", program.run("--check=valid", "-x", "{1: 2, /again/ 1: 3}")[1], (
        "cborcat: -x:1:16: not valid: the key 1 was at 1:2\n    in a key of the map of 2 at 1:1\n"
        "    {1: 2, /again/ 1: 3}\n                   ^\n"))
    program.same("what JSON does not keep", program.run("-t", "json", "--strict", "-x", '[1, {"a":\n  h\'01\'}]')[1], (
        "cborcat: -x:2:3: JSON does not keep a byte string\n    at 1/a, in the map of 1 at 1:5\n"
        "      h'01'}]\n      ^\n"))


def any_texts(program):
    """Texts made by a seed, with one integer 7 in three bytes."""
    chance = random.Random(5)
    blanks = ["", " ", "\n", " /c, [/ ", " # ]\n", "  \t"]
    leaves = ["0", "-5", '"a, ["', "h'01 02'", "<<1, [2]>>", "'b' + h'03'", "1.5", "null", "simple(40)", "(_ 'a', 'b')",
              '"\u20ac"', "18446744073709551616", "[]", "{_ }"]

    def blank():
        return chance.choice(blanks)

    def written(depth, found):
        """The text of an item, which has the 7 if it is to be found."""
        if depth == 0:
            return "7_1" if found else chance.choice(leaves)
        kind, count = chance.randrange(4), chance.randrange(1, 4)
        if kind == 0:
            return f"{chance.randrange(6, 20)}({blank()}{written(depth - 1, found)}{blank()})"
        at = chance.randrange(count * (2 if kind == 1 else 1)) if found else -1
        parts = [written(depth - 1 if number == at else 0, number == at)
                 for number in range(count * (2 if kind == 1 else 1))]
        opening = chance.choice(["", "_ ", "_1 "] if not found else ["", "_ "])
        if kind == 1:
            parts = [f"{key}{blank()}:{blank()}{value}" for key, value in zip(parts[::2], parts[1::2])]
        inner = f"{blank()},{blank()}".join(parts)
        open_close = "{}" if kind == 1 else "[]"
        return f"{open_close[0]}{opening}{blank()}{inner}{blank()}{open_close[1]}"

    for _ in range(200):
        text = f"{blank()}{written(chance.randrange(1, 6), True)}{blank()}"
        at = text.index("7_1")
        before = text[:at].split("\n")
        said = program.run("--check=preferred", "-f", "diag", data=text.encode())[1].splitlines()
        program.same(f"the place in {text!r}", said[0],
                     f"cborcat: standard input:{len(before)}:{len(before[-1]) + 1}: {LONG_SEVEN}")


# A string, the part of it that is there, and what is shown of that.
STRINGS = [
    ("a byte string", "5840aabb", "/truncated/ h'aabb' /2 of 64 bytes/"),
    ("a byte string without content", "5840", "/truncated/ h'' /0 of 64 bytes/"),
    ("a head", "8159 01", "[/truncated/ h'5901']"),
    ("a text", "a1 01 7840 6122", '{1: /truncated/ "a\\"" /2 of 64 bytes/}'),
    ("a character", "7840 61e282", '/truncated/ "a" + h\'e282\' /3 of 64 bytes/'),
    ("a long string", "5903e8" + 200 * "01", f"/truncated/ h'{64 * '01'}' /200 of 1000 bytes, 64 are shown/"),
    ("a string in chunks", "5f 42 0102 43 03", "(_ h'0102', /truncated/ h'03' /1 of 3 bytes/)"),
    ("a text in chunks", "7f 61 61 61 62 62 63", '(_ "a", "b", /truncated/ "c" /1 of 2 bytes/)'),
    ("a string between chunks", "81 5f 41 01", "[(_ h'01', /truncated/ h'')]"),
    ("a string before its first chunk", "5f", "/truncated/ h'5f'"),
]


def partial(program):
    """What is there of an item that is not whole."""
    def same_partial(what, form, data, wanted):
        out, error, status = program.run("-f", "bytes", "--partial", "-t", form, data=data)
        program.same(what, (out.decode(), error != "", status), (wanted, True, 1))

    fault = f"/malformed: {WRONG}/"
    same_partial("a fault", "diag", b"\x01\xa1\x61a\x83\x01\x02\x1f\x00", f"1\n{{\"a\": [1, 2, {fault} h'1f00']}}\n")
    same_partial("a cut", "diag", b"\x82\x01\x62a", '[1, /truncated/ "a" /1 of 2 bytes/]\n')
    for what, digits, wanted in STRINGS:
        same_partial(f"{what} that is cut", "diag", bytes.fromhex(digits), f"{wanted}\n")
    same_partial("between items", "diag", b"\x82\x01", "[1, /truncated/ h'']\n")
    same_partial("in lines", "pretty", b"\x82\x01\x1f", f"[\n    1,\n    {fault} h'1f'\n]\n")
    same_partial("with names", "pretty", bytes.fromhex("d28443a10126a104"), """\
/COSE_Sign1/ 18([
    /protected/ <<{/alg/ 1: -7 /ES256/}>>,
    /unprotected/ {
        /kid/ 4: /truncated/ h''
    }
])
""")
    same_partial("a dump", "hex", b"\x82\x01\x1f\x00",
                 f"82    # array(2)\n   01 #   unsigned(1)\n   # malformed: {WRONG}\n   1f00\n")
    program.same("no part in digits", program.run("--partial", "-t", "digits", data=b"\x01\x82\x01"),
                 (b"", "cborcat: --partial is for -t pretty, -t diag, -t hex or -t html\n", 2))
    program.same("a whole item", program.run("--partial", "-t", "diag", data=b"\x81\x01"), (b"[1]\n", "", 0))
    for word in ("-c", "--path=1"):
        program.same(f"--partial {word}", program.run("--partial", word, data=b"\x81\xff")[2], 2)
    for name in program.names:
        examples_in_part(program, name)
    any_in_part(program)


def any_in_part(program):
    """Of items made by a seed: what is shown before a cut is what is shown of them whole."""
    chance = random.Random(3)
    for _ in range(30):
        data = to_bytes(any_item(chance))
        whole = program.run("-f", "bytes", "-t", "diag", data=data)[0].decode()
        for end in range(1, len(data)):
            text = program.run("-f", "bytes", "--partial", "-t", "diag", data=data[:end])[0].decode()
            front, said, _ = text.rpartition("/truncated/")
            # Between members it is not known whether one more follows, as it does not before a break.
            front = front.removesuffix(", ")
            program.same(f"{data.hex()} to {end}", (said != "", whole.startswith(front)), (True, True))


def examples_in_part(program, name):
    """An example that is cut at each place, or wrong at each head, is shown with every member before that."""
    data = program.data(name)
    whole = program.run("-f", "bytes", "-t", "diag", data=data)[0].decode()
    leaves = [(int(at, 16), text) for at, _, text in program.lines("-f", "bytes", "--no-names", data=data)]
    starts = places.starts(data)
    shown = [(data[:end], end, "/truncated/") for end in range(1, len(data)) if end not in starts]
    shown += [(data[:at] + b"\x1f" + data[at + 1:], at, f"/malformed: {WRONG}/") for at in places.heads(data)]
    for part, end, said in shown:
        def written(*words):
            return program.run("-f", "bytes", "--partial", *words, data=part)[0].decode()

        front, _, after = written("-t", "diag").partition(said)
        program.same(f"{name} to {end}: the front of the whole", (whole.startswith(front), after != ""), (True, True))
        ends = [at for at, _ in leaves[1:]] + [len(data)]
        before = [text for (_, text), leaf_end in zip(leaves, ends) if leaf_end <= end]
        pretty, at = written("-t", "pretty", "--no-notes"), 0
        for text in before:
            at = pretty.find(text, at)
            program.same(f"{name} to {end}: {text} is shown", at >= 0, True)
        # At most 64 bytes of the item that is not whole.
        begins = max(at for at in places.heads(data) if at <= end)
        dump = bytes.fromhex("".join(line.partition("#")[0] for line in written("-t", "hex").splitlines()))
        program.same(f"{name} to {end}: a dump", (part.startswith(dump), len(dump) >= min(len(part), begins + 64)),
                     (True, True))
