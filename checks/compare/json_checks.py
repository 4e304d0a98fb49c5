"""What `checks/cborcat` checks of JSON, written and read, and of the contents of strings. What is expected is written
here by hand, or is what Python's `json` makes of the same text."""

import json
import random
import re

# Past 64 bits, and so tagged in CBOR.
BIG = ["18446744073709551616", "-18446744073709551617", "1" + 40 * "0"]

DOCUMENTS = [
    "0", "-0.0", "1.5e3", "1E-2", "-12", "18446744073709551615", "-18446744073709551616", *BIG, '""',
    '"\\"\\\\\\/\\b\\f\\n\\r\\t"', '"\\u00fc\\u20ac"', '"\\ud83d\\ude00"', "[]", "{}", "true", "false", "null",
    '[1, [2, {"a": [3.25, null]}], {}]', '{"a": {"b": {"c": [[], [{}]]}}, "": "\\u0000"}',
    '  {"a":1,\n\t"b" : [ 1 , 2 ]}  ',
]


def documents(run, same):
    """JSON as an input, and written again: Python's `json` reads the same of both."""
    for text in DOCUMENTS:
        out, error, status = run("-f", "diag", "-t", "json", "-1", data=text.encode())
        same(f"JSON {text!r}", (error, status, out.count(b"\n")), ("", 0, 1))
        read = json.loads(out)
        same(f"JSON {text!r} again", (read, json.dumps(read)), (json.loads(text), json.dumps(json.loads(text))))
    lines = "".join(" ".join(text.split()) + "\n" for text in DOCUMENTS)
    out, error, status = run("-f", "diag", "-t", "json", data=lines.encode())
    same("lines of JSON", (error, status), ("", 0))
    same("lines of JSON again", [json.loads(line) for line in out.splitlines()],
         [json.loads(line) for line in lines.splitlines()])
    kept = "".join(line + "\n" for line in lines.splitlines() if line not in BIG)
    same("JSON keeps JSON", run("-f", "diag", "-t", "json", "--strict", data=kept.encode())[1:], ("", 0))
    for text in BIG:
        same(f"{text} is tagged", run("-f", "diag", "-t", "json", "--strict", data=text.encode())[::2], (b"", 1))


def drawn(draw, level):
    """A value of JSON, drawn."""
    kind = draw.randrange(8 if level < 4 else 6)
    if kind == 0:
        return draw.choice([None, True, False])
    if kind == 1:
        return draw.randrange(-2**64, 2**64)
    if kind == 2:
        return draw.choice([0.0, 1.0, -1.5, 1e300, 5e-324, draw.uniform(-1e6, 1e6)])
    if kind < 6:
        signs = [34, 92, 10, 0x7f, 0x202e, 97, 0xfc, 0x1f600]
        return "".join(chr(draw.choice(signs)) for _ in range(draw.randrange(6)))
    if kind == 6:
        return [drawn(draw, level + 1) for _ in range(draw.randrange(4))]
    return {str(n): drawn(draw, level + 1) for n in range(draw.randrange(4))}


def drawn_documents(run, same):
    """Drawn values, as Python writes them: what is written again is the same value, in one line of shown characters."""
    draw = random.Random(61)
    values = [drawn(draw, 0) for _ in range(300)]
    text = "".join(json.dumps(value) + "\n" for value in values)
    out, error, status = run("-f", "diag", "-t", "json", "--strict", data=text.encode())
    same("drawn JSON", (error, status), ("", 0))
    read = [json.loads(line) for line in out.splitlines()]
    same("drawn JSON again", [json.dumps(value) for value in read], [json.dumps(value) for value in values])
    same("drawn JSON is shown", any(c in out.decode() for c in "\x7f\u202e"), False)


def items(run, same):
    """The values of RFC 8949 that JSON has another form for."""
    for words, text in [
        (("-x", "1b ffffffffffffffff"), "18446744073709551615"),
        (("-x", "3b ffffffffffffffff"), "-18446744073709551616"),
        (("-x", "c2 49 010000000000000000"), "18446744073709551616"), (("-x", "c3 41 63"), "-100"),
        (("-x", "c2 59 0401" + 1025 * "00"), '"' + (1025 * 4 + 2) // 3 * "A" + '"'), (("-x", "f93c00"), "1.0"),
        (("-x", "c3 59 0401" + 1025 * "00"), '"~' + (1025 * 4 + 2) // 3 * "A" + '"'),
        (("-x", "f97e00"), "null"), (("-x", "f97c00"), "null"), (("-x", "f7"), "null"),
        (("-x", "f0"), "null"), (("-x", "43fbff00"), '"-_8A"'), (("-x", "d643fbff00"), '"+/8A"'),
        (("-x", "d743fbff00"), '"FBFF00"'), (("-x", "c1 01"), "1"), (("-x", "7f61616162ff"), '"ab"'),
        (("-x", "a4 01 00 6162 00 f5 00 8101 00"), '{"1": 0, "b": 0, "true": 0, "[1]": 0}'),
        (("-x", "43820102"), '"ggEC"'), (("-e", "-x", "43820102"), "[1, 2]"),
        (("-p", "a/0", "-x", "a1 6161 82 01 02"), "1"),
    ]:
        same(f"{words} as JSON", run("-f", "hex", "-t", "json", *words), (text.encode() + b"\n", "", 0))
    same("a sequence as JSON", run("-f", "hex", "-t", "json", "-x", "01 820203 a0"), (b"1\n[2, 3]\n{}\n", "", 0))


# Options, an item in EDN, and what is written.
NAMED = [
    (["--as=CWT"], '{1: "coap://as.example.com", 4: 1444064944, 99: true}',
     '{"iss": "coap://as.example.com", "exp": 1444064944, "99": true}'),
    (["--as=COSE_Key"], "{-1: h'00', 1: 4, 3: 5}", '{"k": "AA", "kty": 4, "alg": 5}'),
    (["--as=COSE_Key", "-p", "2"], "[0, 1, {1: 4}]", '{"kty": 4}'),
    (["--as=CWT", "-p", "*"], "[{1: 'a'}, {2: true}]", '{"iss": "YQ"}\n{"sub": true}'),
    ([], "18([<<{1: -7}>>, {4: '11'}, h'', h''])", '["oQEm", {"kid": "MTE"}, "", ""]'),
    (["-e"], "18([<<{1: -7}>>, {4: '11'}, h'', h''])", '[{"alg": -7}, {"kid": "MTE"}, "", ""]'),
    (["-e"], "61(18([h'', {}, <<{1: 'a', 7: h'0b71'}>>, h'']))", '["", {}, {"iss": "YQ", "cti": "C3E"}, ""]'),
    (["--as=SenML"], '[{0: "a", 2: 1.5}, {"x": 1}]', '[{"n": "a", "v": 1.5}, {"x": 1}]'),
    ([], "{1: 2}", '{"1": 2}'),
    (["--as=CWT"], '{"iss": 1, true: 2, [1]: 3, {1: 2}: 4}', '{"iss": 1, "true": 2, "[1]": 3, "{1: 2}": 4}'),
    (["--as=CWT", "--strict"], '{1: "a"}', '{"iss": "a"}'),
]


def named(run, same):
    """The names of keys in place of them."""
    options = ["-t", "json", "--names-as-keys"]
    for words, text, wanted in NAMED:
        same(f"{words} {text} with names", run(*options, *words, "-x", text), (wanted.encode() + b"\n", "", 0))
    # {1: "a", "iss": "b"}, and what is not kept behind a key that has a name.
    for words, digits, place, what in [
        ([], "a2 01 61 61 63 69 73 73 61 62", 4, 'the key "iss" is the same in JSON as the key 1 at byte 1'),
        (["--strict"], "a2 01 61 61 18 63 61 62", 4, "JSON does not keep the key 99, which is no text"),
        (["--strict"], "a1 01 f7", 2, "JSON does not keep undefined"),
    ]:
        out, error, status = run(*options, "--as=CWT", *words, "-f", "bytes", data=bytes.fromhex(digits))
        said = f"cborcat: standard input: byte {place} (0x{place:x}): {what}\n"
        same(f"{digits} with names", (out, error[:len(said)], status), (b"", said, 1))
    for wrong in (["-t", "json", "--as=CWT"], ["-t", "json", "--names=x"], ["--names-as-keys"],
                  ["-t", "diag", "--names-as-keys"], [*options, "--no-names"], [*options, "--no-notes"]):
        same(f"{wrong} is wrong", run(*wrong, data=b"\1")[::2], (b"", 2))


def refusals(run, same):
    """What keeps an item from being written: the others are."""
    # The line of bytes is of the item alone, as those of an item that is encoded again are.
    same("the same keys", run("-f", "bytes", "-t", "json", data=bytes.fromhex("01a201006131008102")), (
        b"1\n[2]\n", 'cborcat: standard input: byte 4 (0x4): the key "1" is the same in JSON as the key 1 at byte 2\n'
        "    in a key of the map of 2 at byte 1\n    a2 01 00 61 31 00\n             ^^\n", 1))
    for digits, place, what in [
        ("c101", 0, "the tag 1"), ("81f97e00", 1, "NaN"), ("82 01 f9fc00", 2, "-Infinity"), ("81f7", 1, "undefined"),
        ("81f0", 1, "simple(16)"), ("820040", 2, "a byte string"), ("815fff", 1, "a byte string"),
        ("a2616100 0100", 4, "the key 1, which is no text"), ("a1 6161 81 f7", 4, "undefined"),
    ]:
        out, error, status = run("-f", "bytes", "-t", "json", "--strict", data=bytes.fromhex(digits))
        said = f"cborcat: standard input: byte {place} (0x{place:x}): JSON does not keep {what}\n"
        same(f"{digits}, strict", (out, error[:len(said)], status), (b"", said, 1))
        same(f"{digits}, not strict", run("-f", "bytes", "-t", "json", data=bytes.fromhex(digits))[2], 0)
    same("a part, strict", run("-t", "json", "--strict", "-p", "2/@", "-f", "hex", "-x", "a1 02 43 81 f9 7e"), (
        b"", "cborcat: -x: 2/@: the bytes at 2 are not one item\n", 1))
    same("a part, strict", run("-t", "json", "--strict", "-p", "2/@", "-f", "hex", "-x", "a1 02 42 81 f7"), (
        b"", "cborcat: -x:1:13: JSON does not keep undefined\n    at 2, in the map of 1 at 1:1\n"
        "    a1 02 42 81 f7\n                ^^\n", 1))
    json_with, raw_with = ["-t", "json"], ["-t", "raw"]
    for wrong in ([*json_with, "--partial"], [*json_with, "--encode=core"], ["--strict"], [*raw_with, "--partial"]):
        same(f"{wrong} is wrong", run(*wrong, data=b"\1")[::2], (b"", 2))


def raw(run, same, in_terminal):
    """The content of a string, and nothing else."""
    for digits, content in [("43010203", b"\1\2\3"), ("626162", b"ab"), ("5f41014102ff", b"\1\2"), ("7fff", b""),
                            ("d818420102", b"\1\2"), ("4101 4102", b"\1\2")]:
        same(f"{digits}, raw", run("-f", "hex", "-t", "raw", "-x", digits), (content, "", 0))
    same("a part, raw", run("-f", "hex", "-t", "raw", "-p", "2", "-x", "a1 02 43 010203"), (b"\1\2\3", "", 0))
    for digits, noun in [("a0", "a map"), ("80", "an array"), ("01", "an integer"), ("f93c00", "a float"),
                         ("f5", "a simple value")]:
        out, error, status = run("-f", "bytes", "-t", "raw", data=bytes.fromhex(digits))
        said = f"cborcat: standard input: byte 0 (0x0): {noun} has no raw content; a byte or text string has\n"
        same(f"{digits}, raw", (out, error[:len(said)], status), (b"", said, 1))
    same("a text in a terminal", in_terminal(["-f", "hex", "-t", "raw", "-x", "63 61 0a 62"]), ("a\nb", 0))
    for digits in ("4161", "6107"):
        text, status = in_terminal(["-f", "hex", "-t", "raw", "-x", digits])
        same(f"{digits} in a terminal", ("to a terminal" in text, "\x07" in text, status), (True, False, 2))


def examples(run, same, folder):
    """The log, line by line."""
    out, error, status = run("-t", "json", f"{folder}/log.cbor")
    same("the log as JSON", (error, status), ("", 0))
    same("the lines of the log", [json.loads(line) for line in out.splitlines()][:3], [
        {"at": 1700000000, "event": "open"}, {"at": 1700000042, "event": "badge", "id": "BKMf"},
        {"at": 1700000060, "event": "temp", "c": 21.0}])


# Keys in different widths and forms, and the name of each.
KEYS = [
    ("01", "1"), ("1801", "1"), ("6131", "1"), ("7f6131ff", "1"), ("20", "-1"), ("3800", "-1"), ("622d31", "-1"),
    ("f93e00", "1.5"), ("fa3fc00000", "1.5"), ("63312e35", "1.5"), ("f5", "true"), ("6474727565", "true"),
    ("4161", "h'61'"), ("5f4161ff", "h'61'"), ("656827363127", "h'61'"), ("8101", "[1]"), ("9f1801ff", "[1]"),
    ("635b315d", "[1]"), ("a10102", "{1: 2}"), ("667b313a20327d", "{1: 2}"), ("c100", "1(0)"), ("d80100", "1(0)"),
    ("6161", "a"), ("00", "0"), ("6130", "0"), ("623031", "01"), ("62c3a9", "\u00e9"), ("6365cc81", "e\u0301"),
]
CLASH = re.compile(r"cborcat: standard input: byte (\d+) .*: the key .* is the same in JSON as the key .*byte (\d+)")


def map_of(keys):
    """A map of these keys, each with the value 0, and the places of the keys."""
    count = len(keys)
    out = bytearray([0xa0 + count] if count < 24 else b"\xb9" + count.to_bytes(2, "big"))
    places = []
    for key in keys:
        places.append(len(out))
        out += key + b"\0"
    return bytes(out), places


def first_clash(names):
    """The first name that stands twice: where it is, and where it was before."""
    seen = {}
    for index, name in enumerate(names):
        if name in seen:
            return seen[name], index
        seen[name] = index
    return None


def judged(run, same, what, maps):
    """Maps one after the other, each as its keys with their names: those in which a name stands twice are errors."""
    data, wanted, clashes = b"", [], []
    for keys in maps:
        names = [name for _, name in keys]
        item, places = map_of([key for key, _ in keys])
        clash = first_clash(names)
        if clash is None:
            wanted.append([(name, 0) for name in names])
        else:
            first, second = clash
            clashes.append((len(data) + places[second], len(data) + places[first]))
        data += item
    out, error, status = run("-f", "bytes", "-t", "json", data=data)
    read = [json.loads(line, object_pairs_hook=list) for line in out.splitlines()]
    same(f"{what}: maps", read, [[tuple(pair) for pair in pairs] for pairs in wanted])
    found = [(int(match[1]), int(match[2])) for match in map(CLASH.match, error.splitlines()) if match]
    same(f"{what}: clashes", (found, status), (clashes, 1 if clashes else 0))


def same_keys(run, same):
    """Keys that become the same: each pair, drawn maps, and many keys of which the last is the same as another."""
    pool = [(bytes.fromhex(digits), name) for digits, name in KEYS]
    judged(run, same, "pairs of keys", [[a, b] for a in pool for b in pool])
    draw = random.Random(67)
    judged(run, same, "drawn keys", [draw.sample(pool, draw.randrange(1, 7)) for _ in range(400)])
    integers = [(b"\x19" + n.to_bytes(2, "big"), str(n)) for n in range(500)]
    texts = [(b"\x65" + f"k{n:04}".encode(), f"k{n:04}") for n in range(500)]
    digits = [(bytes([0x60 + len(str(n))]) + str(n).encode(), str(n)) for n in range(500, 1000)]
    for what, keys in [("integers", integers), ("texts", texts), ("digits", digits), ("both", integers + texts),
                       ("all", integers + digits), ("in order", sorted(integers + texts))]:
        if what != "in order":
            draw.shuffle(keys)
        for count in (12, 13, len(keys)):
            some = keys[:count]
            last = draw.choice(some)
            twin = last if last[0][0] >= 0x60 else (bytes([0x60 + len(last[1])]) + last[1].encode(), last[1])
            judged(run, same, f"{count} keys, {what}", [some, [*some, last], [*some, twin]])


def check(run, same, in_terminal, folder):
    documents(run, same)
    drawn_documents(run, same)
    items(run, same)
    named(run, same)
    same_keys(run, same)
    refusals(run, same)
    raw(run, same, in_terminal)
    examples(run, same, folder)
