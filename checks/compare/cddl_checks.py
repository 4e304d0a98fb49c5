"""What `cborcat --cddl` says of items that do not fit, and of CDDL with faults. Expected messages are written by hand, from
the rules of RFC 8610 and the bytes of the items."""

LOG = """record = {
  at: time,
  event: "open" / "close" / "badge" / "temp",
  ? id: bstr .size (3..8),
  ? celsius: float,
}
"""

# The CDDL of RFC 9052, but for messages of several recipients or signers.
COSE = """start = COSE_Messages / COSE_Key

label = int / tstr
values = any

COSE_Messages = COSE_Untagged_Message / COSE_Tagged_Message
COSE_Untagged_Message = COSE_Sign1 / COSE_Encrypt0 / COSE_Mac0
COSE_Tagged_Message = COSE_Sign1_Tagged / COSE_Encrypt0_Tagged / COSE_Mac0_Tagged

Headers = (
    protected : empty_or_serialized_map,
    unprotected : header_map
)
header_map = {
    Generic_Headers,
    * label => values
}
empty_or_serialized_map = bstr .cbor header_map / bstr .size 0
Generic_Headers = (
    ? 1 => int / tstr,  ; algorithm identifier
    ? 2 => [+label],    ; criticality
    ? 3 => tstr / int,  ; content type
    ? 4 => bstr,        ; key identifier
    ? ( 5 => bstr //    ; IV
        6 => bstr )     ; Partial IV
)
COSE_Sign1_Tagged = #6.18(COSE_Sign1)
COSE_Sign1 = [
    Headers,
    payload : bstr / nil,
    signature : bstr
]
COSE_Encrypt0_Tagged = #6.16(COSE_Encrypt0)
COSE_Encrypt0 = [
    Headers,
    ciphertext : bstr / nil,
]
COSE_Mac0_Tagged = #6.17(COSE_Mac0)
COSE_Mac0 = [
    Headers,
    payload : bstr / nil,
    tag : bstr,
]
COSE_Key = {
    1 => tstr / int,          ; kty
    ? 2 => bstr,              ; kid
    ? 3 => tstr / int,        ; alg
    ? 4 => [+ (tstr / int) ], ; key_ops
    ? 5 => bstr,              ; Base IV
    * label => values
}
"""

# A CDDL, an item in hex, and what is said of it: the place, the message, and the line below it.
ROWS = [
    (LOG, "a2 62 6174 c1 1a 65000000 65 6576656e74 64 6f70656e", None),
    (LOG, "a2 62 6174 c1 1a 65000000 65 6576656e74 66 6f70656e6564",
     (16, 'expected "open" / "close" / "badge" / "temp" for event (a.cddl:3), found "opened"',
      "at event")),
    (LOG, "a1 65 6576656e74 64 6f70656e",
     (0, 'expected the key "at" for record (a.cddl:1), found a map of 1 without it', None)),
    (LOG, "a3 62 6174 c1 00 65 6576656e74 64 6f70656e 62 6964 41 00",
     (20, "expected bstr .size (3..8) for id (a.cddl:4), found h'00' of 1 byte", "at id")),
    (LOG, "a3 62 6174 c1 00 65 6576656e74 64 6f70656e 67 63656c73697573 f93c00", None),
    (LOG, "a3 62 6174 c1 00 65 6576656e74 64 6f70656e 66 63656c697573 f93c00",
     (17, 'expected the end of the map for record (a.cddl:1), found the key "celius", which is in no entry; '
      '"celsius" is one', None)),
    ("a = [value: int]", "80", (0, "expected int for value (a.cddl:1), found the end of the array of 0", None)),
    ("a = int", "f94d60", (0, "expected int for a (a.cddl:1), found 21.5", None)),
]

# A CDDL, and what is said of it.
FAULTS = [
    ("a = [uit]", "a.cddl:1:6: no rule uit is there; uint is one"),
    ("a = b\nb = a", "a.cddl:1:1: the rule a is defined by itself: a -> b -> a"),
    ("a = {\n  b: }", "a.cddl:2:6: expected a type, found }"),
    ("a = tstr .abnf 'x'", "a.cddl:1:10: the control .abnf is not supported"),
    ('a = tstr .regexp "[a-z-[aeiou]]"', "a.cddl:1:18: .regexp does not support -["),
    ('a = tstr .regexp "(a"', "a.cddl:1:18: the pattern is no regular expression"),
    ("", "a.cddl: no rule is there"),
]


# A CDDL, options, items in EDN, and what is said: the column, the message and the line below it; or another text.
PARTS = [
    ("a = int", ["-p", "x"], '{"x": 1, "y": "a"}', None),
    ("a = int", ["-p", "y"], '{"x": 1, "y": "a"}', (15, 'expected int for a (a.cddl:1), found "a"', "at y")),
    ("a = { b: int }", ["-p", "*"], '[{"b": 1}, {"b": "c"}]',
     (18, 'expected int for b (a.cddl:1), found "c"', "at 1/b")),
    ("a = { b: int }", ["-p", "0/@/*"], "[<<[{\"b\": 1}, {}]>>]",
     (15, 'expected the key "b" for a (a.cddl:1), found a map of 0 without it', "at 0/@/1")),
    ("a = [b: int]", ["-p", "*/@/0"], "[<<[[1]]>>, <<[[1.5]]>>]",
     (17, "expected int for b (a.cddl:1), found 1.5", "at 1/@/0/0")),
    # By a name that is shown: 18([<<{1: -7}>>, {}, h'', h'']).
    ("a = tstr", ["-p", "protected/alg"], "18([h'a10126', {}, h'', h''])",
     (5, "expected tstr for a (a.cddl:1), found -7", "at protected/alg")),
    # Later items, with their numbers.
    ("a = { b: int }", [], '{"b": 1} {"b": 2} {"b": "c"}',
     (25, 'expected int for b (a.cddl:1), found "c"', "at 2:b")),
    ("a = int", [], '1 "a"', (3, 'expected int for a (a.cddl:1), found "a"', "at 1:/")),
    ("a = int", ["-p", "*"], '[1] [2, "a"]', (9, 'expected int for a (a.cddl:1), found "a"', "at 1:1")),
    ("a = int", ["-p", "1:"], '"a" 2 "b"', None),
    ("a = int", ["-p", "1:x"], '"a" {"x": "b"} "c"', (11, 'expected int for a (a.cddl:1), found "b"', "at 1:x")),
]

# The same of a path that leads nowhere.
LOST = [
    (["-p", "y"], '{"x": 1}', 'cborcat: -x: y: no such key; the map has "x"\n'),
    (["-p", "1:"], "1", "cborcat: -x: 1: no such item; 1 item came, from 0 on\n"),
]


def message_of(said):
    """The message of an item, without its bytes."""
    if said is None:
        return ""
    byte, text, where = said
    lines = [f"cborcat: a.cbor: byte {byte} (0x{byte:x}): {text}"] + ([f"    {where}"] if where else [])
    return "\n".join(lines) + "\n"


def message_in_text(said, text):
    """The message of an item in a line of text, with the line and the mark below its character."""
    if said is None:
        return ""
    column, what, where = said
    return f"cborcat: -x:1:{column}: {what}\n    {where}\n    {text}\n    {' ' * (column - 1)}^\n"


def without_excerpt(said):
    """A message without the lines of bytes and of the mark below them."""
    lines = said.splitlines(True)
    return "".join(lines[:-2]) if lines and lines[-1].strip() == "^^" else said


def check_parts(run, same, folder, written):
    """Parts that a path leads to, and later items."""
    for cddl, options, items, said in PARTS:
        written("a.cddl", cddl.encode())
        _, err, status = run("--cddl=a.cddl", *options, "-x", items, cwd=folder)
        same(f"--cddl {options} on {items}", (err, status), (message_in_text(said, items), 1 if said else 0))
    written("a.cddl", b"a = int")
    for options, items, said in LOST:
        same(f"--cddl {options} on {items}", run("--cddl=a.cddl", *options, "-x", items, cwd=folder), (b"", said, 1))


def check(run, same, folder, examples):
    """Tries each row in a folder, and COSE on the examples."""
    def written(name, data):
        with open(f"{folder}/{name}", "wb") as it:
            it.write(data)

    for cddl, digits, said in ROWS:
        written("a.cddl", cddl.encode())
        written("a.cbor", bytes.fromhex(digits))
        out, err, status = run("--cddl=a.cddl", "a.cbor", cwd=folder)
        same(f"--cddl on {digits}", (out, without_excerpt(err), status), (b"", message_of(said), 1 if said else 0))
    written("a.cbor", b"\1")
    for cddl, said in FAULTS:
        written("a.cddl", cddl.encode())
        same(f"--cddl of {cddl!r}", run("--cddl=a.cddl", "a.cbor", cwd=folder), (b"", f"cborcat: {said}\n", 2))
    written("a.cddl", b"a = int\nb = text")
    same("--rule", run("--cddl=a.cddl", "--rule=b", "-x", '"x"', cwd=folder), (b"", "", 0))
    same("--rule of no rule", run("--cddl=a.cddl", "--rule=c", "-x", "1", cwd=folder),
         (b"", "cborcat: a.cddl: no rule c is there\n", 2))
    written("b.cddl", b"c = b\nd = uit")
    same("two files", run("--cddl=a.cddl", "--cddl=b.cddl", "-x", "1", cwd=folder),
         (b"", "cborcat: b.cddl:2:5: no rule uit is there; uint is one\n", 2))
    check_parts(run, same, folder, written)
    written("cose.cddl", COSE.encode())
    for name in ("cose-sign1.hex", "cwt-signed.hex"):
        same(f"COSE on {name}", run(f"--cddl={folder}/cose.cddl", f"{examples}/{name}"), (b"", "", 0))
