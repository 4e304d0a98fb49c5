"""Makes the same calls in the package, by node, and in the native library, by the module for Python.

check compares the answers. The calls are all kinds of calls on the inputs of all rows of the vectors. Needs Python 3 and
its standard library only.
"""
import base64
import json
import pathlib
import struct
import subprocess
import sys

HERE = pathlib.Path(__file__).resolve().parent
TOP = HERE.parents[2]
sys.path[:0] = [str(TOP / "checks/compare"), str(TOP / "bindings/python")]

import cbor_diag
from cbor_diag import CborDiagError, Form, Rules
from rows import DATA, file_names, rows_of

SAFE = 2**53 - 1
PATHS = ["", "0", "1", "a", "*", "0/@", "1/*/0"]
TYPES = ["", "COSE_Key", "CWT", "no such type"]
NAMES = '[Thing]\ntag = 1000\nmap = { 1 = "one" }\n'
SCHEMA_ITEMS = ["", "01", "82016161", "a16161f93e00", "c11a6553f100", "43820102", "1c"]


def word_of(name):
    """The word of the package for a form or for rules of the module: `LENGTH_FIRST` is `length-first`."""
    return name.name.lower().replace("_", "-")


def given(data):
    """A value of a call: bytes as JSON has them here."""
    return {"bytes": base64.b64encode(data).decode()} if isinstance(data, bytes) else data


def told_violation(found):
    return {"kind": found.kind.name, "place": found.place, "other": found.other,
            "code": found.error and found.error.name, "message": str(found)}


def told_number(value):
    if isinstance(value, float) and not (value.is_integer() and abs(value) <= SAFE):
        return {"float": "nan" if value != value else struct.pack("<d", value).hex()}
    return int(value) if abs(value) <= SAFE else {"integer": str(value)}


def told(value):
    """A value as vectors.mjs writes it."""
    if value is None or isinstance(value, (bool, str, dict)):
        return value
    if isinstance(value, (int, float)):
        return told_number(value)
    if isinstance(value, bytes):
        return given(value)
    if isinstance(value, cbor_diag.Violation):
        return told_violation(value)
    if isinstance(value, cbor_diag.Misfit):
        return dict(value._asdict())
    return [told(one) for one in value]


def failed(error, text=None):
    """An error as vectors.mjs writes it. In a string it counts units of UTF-16, and characters here."""
    offset = error.offset
    if offset is not None and isinstance(text, str):
        offset = len(text[:offset].encode("utf-16-le")) // 2
    loss = error.loss and {"kind": error.loss.kind.name, "place": error.loss.place}
    return {"error": {
        "name": "CborError", "code": error.error.name, "message": str(error), "offset": offset, "path": error.path,
        "end": error.end, "keys": error.keys and list(error.keys), "loss": loss,
        "violation": error.violation and told_violation(error.violation), "line": error.line, "column": error.column}}


def fed(data, size):
    """What a scanner says of the last of pieces of a size."""
    scanner = cbor_diag.Scanner()
    for at in range(0, max(len(data), 1), size):
        found = scanner.feed(data[at:at + size])
    return found


class Pieces:
    """A stream of pieces of a size."""

    def __init__(self, data, size):
        self.data, self.size = data, size

    def read(self, _):
        piece, self.data = self.data[:self.size], self.data[self.size:]
        return piece


def items_of(data, size):
    found = []
    try:
        for item in cbor_diag.items(Pieces(data, size)):
            found.append(told(item))
    except CborDiagError as error:
        found.append(failed(error))
    return found


def recognized(data):
    form, found = cbor_diag.recognize(data)
    return {"form": form.name.lower(), "bytes": given(found)}


def converted(source, target, data):
    found = cbor_diag.convert(source, target, data)
    return found if target is Form.BYTES else found.decode()


class Call:
    """A call of the package, and the same one of the module for Python."""

    def __init__(self, name, values, native, text=None):
        self.line = json.dumps([name, *map(given, values)])
        self.native, self.text = native, text

    def answer(self):
        try:
            return told(self.native())
        except CborDiagError as error:
            return failed(error, self.text)


def conversions(data):
    """The conversions of bytes."""
    yield Call("toEdn", [data], lambda: cbor_diag.bytes_to_edn(data))
    yield Call("toEdn", [data, {"pretty": True}], lambda: cbor_diag.bytes_to_edn_pretty(data))
    yield Call("toDiag", [data], lambda: cbor_diag.bytes_to_diag(data))
    yield Call("toDiag", [data, {"pretty": True}], lambda: cbor_diag.bytes_to_diag_pretty(data))
    yield Call("toHex", [data], lambda: cbor_diag.bytes_to_hex(data))
    yield Call("toJson", [data], lambda: cbor_diag.bytes_to_json(data))
    yield Call("toJson", [data, {"strict": True}], lambda: cbor_diag.bytes_to_json(data, strict=True))
    yield Call("convert", ["bytes", "html", data], lambda: converted(Form.BYTES, Form.HTML, data))
    yield Call("extent", [data], lambda: cbor_diag.extent(data))
    for size in (1, 3):
        yield Call("fed", [data, size], lambda size=size: fed(data, size))
        yield Call("itemsOf", [data * 2, size], lambda size=size: items_of(data * 2, size))


def parts_of(data):
    """The calls that find parts and names."""
    for path in PATHS:
        yield Call("part", [data, path], lambda path=path: cbor_diag.part(data, path))
        yield Call("parts", [data, path], lambda path=path: cbor_diag.parts(data, path))
        yield Call("value", [data, path], lambda path=path: cbor_diag.value(data, path))
        yield Call("nameAt", [data, path], lambda path=path: cbor_diag.name_at(data, path))
    yield Call("paths", [data], lambda: cbor_diag.paths(data))
    for kind in TYPES:
        yield Call("named", [data, {"type": kind}], lambda kind=kind: cbor_diag.named(data, kind))
    yield Call("page", [data, {"type": "CWT", "names": NAMES}], lambda: cbor_diag.page(data, "CWT", NAMES))
    yield Call("page", [data, {"notes": False, "embedded": True}],
               lambda: cbor_diag.page(data, notes=False, embedded=True))


def rules_of(data):
    for rules in Rules:
        word = word_of(rules)
        yield Call("violation", [data, word], lambda rules=rules: cbor_diag.violation(data, rules))
        yield Call("reencode", [data, word], lambda rules=rules: cbor_diag.reencode(data, rules))


def text_of(data):
    """A text as a string, where it is one."""
    try:
        return data.decode()
    except UnicodeDecodeError:
        return data


def texts_of(data):
    """The calls on a text."""
    text = text_of(data)
    yield Call("fromEdn", [text], lambda: cbor_diag.edn_to_bytes(text), text)
    yield Call("fromHex", [text], lambda: cbor_diag.hex_to_bytes(text), text)
    yield Call("fromDiag", [text], lambda: cbor_diag.diag_to_bytes(text), text)
    yield Call("fromEdn", [data], lambda: cbor_diag.edn_to_bytes(data))
    yield Call("convert", ["hex", "edn-pretty", text], lambda: converted(Form.HEX, Form.EDN_PRETTY, text), text)
    yield Call("convert", ["edn", "json-strict", text], lambda: converted(Form.EDN, Form.JSON_STRICT, text), text)
    yield Call("recognize", [text], lambda: recognized(text))
    yield Call("namesFault", [text if isinstance(text, str) else ""],
               lambda: cbor_diag.names_fault(text if isinstance(text, str) else ""))


def schemas_of(row):
    """The checks by the CDDL of a row."""
    text = row.text() if row.call == "cddl_fault" else row.text().rpartition("\n\n")[0]
    for item in map(bytes.fromhex, SCHEMA_ITEMS):
        yield Call("check", [text, row.argument, item],
                   lambda item=item: cbor_diag.Schema(text, row.argument).check(item))


def is_hex(data):
    try:
        bytes.fromhex(data.decode())
        return True
    except ValueError:
        return False


def calls():
    """All calls, each once."""
    rows = [row for name in file_names() for row in rows_of(DATA / name)]
    yield Call("libraryVersion", [], lambda: ".".join(map(str, cbor_diag.library_version())))
    for data in sorted({row.bytes() for row in rows if is_hex(row.input)}):
        yield from conversions(data)
        yield from parts_of(data)
        yield from rules_of(data)
    for data in sorted({row.input for row in rows}):
        yield from texts_of(data)
    for row in rows:
        if row.call.startswith("cddl_"):
            yield from schemas_of(row)


def compare(folder):
    """Makes all calls, with the package that is installed in a folder; returns how many, and those that differ."""
    made = list(calls())
    lines = "".join(f"{call.line}\n" for call in made)
    words = ["node", HERE / "vectors.mjs"]
    ran = subprocess.run(words, input=lines, capture_output=True, text=True, check=True, cwd=folder)
    answers = ran.stdout.split("\n")[:-1]
    assert len(answers) == len(made), f"{len(answers)} answers to {len(made)} calls"
    differ = []
    for call, answer in zip(made, map(json.loads, answers)):
        native = call.answer()
        if answer != native:
            differ.append((call.line, answer, native))
    return len(made), differ
