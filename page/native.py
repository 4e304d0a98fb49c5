"""Makes the same calls in the module, by node, and in the native library, by ctypes; page/check compares the answers.

The calls are all kinds of calls on the inputs of all rows of the vectors: on bytes, and on texts.
"""
import ctypes
import hashlib
import json
import pathlib
import subprocess
import sys

HERE = pathlib.Path(__file__).resolve().parent
sys.path.insert(0, str(HERE.parent / "checks/compare"))
from rows import DATA, file_names, rows_of

BYTES, HEX, DIAG, EDN = 0, 1, 2, 4
FORMS, RULES, INPUTS = range(9), range(7), range(5)
ROOM, WORD, HEAD, VALUE, PART = {"room": 1 << 16}, {"cell": 8}, {"cell": 24}, {"cell": 56}, {"room": 240}
MISFIT = {"cell": 88}
TYPES = ["", "COSE_Key", "CWT", "cose_sign1", "no such type"]
PATHS = ["", "0", "1", "a", "*", "0/@", "1/*/0"]
SCHEMA_ITEMS = list(map(bytes.fromhex, ["", "01", "82016161", "a16161f93e00", "c11a6553f100", "43820102"]))
NAMES = '[Thing]\ntag = 1000\nmap = { 1 = "one" }\n'


def given(data):
    return {"given": (data.encode() if isinstance(data, str) else data).hex()}


def calls_on(form, data):
    """The calls on an input of a form."""
    whole = given(data)
    yield from (["cbor_diag_convert", [form, to, whole, ROOM]] for to in FORMS)
    yield ["cbor_diag_fault", [form, whole, WORD]]
    yield from ([f"cbor_diag_fault_{what}", [form, whole, ROOM]] for what in ["text", "path", "message"])
    yield from (["cbor_diag_output_fault", [form, to, whole, WORD, WORD]] for to in [6, 7])


def calls_on_bytes(data, has_page):
    """The other calls on bytes."""
    whole = given(data)
    yield ["cbor_diag_extent", [whole, WORD]]
    yield ["cbor_diag_head", [whole, HEAD]]
    yield ["cbor_diag_paths", [whole, ROOM]]
    for rules in RULES:
        yield ["cbor_diag_violation", [rules, whole, WORD, WORD]]
        yield ["cbor_diag_reencode", [rules, whole, ROOM]]
        yield ["cbor_diag_reencode_fault", [rules, whole, WORD, WORD]]
    for path in map(given, PATHS):
        yield ["cbor_diag_part", [whole, path, WORD, WORD]]
        yield ["cbor_diag_value", [whole, path, VALUE]]
        yield ["cbor_diag_name_at", [whole, path, given(""), ROOM]]
    for kind in map(given, TYPES):
        yield ["cbor_diag_named", [whole, kind, ROOM]]
        if has_page:
            yield ["cbor_diag_page", [whole, kind, given(NAMES), 0, ROOM]]


def native_schema(library, cddl, rule):
    """A schema that the native library loads, which is empty for a text that is wrong."""
    output = ctypes.create_string_buffer(1 << 16)
    size = ctypes.c_size_t
    library.cbor_diag_schema_load.restype = ctypes.c_int64
    length = library.cbor_diag_schema_load(cddl, size(len(cddl)), rule, size(len(rule)), output, size(len(output)))
    return output.raw[:max(0, length)]


def calls_on_schemas(library, rows):
    """The calls on texts of CDDL, and on items by them."""
    for row in rows:
        if row.call.startswith("cddl_"):
            text, rule = row.input, row.argument.encode()
            cddl = text if row.call == "cddl_fault" else text.rpartition(b"\n\n")[0]
            yield ["cbor_diag_schema_load", [given(cddl), given(rule), ROOM]]
            yield ["cbor_diag_schema_fault", [given(cddl), given(rule), WORD, WORD, ROOM]]
            schema = native_schema(library, cddl, rule)
            for item in SCHEMA_ITEMS:
                yield ["cbor_diag_schema_misfit", [given(schema), given(item), MISFIT, ROOM]]


def calls(has_page):
    """All calls, each once."""
    rows = [row for name in file_names() for row in rows_of(DATA / name)]
    texts = sorted({row.input for row in rows})
    items = sorted({row.bytes() for row in rows if is_hex(row.input)} | set(map(result_bytes, rows)) - {None})
    yield ["cbor_diag_version", []]
    if has_page:
        wrong = ["no TOML", "[A]\ntag = 1\n[A]"]
        yield from (["cbor_diag_names_fault", [given(names), ROOM]] for names in ["", NAMES, *wrong])
    yield from ([f"cbor_diag_{what}_text", [number, ROOM]] for what in ["error", "violation"] for number in range(25))
    for data in items:
        yield from calls_on(BYTES, data)
        yield from calls_on_bytes(data, has_page)
    for text in texts:
        yield ["cbor_diag_recognize", [given(text), WORD, ROOM]]
        yield from (["cbor_diag_place_in_text", [form, given(text), {"size": byte}]]
                    for form in INPUTS for byte in [0, 1, 9])
        for form in [HEX, DIAG, EDN]:
            yield from calls_on(form, text)


def is_hex(text):
    """Whether a row's input is bytes."""
    try:
        bytes.fromhex(text.decode())
        return True
    except ValueError:
        return False


def result_bytes(row):
    """The bytes that a row's result is in hex, if it is that."""
    return bytes.fromhex(row.output()) if row.call.endswith("_to_bytes") and is_hex(row.wanted) else None


def digest(data):
    return data.hex() if len(data) <= 64 else hashlib.sha256(data).hexdigest()


def native_answer(library, name, values):
    """What the native library answers, as calls.mjs writes it."""
    words, written = [], []
    for value in values:
        if isinstance(value, int):
            words.append(ctypes.c_uint32(value))
        elif "size" in value:
            words.append(ctypes.c_size_t(value["size"]))
        elif "given" in value:
            data = bytes.fromhex(value["given"])
            words += [ctypes.c_char_p(data), ctypes.c_size_t(len(data))]
        else:
            size = value.get("room") or value["cell"]
            buffer = ctypes.create_string_buffer(size)
            written.append((buffer, "room" in value))
            words += [buffer, ctypes.c_size_t(size)] if "room" in value else [buffer]
    call = getattr(library, name)
    call.restype = ctypes.c_int64
    answer = call(*words)
    sizes = [max(0, min(answer, len(buffer))) if is_room else len(buffer) for buffer, is_room in written]
    shown = [digest(buffer.raw[:size]) for (buffer, _), size in zip(written, sizes)]
    return " ".join(map(str, [answer, *shown]))


def compare(module, shared):
    """How many calls were compared, and those that differ: the call, the module's answer and the native one's."""
    library = ctypes.CDLL(str(shared))
    made = list(calls(hasattr(library, "cbor_diag_page")))
    if hasattr(library, "cbor_diag_schema_load"):
        made += calls_on_schemas(library, [row for name in file_names() for row in rows_of(DATA / name)])
    lines = "".join(json.dumps(call) + "\n" for call in made)
    ran = subprocess.run(["node", HERE / "calls.mjs", module], input=lines, capture_output=True, text=True, check=True)
    answers = ran.stdout.splitlines()
    assert len(answers) == len(made), f"{len(answers)} answers to {len(made)} calls"
    differ = []
    for (name, values), answer in zip(made, answers):
        native = native_answer(library, name, values)
        if native != answer:
            differ.append((name, values, answer, native))
    return len(made), differ
