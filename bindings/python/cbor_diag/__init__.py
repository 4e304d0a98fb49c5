"""Converts CBOR data items (RFC 8949) between bytes, hex with comments, diagnostic notation, EDN (the notation that
people write) and JSON.

    >>> edn_to_bytes('[1.5, {"a": 2}]').hex()
    '82f93e00a1616102'
    >>> bytes_to_edn(bytes.fromhex("82f93e00a1616102"))
    '[1.5, {"a": 2}]'
    >>> bytes_to_json(bytes.fromhex("a201f97e000243010203"))
    '{"1": null, "2": "AQID"}'

The library libcbor_diag does the work. The module looks for it at the path in the environment variable
CBOR_DIAG_LIBRARY, then beside itself, then in this repository's dist/lib, then where the system looks for libraries.

Data is read where it is, without a copy. Any number of threads may make calls. A call on `str`, `bytes` or a part of
`bytes` releases the interpreter's lock. A call on other data holds it, so that no thread changes the data. So does a
call of a `Scanner`.
"""
from __future__ import annotations

import ctypes
import ctypes.util
import enum
import operator
import os
from typing import Any, BinaryIO, Callable, Iterator, NamedTuple, Optional, Tuple, TypeVar, Union

__all__ = [
    "Violation",
    "ViolationKind",
    "CborDiagError",
    "Error",
    "Form",
    "Input",
    "Loss",
    "LossKind",
    "Misfit",
    "Rules",
    "Scanner",
    "Schema",
    "violation",
    "bytes_to_diag",
    "bytes_to_diag_pretty",
    "bytes_to_edn",
    "bytes_to_edn_pretty",
    "bytes_to_hex",
    "bytes_to_json",
    "convert",
    "diag_to_bytes",
    "diag_to_hex",
    "edn_to_bytes",
    "edn_to_hex",
    "extent",
    "hex_to_bytes",
    "hex_to_diag",
    "hex_to_diag_pretty",
    "hex_to_edn",
    "hex_to_edn_pretty",
    "hex_to_json",
    "items",
    "library_version",
    "name_at",
    "named",
    "names_fault",
    "page",
    "part",
    "parts",
    "paths",
    "recognize",
    "reencode",
    "value",
]

__version__ = "0.2.0"

Bytes = Union[bytes, bytearray, memoryview]
"""The bytes of items."""

Data = Union[Bytes, str]
"""The bytes of items, or the text of an item: a `str` is read as its UTF-8."""

_Result = TypeVar("_Result")


class Form(enum.IntEnum):
    """The form of an input or of an output."""

    BYTES = 0
    """The bytes of an item."""
    HEX = 1
    """Hex with comments from # to the end of the line. As an output it is a dump."""
    DIAG = 2
    """Diagnostic notation. As an output it has only line feeds of its texts, and one at its end."""
    PRETTY = 3
    """Diagnostic notation. As an output it may have several lines, and ends with a line feed."""
    EDN = 4
    """One item in EDN. An input may be JSON. As an output it is one line, and ends with a line feed."""
    EDN_PRETTY = 5
    """One item in EDN. As an output it may have several lines and comments, and ends with a line feed."""
    JSON = 6
    """JSON on one line, with a line feed at its end. An input is read as EDN."""
    JSON_STRICT = 7
    """The same, but what JSON does not keep is an error."""
    HTML = 8
    """The lines of a page of HTML, as `page` writes them, but without names. An input is read as EDN."""


class Error(enum.IntEnum):
    """Errors."""

    MEMORY = 1
    """Out of memory. It says nothing about the input."""
    CUT_SHORT = 2
    """The item is truncated: more bytes are needed."""
    HEAD = 3
    """No item can have this head."""
    UTF8 = 4
    """A text is not UTF-8, or the hex, notation or EDN of the input is not."""
    TOO_DEEP = 5
    """Nested deeper than 128 levels."""
    REMAINING = 6
    """Bytes remain after the item."""
    ODD_HEX = 7
    """Without comments, spaces and line ends, the hex has an odd number of bytes, whatever they are."""
    BAD_HEX = 8
    """That number is even, and one of the bytes is not a hex digit."""
    NOTATION = 9
    """Not diagnostic notation, or not one item in EDN."""
    PAST_WIDTH = 10
    """A number does not fit its width."""
    NO_FORM = 11
    """No such form."""
    NO_RULES = 12
    """No such rules."""
    NOT_ENCODABLE = 13
    """No encoding of the items keeps the rules, or the bytes are not items."""
    SAME_KEYS = 14
    """Two keys of a map become the same in JSON."""
    NOT_KEPT = 15
    """JSON does not keep all of the item: only for `JSON_STRICT`."""
    NO_PART = 16
    """The path leads to no part of the item."""
    NO_TYPE = 17
    """No type of the tables of names has this name."""
    NOT_RECOGNIZED = 18
    """Neither hex, EDN, base 64 nor bytes of items."""
    WRONG_NAMES = 19
    """The file of names has an error."""
    WRONG_CDDL = 20
    """The CDDL has an error."""
    WRONG_SCHEMA = 21
    """The bytes are no schema. No call of this module raises it."""
    TOO_MUCH_WORK = 22
    """Matching an item takes more than 10 million steps, or nests too deeply."""


class Input(enum.IntEnum):
    """The form that `recognize` finds."""

    BYTES = 0
    """The bytes of items, one after the other."""
    HEX = 1
    """These bytes in hex, as people paste it."""
    EDN = 2
    """Items in EDN, none or more."""
    BASE64 = 3
    """The bytes in base 64, in either alphabet."""


class Rules(enum.IntEnum):
    """Sets of rules for an encoding. Each includes the rules of the first."""

    RFC8949 = 0
    """Well formed: no f8 before a byte below 32."""
    VALID = 1
    """No map has a key twice: the core encodings of its keys differ (RFC 8949, sections 5.3.1 and 5.6.1)."""
    PREFERRED = 2
    """Preferred serialization (RFC 8949, section 4.1)."""
    CORE = 3
    """Core deterministic encoding (RFC 8949, section 4.2.1)."""
    LENGTH_FIRST = 4
    """Length-first deterministic encoding (RFC 8949, section 4.2.3)."""
    CTAP2 = 5
    """Canonical CBOR (CTAP 2.1, section 8)."""
    DCBOR = 6
    """dCBOR."""


class ViolationKind(enum.IntEnum):
    """How a head or a key violates a rule."""

    NO_ITEM = 1
    """No item begins there, or it is truncated, or its content is not UTF-8."""
    LONG_SIMPLE = 2
    """f8 before a byte below 32."""
    LONG_HEAD = 3
    """A number in a non-minimal width: a value, a length, a count or a tag."""
    NOT_NFC = 4
    """A text, or a chunk of one, that is not in NFC."""
    LONG_FLOAT = 5
    """A float in a non-minimal width."""
    INTEGER_FLOAT = 6
    """A float that is an integer."""
    OTHER_NAN = 7
    """A NaN other than f97e00."""
    OTHER_SIMPLE = 8
    """A simple value other than false, true and null."""
    INDEFINITE = 9
    """An indefinite length."""
    TAG = 10
    """A tag."""
    LEADING_ZERO = 11
    """A big number with a zero byte in front."""
    SMALL_BIG_NUMBER = 12
    """A big number that fits an integer."""
    TOO_DEEP = 13
    """An array or a map at a level that is too deep."""
    KEY_ORDER = 14
    """A key that comes before the one before it, in the order of keys."""
    KEY_TWICE = 15
    """A key that the map has already."""


class LossKind(enum.IntEnum):
    """What JSON does not keep."""

    TAG = 1
    """A tag."""
    NOT_FINITE = 2
    """NaN or an infinity."""
    SIMPLE = 3
    """A simple value other than false, true and null."""
    BYTES = 4
    """A byte string."""
    KEY = 5
    """A key that is not a text string."""


class Loss(NamedTuple):
    """The first thing in an item that JSON does not keep."""

    kind: LossKind
    """What it is."""
    place: int
    """How many bytes of the item come before it."""


class _Violation(NamedTuple):
    kind: ViolationKind
    """What is wrong."""
    place: int
    """How many bytes come before the head or the key that violates the rule."""
    other: Optional[int] = None
    """The place of the key before, for `KEY_ORDER`, or of the first of the two keys, for `KEY_TWICE`."""
    error: Optional[Error] = None
    """The error, for `NO_ITEM`."""


class Violation(_Violation):
    """The first violation of a rule. Its `str` says what is wrong and where. If a call found it, the `str` also has the
    value: `a key that stands twice: 1 at byte 3, first at byte 1`."""

    _words: Optional[str] = None

    def __str__(self) -> str:
        return self._words or _violation_words(self)


class Misfit(NamedTuple):
    """Why an item does not fit a schema. Its `str` is the message with the place: `byte 3: expected uint for b (line 1),
    found -1; at b`."""

    place: int
    """How many bytes of the data come before what does not fit."""
    path: str
    """The path to that in its item, as `part` takes it; empty for the item itself."""
    expected: str
    """What the schema expects there."""
    found: str
    """What is there."""
    rule: Optional[str]
    """The innermost rule or entry that has a name."""
    line: Optional[int]
    """The line of that in the CDDL, which counts from 1."""
    item: int
    """How many bytes of the data come before the outermost item."""
    message: str
    """What is expected and what is found, the path, and how many other alternatives came less far, in one line."""

    def __str__(self) -> str:
        return f"byte {self.place}: {self.message}"


class CborDiagError(ValueError):
    """The input is not an item, or memory ran out. The text says what is wrong. For bytes and hex it also says where in
    the item, and for EDN what has to be there.

    `error` is the kind of the error. `offset` is the error position: how many bytes of the input come before it, or how
    many characters if `convert` was given a `str`. It is `None` out of memory, and if there is no such form.

    In bytes the error position is the malformed byte; the last byte of a text that is not UTF-8; the end of truncated
    bytes; or the first byte after the item. In hex it is the first digit of that byte, or the digit that is wrong,
    which is the last of an odd number. In notation and EDN it is the first byte with which the text cannot go on, or
    the end of a text that is only truncated. In hex, notation or EDN that is not UTF-8 it is the first byte that is
    not.

    `path` leads to the truncated or malformed item: steps joined by `/`, as `cborcat -p` reads them; `/` is the
    outermost item. It is `None` in notation, in EDN, in hex whose digits are wrong, if more bytes follow an item, out
    of memory, and if `extent` or `Scanner.feed` raised the error.

    If `extent`, `Scanner.feed` or `items` raised it, `end` is the number of first bytes that show the error.

    If an item has no JSON, `keys` or `loss` says why. For `SAME_KEYS`, `keys` is how many bytes of the item come before
    the first and the second of the two keys. For `NOT_KEPT`, `loss` is what JSON does not keep. The bytes of the item
    are those of its conversion to the form `BYTES`. For data in bytes, `offset` is the place of the second key or of
    the loss; in other forms it is `None`.

    If `reencode` raised `NOT_ENCODABLE`, `violation` is the violation. For `KEY_TWICE`, its `place` is that of the
    second key, and its `other` that of the first. It is `None` if only the re-encoded items have a violation.

    If `Schema` raised `WRONG_CDDL`, `line` and `column` say where in the CDDL. They count from 1, and are `None` for an
    error that has no place.
    """

    def __init__(
        self,
        error: Error,
        end: Optional[int] = None,
        offset: Optional[int] = None,
        text: Optional[str] = None,
        path: Optional[str] = None,
        keys: Optional[Tuple[int, int]] = None,
        loss: Optional[Loss] = None,
        violation: Optional[Violation] = None,
        line: Optional[int] = None,
        column: Optional[int] = None,
    ) -> None:
        super().__init__(_error_text(error) if text is None else text)
        self.error = error
        self.end = end
        self.offset = offset
        self.path = path
        self.keys = keys
        self.loss = loss
        self.violation = violation
        self.line = line
        self.column = column

    def __reduce__(self) -> tuple[type[CborDiagError], tuple[Any, ...]]:
        told = (self.end, self.offset, str(self), self.path, self.keys, self.loss, self.violation, self.line,
                self.column)
        return type(self), (self.error, *told)


def _library_path() -> str:
    named = os.environ.get("CBOR_DIAG_LIBRARY")
    if named:
        return named
    here = os.path.dirname(os.path.abspath(__file__))
    built = os.path.join(here, "..", "..", "..", "dist", "lib")
    name = "cbor_diag.dll" if os.name == "nt" else "libcbor_diag.so.0"
    for folder in (here, built):
        path = os.path.join(folder, name)
        if os.path.exists(path):
            return path
    return ctypes.util.find_library("cbor_diag") or name


class _Part(ctypes.Structure):
    """A part of an item: `struct cbor_diag_part`."""

    _fields_ = [("key", ctypes.c_size_t), ("start", ctypes.c_size_t), ("end", ctypes.c_size_t)]


class _Head(ctypes.Structure):
    """A head: `struct cbor_diag_head`."""

    _fields_ = [
        ("kind", ctypes.c_uint8),
        ("indefinite", ctypes.c_uint8),
        ("argument", ctypes.c_uint64),
        ("number", ctypes.c_double),
    ]


class _Value(ctypes.Structure):
    """The value of a part: `struct cbor_diag_value`."""

    _fields_ = [
        ("kind", ctypes.c_uint8),
        ("indefinite", ctypes.c_uint8),
        ("tagged", ctypes.c_uint8),
        ("tag", ctypes.c_uint64),
        ("argument", ctypes.c_uint64),
        ("number", ctypes.c_double),
        ("start", ctypes.c_size_t),
        ("end", ctypes.c_size_t),
    ]


class _Misfit(ctypes.Structure):
    """Where an item does not fit, and parts of the message: `struct cbor_diag_misfit`."""

    _fields_ = [
        (name, ctypes.c_size_t)
        for name in (
            "place", "item", "line", "expected", "expected_end", "rule", "rule_end", "found", "found_end", "path",
            "path_end"
        )
    ]


class _Library:
    """The calls of the library. `kind` says whether they hold the interpreter's lock."""

    def __init__(self, kind: Any) -> None:
        try:
            library = kind(_library_path())
        except OSError as error:
            raise ImportError(
                f"cannot load the library libcbor_diag ({error}): set the environment variable "
                "CBOR_DIAG_LIBRARY to its path"
            ) from error
        size, pointer = ctypes.c_size_t, ctypes.c_void_p
        self.convert = library.cbor_diag_convert
        self.convert.restype = ctypes.c_int64
        self.convert.argtypes = [ctypes.c_uint32, ctypes.c_uint32, pointer, size, pointer, size]
        self.extent = library.cbor_diag_extent
        self.extent.restype = ctypes.c_int64
        self.extent.argtypes = [pointer, size, ctypes.POINTER(size)]
        self.fault = library.cbor_diag_fault
        self.fault.restype = ctypes.c_int64
        self.fault.argtypes = [ctypes.c_uint32, pointer, size, ctypes.POINTER(size)]
        self.fault_text = library.cbor_diag_fault_text
        self.fault_text.restype = ctypes.c_int64
        self.fault_text.argtypes = [ctypes.c_uint32, pointer, size, ctypes.c_char_p, size]
        self.fault_path = library.cbor_diag_fault_path
        self.fault_path.restype = ctypes.c_int64
        self.fault_path.argtypes = [ctypes.c_uint32, pointer, size, ctypes.c_char_p, size]
        self.fault_message = library.cbor_diag_fault_message
        self.fault_message.restype = ctypes.c_int64
        self.fault_message.argtypes = [ctypes.c_uint32, pointer, size, ctypes.c_char_p, size]
        self.output_fault = library.cbor_diag_output_fault
        self.output_fault.restype = ctypes.c_int64
        self.output_fault.argtypes = [
            ctypes.c_uint32, ctypes.c_uint32, pointer, size, ctypes.POINTER(size), ctypes.POINTER(size)
        ]
        self.scanner_init = library.cbor_diag_scanner_init
        self.scanner_init.restype = None
        self.scanner_init.argtypes = [pointer]
        self.scanner_feed = library.cbor_diag_scanner_feed
        self.scanner_feed.restype = ctypes.c_int64
        self.scanner_feed.argtypes = [pointer, pointer, size, ctypes.POINTER(size)]
        self.violation = library.cbor_diag_violation
        self.violation.restype = ctypes.c_int64
        self.violation.argtypes = [ctypes.c_uint32, pointer, size, ctypes.POINTER(size), ctypes.POINTER(size)]
        self.violation_text = library.cbor_diag_violation_text
        self.violation_text.restype = ctypes.c_int64
        self.violation_text.argtypes = [ctypes.c_uint32, ctypes.c_char_p, size]
        self.reencode = library.cbor_diag_reencode
        self.reencode.restype = ctypes.c_int64
        self.reencode.argtypes = [ctypes.c_uint32, pointer, size, pointer, size]
        self.reencode_fault = library.cbor_diag_reencode_fault
        self.reencode_fault.restype = ctypes.c_int64
        self.reencode_fault.argtypes = [ctypes.c_uint32, pointer, size, ctypes.POINTER(size), ctypes.POINTER(size)]
        self.name_at = library.cbor_diag_name_at
        self.name_at.restype = ctypes.c_int64
        text = ctypes.c_char_p
        self.name_at.argtypes = [pointer, size, text, size, text, size, text, size]
        self.head = library.cbor_diag_head
        self.head.restype = ctypes.c_int64
        self.head.argtypes = [pointer, size, ctypes.POINTER(_Head)]
        self.part = library.cbor_diag_part
        self.part.restype = ctypes.c_int64
        self.part.argtypes = [pointer, size, text, size, ctypes.POINTER(size), ctypes.POINTER(size)]
        self.parts = library.cbor_diag_parts
        self.parts.restype = ctypes.c_int64
        self.parts.argtypes = [pointer, size, text, size, ctypes.POINTER(_Part), size]
        self.value = library.cbor_diag_value
        self.value.restype = ctypes.c_int64
        self.value.argtypes = [pointer, size, text, size, ctypes.POINTER(_Value)]
        self.paths = library.cbor_diag_paths
        self.paths.restype = ctypes.c_int64
        self.paths.argtypes = [pointer, size, pointer, size]
        self.named = library.cbor_diag_named
        self.named.restype = ctypes.c_int64
        self.named.argtypes = [pointer, size, text, size, pointer, size]
        self.recognize = library.cbor_diag_recognize
        self.recognize.restype = ctypes.c_int64
        self.recognize.argtypes = [pointer, size, ctypes.POINTER(ctypes.c_uint32), pointer, size]
        self.page = library.cbor_diag_page
        self.page.restype = ctypes.c_int64
        self.page.argtypes = [pointer, size, text, size, text, size, ctypes.c_uint32, pointer, size]
        self.names_fault = library.cbor_diag_names_fault
        self.names_fault.restype = ctypes.c_int64
        self.names_fault.argtypes = [text, size, pointer, size]
        self.schema_load = library.cbor_diag_schema_load
        self.schema_load.restype = ctypes.c_int64
        self.schema_load.argtypes = [text, size, text, size, pointer, size]
        self.schema_fault = library.cbor_diag_schema_fault
        self.schema_fault.restype = ctypes.c_int64
        self.schema_fault.argtypes = [
            text, size, text, size, ctypes.POINTER(size), ctypes.POINTER(size), pointer, size
        ]
        self.schema_misfit = library.cbor_diag_schema_misfit
        self.schema_misfit.restype = ctypes.c_int64
        self.schema_misfit.argtypes = [text, size, pointer, size, ctypes.POINTER(_Misfit), pointer, size]
        self.error_text = library.cbor_diag_error_text
        self.error_text.restype = ctypes.c_int64
        self.error_text.argtypes = [ctypes.c_uint32, ctypes.c_char_p, size]
        self.version = library.cbor_diag_version
        self.version.restype = ctypes.c_uint32
        self.version.argtypes = []


_releasing = _Library(ctypes.CDLL)
_holding = _Library(ctypes.PyDLL)


def _error_text(error: Error) -> str:
    text = ctypes.create_string_buffer(64)
    length = _releasing.error_text(error, text, len(text))
    return text.raw[:length].decode("ascii")


def _violation_text(kind: ViolationKind) -> str:
    text = ctypes.create_string_buffer(64)
    length = _releasing.violation_text(kind, text, len(text))
    return text.raw[:length].decode("ascii")


def _violation_words(found: Violation, value: str = "", before: str = "") -> str:
    """The text of a violation, with the value at its place and the key before it in EDN."""
    text = _violation_text(found.kind) if found.error is None else _error_text(found.error)
    words = f"{text}: {value} at byte {found.place}" if value else f"{text} at byte {found.place}"
    if found.kind is ViolationKind.KEY_ORDER:
        return f"{words}, after {before or 'the key'} at byte {found.other}"
    return words if found.other is None else f"{words}, first at byte {found.other}"


class _View(ctypes.Structure):
    """CPython's `Py_buffer`."""

    _fields_ = [
        ("buf", ctypes.c_void_p),
        ("obj", ctypes.c_void_p),
        ("len", ctypes.c_ssize_t),
        ("itemsize", ctypes.c_ssize_t),
        ("readonly", ctypes.c_int),
        ("ndim", ctypes.c_int),
        ("format", ctypes.c_char_p),
        ("shape", ctypes.c_void_p),
        ("strides", ctypes.c_void_p),
        ("suboffsets", ctypes.c_void_p),
        ("internal", ctypes.c_void_p),
    ]


_get_buffer = ctypes.pythonapi.PyObject_GetBuffer
_get_buffer.restype = ctypes.c_int
_get_buffer.argtypes = [ctypes.py_object, ctypes.POINTER(_View), ctypes.c_int]

_release_buffer = ctypes.pythonapi.PyBuffer_Release
_release_buffer.restype = None
_release_buffer.argtypes = [ctypes.POINTER(_View)]


def _on_bytes(data: Bytes, call: Callable[..., _Result], *arguments: Any) -> _Result:
    """Makes `call` with the library, the address and the number of the bytes of the data, and the other arguments.

    Raises `TypeError` for a `str`, and for data that has no bytes, such as an `int`. Copies data whose bytes are not
    one after the other.
    """
    if isinstance(data, str):
        raise TypeError("a str has no bytes of CBOR: bytes.fromhex(text) gives those of hex digits")
    if not isinstance(data, bytes):
        given = memoryview(data)
        if given.c_contiguous:
            library = _releasing if isinstance(given.obj, bytes) else _holding
            view = _View()
            _get_buffer(given, view, 0)
            try:
                return call(library, view.buf or b"", view.len, *arguments)
            finally:
                _release_buffer(view)
        data = given.tobytes()
    return call(_releasing, data, len(data), *arguments)


# plain numbers, which ctypes takes in less time
_BYTES, _HEX, _DIAG, _PRETTY, _EDN, _EDN_PRETTY, _JSON, _JSON_STRICT, _HTML = map(int, Form)


def _form_number(form: Form) -> int:
    """The number of a form. Raises `CborDiagError` for a number that does not fit the library's argument."""
    number = operator.index(form)
    if not 0 <= number < 2**32:
        raise CborDiagError(Error.NO_FORM)
    return number


def _place(library: _Library, given: Any, length: int, source: int) -> Optional[int]:
    """The error position of an input, if it has one."""
    place = ctypes.c_size_t()
    library.fault(source, given, length, ctypes.byref(place))
    return None if place.value == _NO_PLACE else place.value


_NO_PLACE = ctypes.c_size_t(-1).value


def _words(call: Callable[..., int], given: Any, length: int, source: int) -> Optional[str]:
    """The text that a call of the library writes for an error; `None` for an empty one, and if memory ran out."""
    text = ctypes.create_string_buffer(256)
    wanted = call(source, given, length, text, len(text))
    if wanted > len(text):
        text = ctypes.create_string_buffer(wanted)
        wanted = call(source, given, length, text, wanted)
    return text.raw[:wanted].decode("utf-8") if wanted > 0 else None


_LOSSES = {
    LossKind.TAG: "a tag",
    LossKind.NOT_FINITE: "NaN or an infinity",
    LossKind.SIMPLE: "a simple value",
    LossKind.BYTES: "a byte string",
    LossKind.KEY: "a key that is no text",
}


def _no_json(library: _Library, given: Any, length: int, source: int, target: int, error: Error) -> CborDiagError:
    """The error of an item that has no JSON."""
    place, detail = ctypes.c_size_t(), ctypes.c_size_t()
    told = library.output_fault(source, target, given, length, ctypes.byref(place), ctypes.byref(detail))
    if told != -error:
        return CborDiagError(error)  # memory ran out
    offset = place.value if source == _BYTES else None
    if error is Error.SAME_KEYS:
        keys = detail.value, place.value
        text = f"{_error_text(error)}: those at bytes {keys[0]} and {keys[1]}"
        return CborDiagError(error, None, offset, text, keys=keys)
    loss = Loss(LossKind(detail.value), place.value)
    text = f"{_error_text(error)}: {_LOSSES[loss.kind]} at byte {loss.place}"
    return CborDiagError(error, None, offset, text, loss=loss)


def _failure(library: _Library, given: Any, length: int, source: int, target: int, error: Error) -> CborDiagError:
    """The error of a conversion that failed."""
    if error in (Error.MEMORY, Error.NO_FORM):
        return CborDiagError(error)
    if error in (Error.SAME_KEYS, Error.NOT_KEPT):
        return _no_json(library, given, length, source, target, error)
    text = _words(library.fault_message, given, length, source)
    path = _words(library.fault_path, given, length, source)
    return CborDiagError(error, None, _place(library, given, length, source), text, path)


class _Room:
    """Memory for an output. Most outputs fit, so that one call of the library is enough."""

    SIZE = 65536

    __slots__ = ("address", "view")

    def __init__(self) -> None:
        buffer = ctypes.create_string_buffer(self.SIZE)
        self.address = ctypes.addressof(buffer)
        self.view = memoryview(buffer)


# The rooms that no call uses. A call removes one while it needs it, so that neither another thread nor a signal handler
# writes to it.
_rooms: list[_Room] = []


def _room() -> _Room:
    try:
        return _rooms.pop()
    except IndexError:
        return _Room()


def _text(output: memoryview) -> str:
    """The text of an output in notation, without the line feed that ends it."""
    return str(output[:-1], "utf-8")


def _dump(output: memoryview) -> str:
    return str(output, "utf-8")


def _converted(
    library: _Library, given: Any, length: int, source: int, target: int, kept: Callable[[memoryview], _Result]
) -> _Result:
    """The result of `kept` on the output for the given bytes."""
    room = _room()
    try:
        wanted = library.convert(source, target, given, length, room.address, room.SIZE)
        if 0 <= wanted <= room.SIZE:
            return kept(room.view[:wanted])
    finally:
        _rooms.append(room)
    if wanted < 0:
        raise _failure(library, given, length, source, target, Error(-wanted))
    output = ctypes.create_string_buffer(wanted)
    if library.convert(source, target, given, length, output, wanted) != wanted:
        raise AssertionError("the length of an output changed")
    return kept(memoryview(output))


def _convert(source: int, target: int, data: Data, kept: Callable[[memoryview], _Result]) -> _Result:
    """The same for data of any kind. The error position in a `str` counts characters."""
    if type(data) is bytes:
        return _converted(_releasing, data, len(data), source, target, kept)
    if source == _BYTES or not isinstance(data, str):
        return _on_bytes(data, _converted, source, target, kept)
    text = data.encode("utf-8", "surrogatepass")
    try:
        return _converted(_releasing, text, len(text), source, target, kept)
    except CborDiagError as failure:
        if failure.offset is not None:
            failure.offset = len(text[: failure.offset].decode("utf-8", "ignore"))
        raise


def convert(source: Form, target: Form, data: Data) -> bytes:
    """Converts an item from the form `source` to the form `target`.

    A `str` is read as its UTF-8. An output in notation, EDN or JSON ends with a line feed.

    Raises `CborDiagError` if the input is not an item in the form `source`, or the item has no output in the form
    `target`. Raises `TypeError` for a `str` in the form `BYTES`, and for data that has no bytes.
    """
    return _convert(_form_number(source), _form_number(target), data, bytes)


def _beginning(found: int, end: int) -> int:
    """The length that the library found, or its error."""
    if found >= 0:
        return found
    error = Error(-found)
    raise CborDiagError(error, end, end if error is Error.CUT_SHORT else end - 1)


def _no_item(found: int, begun: bytes, end: int, before: int) -> CborDiagError:
    """The error of these bytes of a stream, with the text of `convert`. `before` bytes come before them."""
    error = Error(-found)
    given = begun[:end]
    text = _words(_releasing.fault_message, given, end, _BYTES)
    path = _words(_releasing.fault_path, given, end, _BYTES)
    last = end if error is Error.CUT_SHORT else end - 1
    return CborDiagError(error, before + end, before + last, text, path)


def _found(library: _Library, given: Any, length: int, end: ctypes.c_size_t) -> int:
    return library.extent(given, length, ctypes.byref(end))


def extent(data: Bytes) -> int:
    """Returns the length of the item at the front of `data`, which is at least 1. More bytes may follow it.

    Raises `CborDiagError` if there is no item. The error is `CUT_SHORT` if the bytes end before the item does; more
    bytes may complete it. With any other error, no item begins with these bytes, whatever follows them.
    """
    end = ctypes.c_size_t()
    found = _on_bytes(data, _found, end)
    return _beginning(found, end.value)


def _rules_number(rules: Rules) -> int:
    """The number of a set of rules. Raises `CborDiagError` for a number that does not fit the library's argument."""
    number = operator.index(rules)
    if not 0 <= number < 2**32:
        raise CborDiagError(Error.NO_RULES)
    return number


def _value_at(library: _Library, given: Any, length: int, place: int) -> str:
    """The item at a place in EDN, if it is short; else an empty text."""
    start = ctypes.cast(given, ctypes.c_void_p).value
    if start is None:
        return ""
    count = library.extent(start + place, length - place, ctypes.byref(ctypes.c_size_t()))
    if not 0 < count <= 40:
        return ""
    text = _converted(library, start + place, count, _BYTES, _EDN, _text)
    return text if len(text) <= 40 else ""


def _told_violation(library: _Library, given: Any, length: int, found: int, place: int, detail: int) -> Optional[Violation]:
    """The violation that the library found in the bytes, if it has a place."""
    if place == _NO_PLACE:
        return None
    kind = ViolationKind(found)
    if kind is ViolationKind.NO_ITEM:
        return Violation(kind, place, error=Error(detail))
    told = Violation(kind, place, None if detail == _NO_PLACE else detail)
    before = "" if told.other is None else _value_at(library, given, length, told.other)
    told._words = _violation_words(told, _value_at(library, given, length, place), before)
    return told


def _violation(library: _Library, given: Any, length: int, rules: int) -> Optional[Violation]:
    place, detail = ctypes.c_size_t(), ctypes.c_size_t()
    found = library.violation(rules, given, length, ctypes.byref(place), ctypes.byref(detail))
    if found == 0:
        return None
    if found < 0:
        raise CborDiagError(Error(-found))
    return _told_violation(library, given, length, found, place.value, detail.value)


def violation(data: Bytes, rules: Rules) -> Optional[Violation]:
    """Returns the first violation of the rules in `data`; `None` if it is a sequence of items, or none, that keep the
    rules.

    >>> violation(bytes.fromhex("82011802"), Rules.CORE).place
    2

    For `KEY_TWICE`, `place` is that of the second key, and `other` that of the first. By `VALID` two keys are the same
    if their core encodings are, even if their bytes differ.

    >>> violation(edn_to_bytes("{1: -7, 1_0: -8}"), Rules.VALID).place
    3

    Raises `CborDiagError` if there are no such rules, and out of memory, which only `VALID` and `DCBOR` take.
    """
    return _on_bytes(data, _violation, _rules_number(rules))


def _no_encoding(library: _Library, given: Any, length: int, rules: int, error: Error) -> CborDiagError:
    """The error of data that has no such encoding."""
    if error is not Error.NOT_ENCODABLE:
        return CborDiagError(error)
    place, detail = ctypes.c_size_t(), ctypes.c_size_t()
    found = library.reencode_fault(rules, given, length, ctypes.byref(place), ctypes.byref(detail))
    if found <= 0:
        return CborDiagError(error)  # memory ran out
    told = _told_violation(library, given, length, found, place.value, detail.value)
    words = str(told) if told else _violation_text(ViolationKind(found))
    return CborDiagError(error, None, told.place if told else None, f"{_error_text(error)}: {words}", violation=told)


def _reencoded(library: _Library, given: Any, length: int, rules: int) -> bytes:
    wanted = length
    while True:
        output = ctypes.create_string_buffer(max(wanted, 1))
        room, wanted = wanted, library.reencode(rules, given, length, output, wanted)
        if wanted < 0:
            raise _no_encoding(library, given, length, rules, Error(-wanted))
        if wanted <= room:
            return output.raw[:wanted]


def reencode(data: Bytes, rules: Rules) -> bytes:
    """Re-encodes a sequence of items, or none, so that they keep the rules. The result has the same items but for
    widths, kinds of length, the order of pairs and the forms of numbers: a big number that fits an integer becomes that
    integer, and by `DCBOR` a float that is an integer does. Data that keeps the rules is returned as it is.

    >>> reencode(bytes.fromhex("a21802800180"), Rules.CORE).hex()
    'a201800280'

    Raises `CborDiagError` with the error `NOT_ENCODABLE` if the data is not a sequence of items; if it has a violation
    that re-encoding cannot repair; if two keys of a map have the same core encoding or become the same; or if the
    joined chunks of a text violate a rule. The `violation` of the error says which of these, and where. Raises it also
    if there are no such rules, and out of memory.
    """
    return _on_bytes(data, _reencoded, _rules_number(rules))


def _no_name(library: _Library, given: Any, length: int, error: Error) -> CborDiagError:
    """The error of `name_at`. For data that is not an item it is that of `convert`."""
    if error in (Error.NO_PART, Error.NO_TYPE, Error.WRONG_NAMES):
        return CborDiagError(error)
    return _failure(library, given, length, _BYTES, _BYTES, error)


def _name(library: _Library, given: Any, length: int, path: bytes, kind: bytes) -> Optional[str]:
    """The name of a part."""
    wanted = 64
    while True:
        text = ctypes.create_string_buffer(wanted)
        room, wanted = wanted, library.name_at(given, length, path, len(path), kind, len(kind), text, wanted)
        if wanted < 0:
            raise _no_name(library, given, length, Error(-wanted))
        if wanted <= room:
            return text.raw[:wanted].decode("ascii") or None


def name_at(data: Bytes, path: str, type: Optional[str] = None) -> Optional[str]:
    """Returns the name of the part of an item that `path` leads to, in COSE, CWT, EAT, SenML or CTAP2; `None` if it has
    no name.

    >>> name_at(bytes.fromhex("d28443a10126a04040"), "0/@/1")
    'alg'
    >>> name_at(bytes.fromhex("a10104"), "1", type="COSE_Key")
    'kty'

    A path has steps joined by `/`, as `cborcat -p` reads them. The empty path leads to the item itself. The result for
    a path with a `*` is `None`. `type` is the type of the outermost item where no tag says it.

    Raises `CborDiagError` if the data is not an item, if the path leads to no part of it (`NO_PART`), if there is no
    such type (`NO_TYPE`), and out of memory.
    """
    steps, kind = (given.encode("utf-8", "surrogatepass") for given in (path, type or ""))
    return _on_bytes(data, _name, steps, kind)


Scalar = Union[int, float, str, bytes, bool, None]
"""What `value` returns."""


def _slice(given: Any, start: int, end: int) -> bytes:
    """These bytes of the data."""
    if isinstance(given, bytes):
        return given[start:end]
    return ctypes.string_at(given + start, end - start)


def _part(library: _Library, given: Any, length: int, path: bytes) -> bytes:
    start, end = ctypes.c_size_t(), ctypes.c_size_t()
    found = library.part(given, length, path, len(path), ctypes.byref(start), ctypes.byref(end))
    if found < 0:
        raise _no_name(library, given, length, Error(-found))
    return _slice(given, start.value, end.value)


def _path(path: str) -> bytes:
    return path.encode("utf-8", "surrogatepass")


def part(data: Bytes, path: str) -> bytes:
    """Returns the part of an item that `path` leads to, with its tags; with a `*` the first of the parts.

    >>> part(edn_to_bytes('{"a": [1, 2]}'), "a").hex()
    '820102'

    A path has steps joined by `/`, as `cborcat -p` reads them: an index, a key in EDN, where a plain word is a text,
    `@` for the item in a byte string, and `*` for each member; names are none. The empty path is the item itself.

    Raises `CborDiagError` if the data is no item, with `NO_PART` if the path leads to no part of it, and if memory runs
    out.
    """
    return _on_bytes(data, _part, _path(path))


def _parts(library: _Library, given: Any, length: int, path: bytes) -> list[bytes]:
    wanted = 64
    while True:
        found = (_Part * wanted)()
        room, wanted = wanted, library.parts(given, length, path, len(path), found, wanted)
        if wanted < 0:
            raise _no_name(library, given, length, Error(-wanted))
        if wanted <= room:
            return [_slice(given, one.start, one.end) for one in found[:wanted]]


def parts(data: Bytes, path: str) -> list[bytes]:
    """Returns all parts of an item that `path` leads to, in order: several with a `*`, and none if it leads nowhere.

    >>> [one.hex() for one in parts(edn_to_bytes('{"a": [1, 2]}'), "a/*")]
    ['01', '02']

    Raises `CborDiagError` if the data is no item, and if memory runs out.
    """
    return _on_bytes(data, _parts, _path(path))


def _joined(string: bytes) -> bytes:
    """The content of a string in chunks, whose tags are left out."""
    head, at, content = _Head(), 0, b""
    while True:
        at += _releasing.head(string[at : at + 9], len(string[at : at + 9]), ctypes.byref(head))
        if head.kind == 9:
            return content
        if head.kind in (2, 3) and not head.indefinite:
            content += string[at : at + head.argument]
            at += head.argument


def _scalar(found: _Value, part: bytes) -> Scalar:
    """The value of a part: of a string of definite length its content, and of any other item the part itself."""
    if found.kind in (0, 1):
        return -1 - found.argument if found.kind else found.argument
    if found.kind == 8:
        return found.number
    if found.kind == 7:
        return {20: False, 21: True, 22: None, 23: None}.get(found.argument, part)
    if found.kind not in (2, 3):
        return part
    content = _joined(part) if found.indefinite else part
    if found.kind == 3:
        return content.decode("utf-8")
    if found.tagged and found.tag in (2, 3):
        number = int.from_bytes(content, "big")
        return -1 - number if found.tag == 3 else number
    return content


def _value(library: _Library, given: Any, length: int, path: bytes) -> Scalar:
    found = _Value()
    answer = library.value(given, length, path, len(path), ctypes.byref(found))
    if answer < 0:
        raise _no_name(library, given, length, Error(-answer))
    return _scalar(found, _slice(given, found.start, found.end))


def value(data: Bytes, path: str = "") -> Scalar:
    """Returns the value of the part of an item that `path` leads to, without its tags: an `int`, also of a big number,
    a `float`, a `str`, `bytes`, a `bool`, or `None` for null and undefined; and for an array, a map and any other
    simple value the bytes of the part.

    >>> value(edn_to_bytes('{"at": 1(1700000000), "a": ["x"]}'), "at")
    1700000000
    >>> value(edn_to_bytes('{"at": 1(1700000000), "a": ["x"]}'), "a/0")
    'x'

    Raises `CborDiagError` as `part` does.
    """
    return _on_bytes(data, _value, _path(path))


def _written(library: _Library, given: Any, length: int, call: Callable[..., int], *arguments: Any) -> bytes:
    """What a call writes."""
    wanted = 4096
    while True:
        output = ctypes.create_string_buffer(wanted)
        room, wanted = wanted, call(given, length, *arguments, output, wanted)
        if wanted < 0:
            raise _no_name(library, given, length, Error(-wanted))
        if wanted <= room:
            return output.raw[:wanted]


def _path_and_text(line: str) -> Tuple[str, str]:
    """The path and the EDN of a line: two blanks that are not in a text are between them."""
    at, quoted = 0, False
    while quoted or not line.startswith("  ", at):
        quoted ^= line[at] == '"'
        at += 1
    return line[:at], line[at + 2 :]


def _paths(library: _Library, given: Any, length: int) -> list[Tuple[str, str]]:
    lines = _written(library, given, length, library.paths).decode("utf-8")
    return [_path_and_text(line) for line in lines.split("\n")[:-1]]


def paths(data: Bytes) -> list[Tuple[str, str]]:
    """Returns each item in an item that holds no other: the path that leads to it, and the item in EDN.

    >>> paths(edn_to_bytes('{"a": [1, 2.5], "b": {}}'))
    [('a/0', '1'), ('a/1', '2.5'), ('b', '{}')]

    Raises `CborDiagError` if the data is no item, and if memory runs out.
    """
    return _on_bytes(data, _paths)


def _named(library: _Library, given: Any, length: int, kind: bytes) -> str:
    return _written(library, given, length, library.named, kind, len(kind))[:-1].decode("utf-8")


def named(data: Bytes, type: Optional[str] = None) -> str:
    """An item in EDN over several lines as `cborcat` shows it: with the names of COSE, CWT, EAT, SenML and CTAP2, and
    with notes, as comments; without a line feed at the end. `type` is the type of the item where no tag says it.

    >>> print(named(bytes.fromhex("a10104"), type="COSE_Key"))
    /COSE_Key/ {/kty/ 1: 4 /Symmetric/}

    Raises `CborDiagError` if the data is no item, with `NO_TYPE` if there is no such type, and if memory runs out.
    """
    return _on_bytes(data, _named, _path(type or ""))


def names_fault(names: str) -> Optional[str]:
    """What is wrong with a file of names in TOML (docs/NAMES.md), with its line; `None` if nothing is.

    >>> names_fault("[Reading]\\ntag = -1")
    'line 2: a tag is an integer from 0 on'

    Raises `CborDiagError` if memory runs out.
    """
    file = _path(names)
    wanted = 256
    while True:
        output = ctypes.create_string_buffer(wanted)
        room, wanted = wanted, _releasing.names_fault(file, len(file), output, wanted)
        if wanted < 0:
            raise CborDiagError(Error(-wanted))
        if wanted <= room:
            return output.raw[:wanted].decode("utf-8") or None


_NO_NOTES, _EMBEDDED = 1, 2


def _page(library: _Library, given: Any, length: int, kind: bytes, names: bytes, flags: int) -> str:
    lines = _written(library, given, length, library.page, kind, len(kind), names, len(names), flags)
    return lines.decode("utf-8")


def page(
    data: Bytes, type: Optional[str] = None, names: str = "", *, notes: bool = True, embedded: bool = False
) -> str:
    """The lines of a page of HTML that shows items, one after the other, each line beside its own bytes, as
    `cborcat -t html` does: with the names of COSE, CWT, EAT, SenML and CTAP2, those of the file of names `names`
    (docs/NAMES.md), and notes. Of a truncated or malformed item they show the part that is there, and what is wrong.
    They are elements of HTML, to be put into a page; no tag in them comes from the data.

    >>> lines = page(bytes.fromhex("a10104"), type="COSE_Key")
    >>> "/Symmetric/" in lines, "<b class=" in lines
    (True, True)

    `type` is the type of the outermost items where no tag says it. Without `notes` there are no names and no notes.
    With `embedded`, byte strings that are an array, a map or a tagged item are shown as that.

    Raises `CborDiagError` with `NO_TYPE` if there is no such type, with `WRONG_NAMES` if the names have an error, which
    `names_fault` says, and if memory runs out.
    """
    flags = (0 if notes else _NO_NOTES) + (_EMBEDDED if embedded else 0)
    return _on_bytes(data, _page, _path(type or ""), _path(names), flags)


def _recognized(library: _Library, given: Any, length: int) -> Tuple[Input, bytes]:
    form = ctypes.c_uint32()
    output = ctypes.create_string_buffer(max(length, 1))
    wanted = library.recognize(given, length, ctypes.byref(form), output, length)
    if wanted > length:
        output = ctypes.create_string_buffer(wanted)
        wanted = library.recognize(given, length, ctypes.byref(form), output, wanted)
    if wanted < 0:
        raise CborDiagError(Error(-wanted))
    return Input(form.value), output.raw[:wanted]


def recognize(data: Data) -> Tuple[Input, bytes]:
    """Returns the form that `data` has, and the bytes that it stands for, as `cborcat` finds them: hex as people paste
    it, EDN, base 64, or bytes. Unless it is hex, these are items, none or more, one after the other. A `str` is taken
    as its UTF-8, and no text is taken for bytes.

    >>> form, found = recognize("0x82 01 02  # pasted")
    >>> form.name, found.hex()
    ('HEX', '820102')

    Raises `CborDiagError` with `NOT_RECOGNIZED` if it has none of the forms, and if memory runs out.
    """
    return _on_bytes(_path(data) if isinstance(data, str) else data, _recognized)


def _wrong_cddl(cddl: bytes, rule: bytes) -> CborDiagError:
    """The error of a text of CDDL."""
    line, column = ctypes.c_size_t(), ctypes.c_size_t()
    wanted = 256
    while True:
        output = ctypes.create_string_buffer(wanted)
        room, wanted = wanted, _releasing.schema_fault(
            cddl, len(cddl), rule, len(rule), ctypes.byref(line), ctypes.byref(column), output, wanted
        )
        if wanted < 0:
            return CborDiagError(Error(-wanted))
        if wanted <= room:
            text = output.raw[:wanted].decode("utf-8")
            place = {"line": line.value or None, "column": column.value or None}
            return CborDiagError(Error.WRONG_CDDL, text=text, **place)


def _first_no_item(data: bytes) -> CborDiagError:
    """The error of the first bytes of a sequence that are no item."""
    start = ctypes.cast(data, ctypes.c_void_p).value
    end = ctypes.c_size_t()
    at, found = 0, 0
    while found >= 0 and at < len(data):
        at += found
        found = _releasing.extent(start + at, len(data) - at, ctypes.byref(end))
    return _no_item(found, data[at:], end.value, at)


_NO_ITEM = (Error.CUT_SHORT, Error.HEAD, Error.UTF8, Error.TOO_DEEP)


def _misfit(library: _Library, given: Any, length: int, schema: bytes) -> Optional[Misfit]:
    told = _Misfit()
    sized = schema, len(schema), given, length, ctypes.byref(told)
    wanted = library.schema_misfit(*sized, b"", 0)
    if wanted == 0:
        return None
    if wanted > 0:
        output = ctypes.create_string_buffer(wanted)
        wanted = library.schema_misfit(*sized, output, wanted)
    if -wanted in _NO_ITEM:
        raise _first_no_item(_slice(given, 0, length))
    if wanted < 0:
        raise CborDiagError(Error(-wanted))
    message = output.raw
    expected, found, rule, path = (
        message[getattr(told, part) : getattr(told, part + "_end")].decode("utf-8")
        for part in ("expected", "found", "rule", "path")
    )
    return Misfit(
        told.place, path, expected, found, rule or None, told.line or None, told.item, message.decode("utf-8")
    )


class Schema:
    """Rules in CDDL (RFC 8610; docs/CDDL.md says what is read), to check any number of items.

    >>> schema = Schema("reading = { at: uint, ? c: float }")
    >>> schema.check(edn_to_bytes('{"at": 1, "c": 21.5}'))
    >>> misfit = schema.check(edn_to_bytes('{"at": 1, "c": "hot"}'))
    >>> print(misfit)
    byte 7: expected float for c (line 1), found "hot"; at c
    >>> misfit.path, misfit.expected, misfit.found
    ('c', 'float', '"hot"')

    An item has to fit the rule `rule`, or the first one. Any number of threads may check by one schema. It can be
    pickled, for processes with the same version of the library.

    Raises `CborDiagError` with `WRONG_CDDL` if the text has an error, and if memory runs out.
    """

    __slots__ = ("_bytes",)

    def __init__(self, text: str, rule: Optional[str] = None) -> None:
        cddl, name = _path(text), _path(rule or "")
        wanted = 0
        output: Any = b""
        while True:
            room, wanted = wanted, _releasing.schema_load(cddl, len(cddl), name, len(name), output, wanted)
            if wanted < 0:
                raise _wrong_cddl(cddl, name) if wanted == -Error.WRONG_CDDL else CborDiagError(Error(-wanted))
            if wanted <= room:
                self._bytes: bytes = output.raw
                return
            output = ctypes.create_string_buffer(wanted)

    def check(self, data: Bytes) -> Optional[Misfit]:
        """Returns why the first of the items in `data` that does not fit does not; `None` if all fit. The data is a
        sequence of items, none or more.

        Raises `CborDiagError` if the bytes after the items that fit are no item, with `TOO_MUCH_WORK`, and if memory
        runs out.
        """
        return _on_bytes(data, _misfit, self._bytes)


class Scanner:
    """Finds the length of an item that comes in pieces, as `extent` does for all bytes at once.

    >>> scanner = Scanner()
    >>> scanner.feed(b"\x82\x19\x03")
    >>> scanner.feed(b"\xe8\x02\xff")
    5

    The time of `feed` grows with the new bytes alone: at most eight of the bytes before are read again. A scanner takes
    two kilobytes.
    """

    __slots__ = ("_end", "_room")

    def __init__(self) -> None:
        self._end = ctypes.c_size_t()
        self._room = (ctypes.c_uint64 * 256)()
        self._renew()

    def _renew(self) -> None:
        """Resets it to a scanner that was fed no bytes."""
        _holding.scanner_init(self._room)

    def _feed(self, given: Any, length: int) -> int:
        """Feeds bytes, and returns the library's result."""
        return _holding.scanner_feed(self._room, given, length, self._end)

    def feed(self, data: Bytes) -> Optional[int]:
        """Feeds the next bytes. Returns the length of the item at the front of all bytes that were fed, or `None` if
        more bytes are needed.

        Raises `CborDiagError` if no item begins with these bytes, whatever follows them. Its `end` and `offset` count
        from the first byte that was fed. Once there is a length or an error, it stays.
        """
        found = _on_bytes(data, lambda _, given, length: self._feed(given, length))
        if found == -Error.CUT_SHORT:
            return None
        return _beginning(found, self._end.value)


def _reader(stream: BinaryIO) -> Callable[[], bytes]:
    """A function that reads the bytes of a stream that have come. It returns no bytes at the end."""
    size = 65536
    read = getattr(stream, "read1", None) or getattr(stream, "read", None)
    if read is None:
        buffer = bytearray(size)

        def read(_: int) -> Any:
            count = stream.readinto(buffer)
            return None if count is None else buffer[:count]

    def pieces() -> bytes:
        piece = read(size)
        if piece is None:
            raise BlockingIOError("the stream has no bytes yet: items reads streams that wait for them")
        if isinstance(piece, str):
            raise TypeError("the stream has to be binary, and gave a str")
        return bytes(piece)

    return pieces


def items(stream: BinaryIO) -> Iterator[bytes]:
    """Yields the bytes of each item of a binary stream as soon as the item is complete. The stream is a file, a pipe or
    the file of a socket.

    It calls `read1`, `read` or `readinto` of the stream, the first that the stream has. The time grows with the number
    of bytes, as that of `Scanner.feed` does. It keeps the bytes of one item and of one read.

    Raises `CborDiagError` after the last whole item if the next bytes are not an item, or if the stream ends inside of
    an item (`CUT_SHORT`). Its `end` and `offset` count from where the stream was. Its `path` and the places in its text
    count from the item with the error.
    """
    read = _reader(stream)
    scanner = Scanner()
    before = 0  # the bytes of the items that are complete
    begun: list[bytes] = []  # the pieces of the next one
    held = 0  # and how many bytes these are
    while piece := read():
        start = ctypes.cast(piece, ctypes.c_void_p).value
        at = 0
        while at < len(piece):
            found = scanner._feed(start + at, len(piece) - at)
            if found == -Error.CUT_SHORT:
                begun.append(piece[at:])
                held += len(piece) - at
                break
            if found < 0:
                begun.append(piece[at:])
                raise _no_item(found, b"".join(begun), scanner._end.value, before)
            end = at + found - held
            begun.append(piece[at:end])
            yield b"".join(begun)
            begun.clear()
            before += found
            held, at = 0, end
            scanner._renew()
    if held:
        raise _no_item(-Error.CUT_SHORT, b"".join(begun), held, before)


def bytes_to_hex(data: Bytes) -> str:
    """The dump of an item: its bytes in hex, a line for each head, with comments."""
    return _convert(_BYTES, _HEX, data, _dump)


def bytes_to_diag(data: Bytes) -> str:
    """An item in diagnostic notation, with no line feeds but those in its texts."""
    return _convert(_BYTES, _DIAG, data, _text)


def bytes_to_diag_pretty(data: Bytes) -> str:
    """An item in diagnostic notation over several lines, without a line feed at the end."""
    return _convert(_BYTES, _PRETTY, data, _text)


def hex_to_bytes(text: Data) -> bytes:
    """The bytes of an item from hex, with or without comments."""
    return _convert(_HEX, _BYTES, text, bytes)


def hex_to_diag(text: Data) -> str:
    """An item in hex in diagnostic notation, with no line feeds but those in its texts."""
    return _convert(_HEX, _DIAG, text, _text)


def hex_to_diag_pretty(text: Data) -> str:
    """An item in hex in diagnostic notation over several lines, without a line feed at the end."""
    return _convert(_HEX, _PRETTY, text, _text)


def diag_to_bytes(text: Data) -> bytes:
    """The bytes of an item from diagnostic notation."""
    return _convert(_DIAG, _BYTES, text, bytes)


def diag_to_hex(text: Data) -> str:
    """The dump of an item from diagnostic notation."""
    return _convert(_DIAG, _HEX, text, _dump)


def bytes_to_edn(data: Bytes) -> str:
    """An item in EDN on one line. It is read back as the same bytes."""
    return _convert(_BYTES, _EDN, data, _text)


def bytes_to_edn_pretty(data: Bytes) -> str:
    """An item in EDN over several lines, with notes as comments, without a line feed at the end."""
    return _convert(_BYTES, _EDN_PRETTY, data, _text)


def hex_to_edn(text: Data) -> str:
    """An item in hex in EDN on one line."""
    return _convert(_HEX, _EDN, text, _text)


def hex_to_edn_pretty(text: Data) -> str:
    """An item in hex in EDN over several lines, with notes as comments, without a line feed at the end."""
    return _convert(_HEX, _EDN_PRETTY, text, _text)


def edn_to_bytes(text: Data) -> bytes:
    """The bytes of one item in EDN. The text may also be JSON."""
    return _convert(_EDN, _BYTES, text, bytes)


def edn_to_hex(text: Data) -> str:
    """The dump of one item in EDN."""
    return _convert(_EDN, _HEX, text, _dump)


def bytes_to_json(data: Bytes, strict: bool = False) -> str:
    """An item as JSON on one line, without a line feed at the end (RFC 8949, section 6.1).

    Raises `CborDiagError` if two keys of a map become the same, as `1` and `"1"`, and with `strict` for what JSON does
    not keep.
    """
    return _convert(_BYTES, _JSON_STRICT if strict else _JSON, data, _text)


def hex_to_json(text: Data, strict: bool = False) -> str:
    """An item in hex as JSON, as `bytes_to_json` writes it."""
    return _convert(_HEX, _JSON_STRICT if strict else _JSON, text, _text)


def library_version() -> tuple[int, int, int]:
    """The major, minor and patch version of the library."""
    version = _releasing.version()
    return version // 10000, version // 100 % 100, version % 100
