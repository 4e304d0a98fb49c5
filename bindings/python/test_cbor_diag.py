"""Tests of the Python module. Expected values are worked out by hand from RFC 7049 and the documents in docs/."""
import array
import io
import mmap
import os
import pathlib
import pickle
import random
import socket
import subprocess
import sys
import threading
import unittest

import cbor_diag
from cbor_diag import Violation, ViolationKind, CborDiagError, Error, Form, Loss, LossKind, Rules

URI = {
    Form.BYTES: b"\xd8\x20\x73https://example.com",
    Form.HEX: b"""\
d8 20                                        # uri, tag(32)
   73                                        #   text(19)
      68747470733a2f2f6578616d706c652e636f6d #     "https://example.com"
                                             #   valid URL (checked against URL Standard, not RFC 3986)
""",
    Form.DIAG: b'32_0("https://example.com")\n',
    Form.PRETTY: b'32_0("https://example.com")\n',
    Form.EDN: b'32("https://example.com")\n',
    Form.EDN_PRETTY: b'32("https://example.com")\n',
}

REFUSED = [
    (Form.BYTES, b"", Error.CUT_SHORT),
    (Form.BYTES, b"\x82\x01", Error.CUT_SHORT),
    (Form.BYTES, b"\x1c", Error.HEAD),
    (Form.BYTES, b"\x61\xff", Error.UTF8),
    (Form.HEX, b"\xff", Error.UTF8),
    (Form.DIAG, b"\xff", Error.UTF8),
    (Form.BYTES, b"\x81" * 128 + b"\x01", Error.TOO_DEEP),
    (Form.BYTES, b"\x81" * 200000, Error.TOO_DEEP),
    (Form.HEX, "81" * 200000, Error.TOO_DEEP),
    (Form.DIAG, "[" * 200000, Error.TOO_DEEP),
    (Form.PRETTY, "{" * 200000, Error.TOO_DEEP),
    (Form.BYTES, b"\x01\x02", Error.REMAINING),
    (Form.HEX, "0", Error.ODD_HEX),
    (Form.HEX, "0g", Error.BAD_HEX),
    (Form.DIAG, "1.5", Error.NOTATION),
    (Form.DIAG, "", Error.NOTATION),
    (Form.DIAG, "300_0", Error.PAST_WIDTH),
    (Form.DIAG, "\ud800", Error.UTF8),
    (Form.EDN, "", Error.NOTATION),
    (Form.EDN, "1 2", Error.NOTATION),
    (Form.EDN_PRETTY, "300_0", Error.NOTATION),
    (Form.EDN, "[" * 200000, Error.NOTATION),
    (Form.EDN, "\ud800", Error.UTF8),
]

TEXTS = {
    Error.MEMORY: "out of memory",
    Error.CUT_SHORT: "the item is cut short",
    Error.HEAD: "no item can have this head",
    Error.UTF8: "a text is not UTF-8",
    Error.TOO_DEEP: "nested deeper than 128 levels",
    Error.REMAINING: "bytes remain after the item",
    Error.ODD_HEX: "an odd number of hex digits",
    Error.BAD_HEX: "not a hex digit",
    Error.NOTATION: "not diagnostic notation",
    Error.PAST_WIDTH: "a number does not fit its width",
    Error.NO_FORM: "no such form",
    Error.NO_RULES: "no such rules",
    Error.NOT_ENCODABLE: "no encoding of the items keeps the rules",
    Error.SAME_KEYS: "two keys of a map become the same in JSON",
    Error.NOT_KEPT: "JSON does not keep all of the item",
    Error.NO_PART: "the path leads to no part of the item",
    Error.NO_TYPE: "no such type",
    Error.NOT_RECOGNIZED: "neither hex, EDN, base 64 nor bytes of items",
    Error.WRONG_NAMES: "the file of names has an error",
    Error.WRONG_CDDL: "the CDDL has an error",
    Error.WRONG_SCHEMA: "the bytes are no schema",
    Error.TOO_MUCH_WORK: "matching takes too many steps, or is nested too deeply",
}


# Items, cuts and faults of each kind, with bytes after some: heads of each width, texts whose characters have one to
# four bytes, chunks, containers of both kinds, tags.
IN_PIECES = [bytes.fromhex(row) for row in """
    1700 1818 3903e7 1a000f4240 1b000000e8d4a51000ff f93c00 fb3ff199999999999a f8ff c11a514b67b0 d9d9f78301020304
    4301020304 590003010203 6a61c3bce6b0b4f0908591 7f6361c3bc7803e6b0b464f0908591ff00 5f4101580202034041ffff
    9f18208204059fffffff a26161016162bf0102ff bf010203ff 82011c00 9ffe ff 5f6161ff 7f7fffff 8162ff0000 656162c36465
    6561626364c3 68f090856162636465 64eda08061 7f61c361bcff 9affffffff01 7bffffffffffffffff616263
    5b7fffffffffffffff616263
""".split()] + [b""]


def uri_from(source, target):
    """What comes of it. EDN leaves the width of the tag open, and then the other notation states none."""
    is_open = source in (Form.EDN, Form.EDN_PRETTY) and target in (Form.DIAG, Form.PRETTY)
    return URI[Form.EDN if is_open else target]


class Versions(unittest.TestCase):
    def test_the_module_states_that_of_the_library(self):
        self.assertEqual(cbor_diag.__version__, ".".join(map(str, cbor_diag.library_version())))


class Conversions(unittest.TestCase):
    def test_each_pair_of_forms(self):
        for source, given in URI.items():
            for target in URI:
                with self.subTest(source=source, target=target):
                    self.assertEqual(cbor_diag.convert(source, target, given), uri_from(source, target))

    def test_each_kind_of_data(self):
        for data in (b"\x01", bytearray(b"\x01"), memoryview(b"\x00\x01\x02")[1:2]):
            self.assertEqual(cbor_diag.convert(Form.BYTES, Form.DIAG, data), b"1\n")
        self.assertEqual(cbor_diag.convert(Form.DIAG, Form.BYTES, '"\u00fc"'), b"\x62\xc3\xbc")
        # each other byte, which is a copy; numbers of two bytes, in their bytes; memory of the system; none
        self.assertEqual(cbor_diag.bytes_to_diag(memoryview(b"\x82\xff\x01\xff\x02\xff")[::2]), "[1,2]")
        self.assertEqual(cbor_diag.bytes_to_diag(array.array("H", b"\x81\x01")), "[1]")
        with mmap.mmap(-1, 3) as mapped:
            mapped[:] = b"\x82\x01\x02"
            self.assertEqual(cbor_diag.bytes_to_diag(mapped), "[1,2]")
        for data in (bytearray(), memoryview(b""), memoryview(bytearray(b"\x01"))[1:]):
            with self.assertRaises(CborDiagError) as raised:
                cbor_diag.extent(data)
            self.assertIs(raised.exception.error, Error.CUT_SHORT)

    def test_what_has_no_bytes(self):
        for data in (1, 0, None, 1.0, [1], (1,), object()):
            with self.subTest(data=data):
                self.assertRaises(TypeError, cbor_diag.bytes_to_diag, data)
                self.assertRaises(TypeError, cbor_diag.extent, data)

    def test_a_str_is_no_bytes(self):
        calls = [cbor_diag.bytes_to_hex, cbor_diag.bytes_to_diag, cbor_diag.bytes_to_diag_pretty,
                 cbor_diag.bytes_to_edn, cbor_diag.bytes_to_edn_pretty, cbor_diag.bytes_to_json, cbor_diag.extent,
                 cbor_diag.Scanner().feed,
                 lambda data: cbor_diag.violation(data, Rules.CORE), lambda data: cbor_diag.reencode(data, Rules.CORE),
                 lambda data: cbor_diag.name_at(data, ""), lambda data: cbor_diag.part(data, ""),
                 lambda data: cbor_diag.parts(data, "*"), cbor_diag.value, cbor_diag.paths, cbor_diag.named,
                 cbor_diag.page, lambda data: cbor_diag.convert(Form.BYTES, Form.DIAG, data)]
        for call in calls:
            with self.subTest(call=call), self.assertRaisesRegex(TypeError, r"bytes\.fromhex"):
                call("82")

    def test_data_can_change_after_a_call(self):
        data = bytearray(b"\x01")
        self.assertEqual(cbor_diag.bytes_to_diag(data), "1")
        with self.assertRaises(CborDiagError):
            cbor_diag.bytes_to_diag(memoryview(data)[:0])
        data.extend(b"\x02")
        self.assertEqual(data, b"\x01\x02")

    def test_bytes_of_zero_are_kept(self):
        self.assertEqual(cbor_diag.diag_to_bytes("[0,0,h'0000']"), b"\x83\x00\x00\x42\x00\x00")
        self.assertEqual(cbor_diag.bytes_to_diag(b"\x83\x00\x00\x42\x00\x00"), "[0,0,h'0000']")

    def test_named_conversions(self):
        item = b"\x81\x01"
        dump = "81    # array(1)\n   01 #   unsigned(1)\n"
        self.assertEqual(cbor_diag.bytes_to_hex(item), dump)
        self.assertEqual(cbor_diag.bytes_to_diag(item), "[1]")
        self.assertEqual(cbor_diag.bytes_to_diag_pretty(item), "[1]")
        self.assertEqual(cbor_diag.hex_to_bytes(dump), item)
        self.assertEqual(cbor_diag.hex_to_diag(dump), "[1]")
        self.assertEqual(cbor_diag.hex_to_diag_pretty(dump), "[1]")
        self.assertEqual(cbor_diag.diag_to_bytes("[1]"), item)
        self.assertEqual(cbor_diag.diag_to_hex("[1]"), dump)

    def test_edn(self):
        for given, item, line in (
            ("1.5", b"\xf9\x3e\x00", "1.5"),
            ("1.5_2", b"\xfa\x3f\xc0\x00\x00", "1.5_2"),
            ('"\\n\\u00fc"', b"\x63\n\xc3\xbc", '"\\n\u00fc"'),
            ("[_0 1_1]", b"\x98\x01\x19\x00\x01", "[_0 1_1]"),
            ('{"a": [1, null]}', b"\xa1\x61a\x82\x01\xf6", '{"a": [1, null]}'),
            ("'\u00fc' // bytes", b"\x42\xc3\xbc", "h'c3bc'"),
        ):
            with self.subTest(given=given):
                self.assertEqual(cbor_diag.edn_to_bytes(given), item)
                self.assertEqual(cbor_diag.bytes_to_edn(item), line)
                self.assertEqual(cbor_diag.bytes_to_edn_pretty(item), line)
                self.assertEqual(cbor_diag.hex_to_edn(item.hex()), line)
                self.assertEqual(cbor_diag.hex_to_edn_pretty(item.hex()), line)
                self.assertEqual(cbor_diag.edn_to_hex(line), cbor_diag.bytes_to_hex(item))
        self.assertEqual(cbor_diag.bytes_to_edn(b"\xc1\x00"), "1(0)")
        self.assertEqual(cbor_diag.bytes_to_edn_pretty(b"\xc1\x00"), "1(0 /1970-01-01T00:00:00Z/)")

    def test_json(self):
        for given, line in (
            ("a201020303", '{"1": 2, "3": 3}'),
            ("1bffffffffffffffff", "18446744073709551615"),
            ("3bffffffffffffffff", "-18446744073709551616"),
            ("c249010000000000000000", "18446744073709551616"),
            ("83f97e00f97c00f9fc00", "[null, null, null]"),
            ("84f4f5f6f7", "[false, true, null, null]"),
            ("82f93e00fb4000000000000000", "[1.5, 2.0]"),
            ("8243010203d74101", '["AQID", "01"]'),
            ("a161618201a16162c11800", '{"a": [1, {"b": 0}]}'),
            ("7f61616163ff", '"ac"'),
            ("660a22c3bc5c1f", '"\\n\\"\u00fc\\\\\\u001f"'),
        ):
            with self.subTest(given=given):
                data = bytes.fromhex(given)
                self.assertEqual(cbor_diag.bytes_to_json(data), line)
                self.assertEqual(cbor_diag.bytes_to_json(bytearray(data)), line)
                self.assertEqual(cbor_diag.hex_to_json(given), line)
                self.assertEqual(cbor_diag.convert(Form.BYTES, Form.JSON, data), line.encode() + b"\n")

    def test_json_from_text(self):
        for source, target, given, output in (
            (Form.EDN, Form.JSON, "{1: 1(h'00ff'), -1: 1.5_3}", b'{"1": "AP8", "-1": 1.5}\n'),
            (Form.DIAG, Form.JSON, "{1: [_ 1, 2]}", b'{"1": [1, 2]}\n'),
            (Form.JSON, Form.BYTES, '{"a": [1.5, "\\u00fc"]}', b"\xa1\x61a\x82\xf9\x3e\x00\x62\xc3\xbc"),
        ):
            self.assertEqual(cbor_diag.convert(source, target, given), output)
        for given in ('{"a": [1.5, "\u00fc\\n", null, true, 1e300]}', "18446744073709551615"):
            for form in (Form.JSON, Form.JSON_STRICT):
                self.assertEqual(cbor_diag.convert(form, form, given), given.encode() + b"\n")

    def test_an_output_far_longer_than_its_input(self):
        # 120 arrays, one in the other: each but the innermost has a line of its own, 3 blanks deeper
        dump = cbor_diag.bytes_to_hex(b"\x81" * 119 + b"\x80").splitlines()
        self.assertEqual(len(dump), 120)
        self.assertEqual(dump[119][: 119 * 3 + 2], " " * 357 + "80")

    def test_a_megabyte_of_each_form(self):
        count = 500000
        forms = {
            Form.BYTES: b"\x9a" + count.to_bytes(4, "big") + b"\x01" * count,
            Form.HEX: b"9a %08x # array(%d)\n" % (count, count) + b"   01       #   unsigned(1)\n" * count,
            Form.DIAG: b"[" + b"1," * (count - 1) + b"1]\n",
            Form.PRETTY: b"[\n" + b"    1,\n" * count + b"]\n",
            Form.EDN: b"[" + b"1, " * (count - 1) + b"1]\n",
            Form.EDN_PRETTY: b"[\n" + b"    1,\n" * count + b"]\n",
        }
        for source, given in forms.items():
            for target, expected in forms.items():
                with self.subTest(source=source, target=target):
                    self.assertTrue(cbor_diag.convert(source, target, given) == expected)

    def test_threads(self):
        wrong = []

        def converting():
            for _ in range(2000):
                for source, given in URI.items():
                    for target in URI:
                        if cbor_diag.convert(source, target, given) != uri_from(source, target):
                            wrong.append((source, target))

        threads = [threading.Thread(target=converting) for _ in range(4)]
        for thread in threads:
            thread.start()
        for thread in threads:
            thread.join()
        self.assertEqual(wrong, [])


class Copies(unittest.TestCase):
    def test_no_thread_changes_data_during_a_call(self):
        # an array of 100,000 ones, which another thread makes twos and ones again
        head, ones, twos = b"\x9a\x00\x01\x86\xa0", b"\x01" * 100000, b"\x02" * 100000
        data = bytearray(head + ones)
        ended = threading.Event()

        def changing():
            while not ended.is_set():
                data[5:] = twos
                data[5:] = ones

        thread = threading.Thread(target=changing)
        thread.start()
        try:
            for given in (data, memoryview(data), memoryview(data).toreadonly()):
                for _ in range(20):
                    self.assertIn(cbor_diag.convert(Form.BYTES, Form.BYTES, given)[5:], (ones, twos))
        finally:
            ended.set()
            thread.join()

    def test_a_view_is_not_copied(self):
        # A sparse gigabyte: to copy it for each call would take minutes.
        with mmap.mmap(-1, 2**30) as mapped:
            mapped[0] = 0x01
            view = memoryview(mapped)
            for kind in (view, view.toreadonly()):
                for _ in range(2000):
                    self.assertEqual(cbor_diag.extent(kind), 1)
            kind.release()
            view.release()


class Extents(unittest.TestCase):
    def test_items(self):
        for data, length in ((b"\x01", 1), (b"\x01\x02", 1), (b"\x82\x01\x02\x03", 3), (b"\x9f\x01\xff\xff", 3)):
            with self.subTest(data=data):
                self.assertEqual(cbor_diag.extent(data), length)
                self.assertEqual(cbor_diag.extent(memoryview(data)), length)

    def test_errors(self):
        for data, error, end in (
            (b"", Error.CUT_SHORT, 0),
            (b"\x82\x01", Error.CUT_SHORT, 2),
            (b"\x82\x01\x1c\x00", Error.HEAD, 3),
            (b"\x81\x62\xff\x00\x00", Error.UTF8, 4),
            (b"\x81" * 200000, Error.TOO_DEEP, 129),
        ):
            with self.subTest(data=data[:20]):
                with self.assertRaises(CborDiagError) as raised:
                    cbor_diag.extent(data)
                self.assertIs(raised.exception.error, error)
                self.assertEqual(raised.exception.end, end)
                self.assertEqual(raised.exception.offset, end if error is Error.CUT_SHORT else end - 1)


def beginning(call, data):
    """What a call tells of how bytes begin: a length, or an error with its places; None if they are cut."""
    try:
        return call(data)
    except CborDiagError as failure:
        if failure.error is Error.CUT_SHORT:
            return None
        return failure.error, failure.end, failure.offset


class Scanners(unittest.TestCase):
    def assert_fed(self, pieces):
        """After each piece, the scanner tells what `extent` does of all bytes that were fed."""
        scanner, fed = cbor_diag.Scanner(), b""
        for piece in pieces:
            fed += piece
            self.assertEqual(beginning(scanner.feed, piece), beginning(cbor_diag.extent, fed), pieces)

    def test_each_cut(self):
        for data in IN_PIECES:
            for cut in range(len(data) + 1):
                self.assert_fed([data[:cut], data[cut:], b""])

    def test_byte_by_byte(self):
        for data in IN_PIECES:
            self.assert_fed([data[at : at + 1] for at in range(len(data))])

    def test_random_pieces(self):
        chance = random.Random(1)
        for data in IN_PIECES:
            for _ in range(20):
                cuts = sorted(chance.choices(range(len(data) + 1), k=4))
                self.assert_fed([data[i:j] for i, j in zip([0, *cuts], [*cuts, len(data)])])

    def test_each_kind_of_data(self):
        for piece in (b"\x02", bytearray(b"\x02"), memoryview(b"\x00\x02")[1:]):
            scanner = cbor_diag.Scanner()
            self.assertIsNone(scanner.feed(b"\x82\x01"))
            self.assertEqual(scanner.feed(piece), 3)
        self.assertRaises(TypeError, cbor_diag.Scanner().feed, 1)

    def test_a_deep_stream(self):
        scanner = cbor_diag.Scanner()
        self.assertIsNone(scanner.feed(b"\x81" * 100))
        with self.assertRaises(CborDiagError) as raised:
            scanner.feed(b"\x81" * 100000)
        self.assertIs(raised.exception.error, Error.TOO_DEEP)
        self.assertEqual(raised.exception.end, 129)


class Dripping(io.RawIOBase):
    """A raw stream that gives its bytes in reads of these sizes, and then all that is left."""

    def __init__(self, data, sizes=()):
        super().__init__()
        self.data, self.sizes = data, list(sizes)

    def readable(self):
        return True

    def readinto(self, buffer):
        size = min(self.sizes.pop(0) if self.sizes else len(self.data), len(self.data), len(buffer))
        buffer[:size], self.data = self.data[:size], self.data[size:]
        return size


class OnlyReadinto:
    """No more than `readinto`."""

    def __init__(self, stream):
        self.readinto = stream.readinto


class Items(unittest.TestCase):
    WHOLE = [data[: cbor_diag.extent(data)] for data in IN_PIECES if isinstance(beginning(cbor_diag.extent, data), int)]

    def assert_fails(self, found, error, offset, end):
        with self.assertRaises(CborDiagError) as raised:
            next(found)
        self.assertIs(raised.exception.error, error)
        self.assertEqual((raised.exception.offset, raised.exception.end), (offset, end))
        self.assertRaises(StopIteration, next, found)

    def test_reads_of_each_size(self):
        self.assertGreater(len(self.WHOLE), 15)
        log = b"".join(self.WHOLE)
        for size in range(1, len(log) + 1):
            self.assertEqual(list(cbor_diag.items(Dripping(log, [size] * len(log)))), self.WHOLE)

    def test_random_reads(self):
        chance = random.Random(2)
        for _ in range(100):
            given = chance.choices(self.WHOLE, k=50)
            stream = Dripping(b"".join(given), chance.choices(range(1, 40), k=500))
            self.assertEqual(list(cbor_diag.items(stream)), given)

    def test_each_kind_of_stream(self):
        log = b"".join(self.WHOLE)
        for stream in (io.BytesIO(log), Dripping(log), OnlyReadinto(Dripping(log, [3] * 30)),
                       io.BufferedReader(Dripping(log, [5] * 30))):
            self.assertEqual(list(cbor_diag.items(stream)), self.WHOLE)
        self.assertEqual(list(cbor_diag.items(io.BytesIO())), [])
        self.assertRaises(TypeError, next, cbor_diag.items(io.StringIO("01")))

    def test_items_come_as_soon_as_they_are_complete(self):
        left, right = socket.socketpair()
        with left, right, right.makefile("rb") as stream:
            found = cbor_diag.items(stream)
            for sent, expected in ((b"\x82\x01\x02\x83", b"\x82\x01\x02"), (b"\x01\x02\x03", b"\x83\x01\x02\x03")):
                left.sendall(sent)
                self.assertEqual(next(found), expected)
            left.sendall(b"\x01\x02\x81")
            self.assertEqual((next(found), next(found)), (b"\x01", b"\x02"))
            left.shutdown(socket.SHUT_WR)
            self.assert_fails(found, Error.CUT_SHORT, 10, 10)

    def test_a_pipe_without_buffer(self):
        reading, writing = os.pipe()
        with open(reading, "rb", buffering=0) as stream, open(writing, "wb", buffering=0) as sink:
            found = cbor_diag.items(stream)
            sink.write(b"\x61a\x62b")
            self.assertEqual(next(found), b"\x61a")
            sink.write(b"c")
            self.assertEqual(next(found), b"\x62bc")
            os.set_blocking(reading, False)
            self.assertRaises(BlockingIOError, next, found)

    def test_faults(self):
        for size in range(1, 8):
            for log, error, offset, end in (
                (b"\x01\x82\x01", Error.CUT_SHORT, 3, 3),
                (b"\x01\x82\x01\x1c\x00", Error.HEAD, 3, 4),
                (b"\x01\x81\x62\xff\x00\x00", Error.UTF8, 4, 5),
                (b"\x01" + b"\x81" * 200, Error.TOO_DEEP, 129, 130),
            ):
                found = cbor_diag.items(Dripping(log, [size] * len(log)))
                self.assertEqual(next(found), b"\x01")
                self.assert_fails(found, error, offset, end)

    def test_faults_have_paths(self):
        for size in range(1, 8):
            for log, path in ((b"\x01\x82\x01", "1"), (b"\x01\xa1\x61k\x82\x01\x1c\x00", "k/1")):
                found = cbor_diag.items(Dripping(log, [size] * len(log)))
                next(found)
                with self.assertRaises(CborDiagError) as raised:
                    next(found)
                self.assertEqual(raised.exception.path, path)
                item = log[1:7]
                with self.assertRaises(CborDiagError) as alone:
                    cbor_diag.bytes_to_diag(item)
                self.assertEqual(str(raised.exception), str(alone.exception))

    def test_no_byte_is_looked_at_twice(self):
        # A text of 16 MB in reads of 64 bytes: to look at it again after each read would take minutes.
        count = 2**24
        text = b"\x7a" + count.to_bytes(4, "big") + b"a" * count
        self.assertEqual([len(item) for item in cbor_diag.items(Dripping64(text))], [len(text)])


class Dripping64:
    """Gives its bytes in reads of 64, without a copy of the rest."""

    def __init__(self, data):
        self.data, self.at = data, 0

    def read(self, _):
        self.at += 64
        return self.data[self.at - 64 : self.at]


# rules, bytes, and the first violation: its kind, its place, the place of the other key
VIOLATIONS = (
    (Rules.RFC8949, "", None),
    (Rules.RFC8949, "1801bfff", None),
    (Rules.RFC8949, "a201800180", None),
    (Rules.CORE, "a20a01186402", None),
    (Rules.DCBOR, "f93e00f6", None),
    (Rules.RFC8949, "018201", Violation(ViolationKind.NO_ITEM, 3, error=Error.CUT_SHORT)),
    (Rules.CORE, "82011c", Violation(ViolationKind.NO_ITEM, 2, error=Error.HEAD)),
    (Rules.VALID, "8161ff", Violation(ViolationKind.NO_ITEM, 1, error=Error.UTF8)),
    (Rules.RFC8949, "81f818", Violation(ViolationKind.LONG_SIMPLE, 1)),
    (Rules.PREFERRED, "011817", Violation(ViolationKind.LONG_HEAD, 1)),
    (Rules.DCBOR, "0163e284ab", Violation(ViolationKind.NOT_NFC, 1)),
    (Rules.CORE, "fa3fc00000", Violation(ViolationKind.LONG_FLOAT, 0)),
    (Rules.DCBOR, "81f94000", Violation(ViolationKind.INTEGER_FLOAT, 1)),
    (Rules.DCBOR, "f97e01", Violation(ViolationKind.OTHER_NAN, 0)),
    (Rules.DCBOR, "f4f7", Violation(ViolationKind.OTHER_SIMPLE, 1)),
    (Rules.LENGTH_FIRST, "019fff", Violation(ViolationKind.INDEFINITE, 1)),
    (Rules.CTAP2, "81c100", Violation(ViolationKind.TAG, 1)),
    (Rules.PREFERRED, "00c249000100000000000000", Violation(ViolationKind.LEADING_ZERO, 1)),
    (Rules.PREFERRED, "c34101", Violation(ViolationKind.SMALL_BIG_NUMBER, 0)),
    (Rules.CTAP2, "8181818180", Violation(ViolationKind.TOO_DEEP, 4)),
    (Rules.CORE, "a21864010a02", Violation(ViolationKind.KEY_ORDER, 4, 1)),
    (Rules.LENGTH_FIRST, "a21864012002", Violation(ViolationKind.KEY_ORDER, 4, 1)),
    (Rules.CORE, "a201800180", Violation(ViolationKind.KEY_TWICE, 3, 1)),
    (Rules.VALID, "a3018000800180", Violation(ViolationKind.KEY_TWICE, 5, 1)),
    (Rules.VALID, "a20126180127", Violation(ViolationKind.KEY_TWICE, 3, 1)),
    (Rules.VALID, "a2f93c0000fb3ff000000000000000", Violation(ViolationKind.KEY_TWICE, 5, 1)),
    (Rules.VALID, "a20100f93c0000", None),
)


class Violations(unittest.TestCase):
    def test_each_kind(self):
        for rules, given, found in VIOLATIONS:
            with self.subTest(rules=rules, given=given):
                self.assertEqual(cbor_diag.violation(bytes.fromhex(given), rules), found)
                self.assertEqual(cbor_diag.violation(bytearray.fromhex(given), int(rules)), found)
        self.assertEqual({found.kind for _, _, found in VIOLATIONS if found}, set(ViolationKind))

    def test_no_rules(self):
        for rules in (7, -1, 2**32 + 3):
            with self.subTest(rules=rules):
                with self.assertRaises(CborDiagError) as raised:
                    cbor_diag.violation(b"\x01", rules)
                self.assertIs(raised.exception.error, Error.NO_RULES)
        self.assertRaises(TypeError, cbor_diag.violation, b"\x01", "core")
        self.assertRaises(TypeError, cbor_diag.violation, 1, Rules.CORE)

    def test_texts(self):
        for violation, text in (
            (Violation(ViolationKind.KEY_TWICE, 3, 1), "a key that stands twice at byte 3, first at byte 1"),
            (Violation(ViolationKind.KEY_ORDER, 3, 1), "a key that is out of order at byte 3, after the key at byte 1"),
            (Violation(ViolationKind.NO_ITEM, 3, error=Error.CUT_SHORT), "the item is cut short at byte 3"),
        ):
            self.assertEqual(str(violation), text)
        self.assertEqual(len({str(Violation(kind, 0)) for kind in ViolationKind}), len(ViolationKind))

    def test_words_have_numbers(self):
        long_key = "78 29" + 41 * " 61" + " 00"
        for rules, given, text in (
            (Rules.CORE, "82011802", "a head that is not the shortest: 2_0 at byte 2"),
            (Rules.CORE, "fa3fc00000", "a float that is not the shortest: 1.5_2 at byte 0"),
            (Rules.CORE, "a2028001 80", "a key that is out of order: 1 at byte 3, after 2 at byte 1"),
            (Rules.CORE, "a20180 1801 80", "a head that is not the shortest: 1_0 at byte 3"),
            (Rules.VALID, "a201800180", "a key that stands twice: 1 at byte 3, first at byte 1"),
            (Rules.VALID, "a2" + 2 * long_key, "a key that stands twice at byte 45, first at byte 1"),
            (Rules.CTAP2, "81c100", "a tag: 1(0) at byte 1"),
            (Rules.RFC8949, "81f818", "a simple value below 32 in two bytes: simple(24) at byte 1"),
            (Rules.CORE, "018201", "the item is cut short at byte 3"),
        ):
            for data in (bytes.fromhex(given), bytearray.fromhex(given)):
                with self.subTest(rules=rules, data=data):
                    found = cbor_diag.violation(data, rules)
                    self.assertEqual(str(found), text)
                    self.assertEqual(str(pickle.loads(pickle.dumps(found))), text)


# rules, bytes, and the bytes that they are encoded to, or the error
REENCODED = (
    (Rules.CORE, "", ""),
    (Rules.CORE, "bf180280019fffff", "a201800280"),
    (Rules.CORE, "a22001186402", "a21864022001"),
    (Rules.LENGTH_FIRST, "a21864022001", "a22001186402"),
    (Rules.PREFERRED, "1801fa3fc00000", "01f93e00"),
    (Rules.CORE, "7f61616162ff", "626162"),
    (Rules.CORE, "c24105", "05"),
    (Rules.DCBOR, "f94000f98000fa7fc00001", "0200f97e00"),
    (Rules.CORE, "9f" + "01" * 30 + "ff", "981e" + "01" * 30),
    (Rules.CORE, "8201", Error.NOT_ENCODABLE),
    (Rules.CTAP2, "1801c100", Error.NOT_ENCODABLE),
    (Rules.CORE, "a20180180180", Error.NOT_ENCODABLE),
    (Rules.VALID, "a201800180", Error.NOT_ENCODABLE),
    (Rules.PREFERRED, "a20126180127", Error.NOT_ENCODABLE),
    (7, "00", Error.NO_RULES),
    (2**32, "00", Error.NO_RULES),
)


# rules, bytes, why they have no encoding (None where that is in what they would be encoded to), and the last words
NOT_ENCODABLE = (
    (Rules.CORE, "a20180180180", Violation(ViolationKind.KEY_TWICE, 3, 1),
     "a key that stands twice: 1_0 at byte 3, first at byte 1"),
    (Rules.CORE, "81a3018002801b000000000000000180", Violation(ViolationKind.KEY_TWICE, 6, 2),
     "a key that stands twice: 1_3 at byte 6, first at byte 2"),
    (Rules.VALID, "a201800180", Violation(ViolationKind.KEY_TWICE, 3, 1),
     "a key that stands twice: 1 at byte 3, first at byte 1"),
    (Rules.PREFERRED, "a20126180127", Violation(ViolationKind.KEY_TWICE, 3, 1),
     "a key that stands twice: 1_0 at byte 3, first at byte 1"),
    (Rules.CTAP2, "a2f93c0000fb3ff000000000000000", Violation(ViolationKind.KEY_TWICE, 5, 1),
     "a key that stands twice: 1.0_3 at byte 5, first at byte 1"),
    (Rules.CTAP2, "1801c100", Violation(ViolationKind.TAG, 2), "a tag: 1(0) at byte 2"),
    (Rules.CORE, "018201", Violation(ViolationKind.NO_ITEM, 3, error=Error.CUT_SHORT), "the item is cut short at byte 3"),
    (Rules.DCBOR, "7f616562cc81ff", None, "a text that is not in NFC"),
)


class Reencoding(unittest.TestCase):
    def test_why_not(self):
        for rules, given, found, words in NOT_ENCODABLE:
            for data in (bytes.fromhex(given), bytearray.fromhex(given)):
                with self.subTest(rules=rules, data=data):
                    with self.assertRaises(CborDiagError) as raised:
                        cbor_diag.reencode(data, rules)
                    for failure in (raised.exception, pickle.loads(pickle.dumps(raised.exception))):
                        self.assertIs(failure.error, Error.NOT_ENCODABLE)
                        self.assertEqual(failure.violation, found)
                        self.assertEqual(failure.offset, found.place if found else None)
                        self.assertEqual(str(failure), f"no encoding of the items keeps the rules: {words}")

    def test_each_row(self):
        for rules, given, wanted in REENCODED:
            for data in (bytes.fromhex(given), bytearray.fromhex(given)):
                with self.subTest(rules=rules, data=data):
                    if isinstance(wanted, Error):
                        with self.assertRaises(CborDiagError) as raised:
                            cbor_diag.reencode(data, rules)
                        self.assertIs(raised.exception.error, wanted)
                    else:
                        self.assertEqual(cbor_diag.reencode(data, rules).hex(), wanted)

    def test_no_data(self):
        self.assertRaises(TypeError, cbor_diag.reencode, 1, Rules.CORE)
        self.assertRaises(TypeError, cbor_diag.reencode, b"\x01", "core")

    def test_longer_than_its_input(self):
        given = b"\x9f" + b"\x01" * 300 + b"\xff"
        self.assertEqual(cbor_diag.reencode(given, Rules.CORE), b"\x99\x01\x2c" + b"\x01" * 300)


class Names(unittest.TestCase):
    """Names of parts, from RFC 9052, table 3 and section 4.2, and RFC 9053, table 18."""

    SIGN1 = bytes.fromhex("d28443a10126a04040")
    KEY = bytes.fromhex("a20104204100")

    def test_names(self):
        for path, name in [("", "COSE_Sign1"), ("0", "protected"), ("0/@/1", "alg"), ("3", "signature"), ("*", None)]:
            self.assertEqual(cbor_diag.name_at(self.SIGN1, path), name)
            self.assertEqual(cbor_diag.name_at(bytearray(self.SIGN1), path), name)
        for path, name in [("", "COSE_Key"), ("1", "kty"), ("-1", "k")]:
            self.assertEqual(cbor_diag.name_at(self.KEY, path, "COSE_Key"), name)
            self.assertIsNone(cbor_diag.name_at(self.KEY, path))

    def test_errors(self):
        for data, path, kind, error in [
            (self.SIGN1, "4", None, Error.NO_PART), (self.SIGN1, "0/1", None, Error.NO_PART),
            (self.SIGN1, "0", "COSE_Kex", Error.NO_TYPE), (b"\x01\x02", "", None, Error.REMAINING),
        ]:
            with self.assertRaises(cbor_diag.CborDiagError) as raised:
                cbor_diag.name_at(data, path, kind)
            self.assertIs(raised.exception.error, error)
            self.assertEqual(str(raised.exception), TEXTS[error])

    def test_what_is_no_item(self):
        for data in (self.SIGN1[:-1], b"", b"\xa1\x61k\x82\x01\x1f", b"\x01\x02"):
            for call in (lambda data: cbor_diag.name_at(data, "0"), cbor_diag.bytes_to_diag):
                with self.assertRaises(cbor_diag.CborDiagError) as raised:
                    call(data)
                told = raised.exception
                if call is cbor_diag.bytes_to_diag:
                    self.assertEqual((told.error, told.offset, told.path, str(told)), named)
                named = told.error, told.offset, told.path, str(told)


class Parts(unittest.TestCase):
    ITEM = cbor_diag.edn_to_bytes("""{"k": [1, {2: "hi"}], -1: 1(3), "e": [], "b": 24(<<[5]>>), "a b": 1.5}""")

    def each(self, data):
        """The data in each of the kinds that are read in another way."""
        return data, bytearray(data), memoryview(data), memoryview(bytes(2) + data)[2:], array.array("B", data)

    def test_part(self):
        for path, edn in [("k", '[1, {2: "hi"}]'), ("k/1/2", '"hi"'), ("-1", "1(3)"), ("b", "24(<<[5]>>)"),
                          ("b/0", "5"), ("k/*/2", '"hi"'), ('"a b"', "1.5"), ("", cbor_diag.bytes_to_edn(self.ITEM))]:
            for data in self.each(self.ITEM):
                self.assertEqual(cbor_diag.part(data, path), cbor_diag.edn_to_bytes(edn))

    def test_parts(self):
        for path, found in [("k/*", ["1", '{2: "hi"}']), ("e/*", []), ("x", []), ("*/0", ["1", "5"]),
                            ("k", ['[1, {2: "hi"}]'])]:
            for data in self.each(self.ITEM):
                self.assertEqual([cbor_diag.bytes_to_edn(one) for one in cbor_diag.parts(data, path)], found)
        many = cbor_diag.edn_to_bytes("[" + "1," * 1000 + "2]")
        self.assertEqual(cbor_diag.parts(many, "*"), [b"\x01"] * 1000 + [b"\x02"])

    def test_values(self):
        for edn, found in [("0", 0), ("-1", -1), ("18446744073709551615", 2**64 - 1),
                           ("-18446744073709551616", -(2**64)),
                           ("18446744073709551616", 2**64), ("-18446744073709551617", -(2**64) - 1), ("1.5", 1.5),
                           ("1e300", 1e300), ("-0.0", 0.0), ('"\u00fc\\n"', "\u00fc\n"), ("h'00ff'", b"\x00\xff"),
                           ('(_ "a", "bc")', "abc"), ("(_ h'01', h'02')", b"\x01\x02"), ("''_", b""), ("true", True),
                           ("false", False), ("null", None), ("undefined", None), ("simple(99)", b"\xf8\x63"),
                           ("[1]", b"\x81\x01"), ("{}", b"\xa0"), ("1(1.5)", 1.5), ("32(\"x\")", "x"),
                           ("99(2(h'0100'))", 256), ("2((_ h'01', h'00'))", 256)]:
            for data in self.each(cbor_diag.edn_to_bytes("[" + edn + "]")):
                came = cbor_diag.value(data, "0")
                self.assertEqual((type(came), came), (type(found), found), edn)
        self.assertTrue(cbor_diag.value(bytes.fromhex("f97e00")) != cbor_diag.value(bytes.fromhex("f97e00")))
        self.assertEqual(cbor_diag.value(b"\x01"), 1)

    def test_paths(self):
        wanted = [("k/0", "1"), ("k/1/2", '"hi"'), ("-1", "1(3)"), ("e", "[]"), ("b/@/0", "5"), ('"a b"', "1.5")]
        for data in self.each(self.ITEM):
            self.assertEqual(cbor_diag.paths(data), wanted)
        for path, edn in wanted:
            self.assertEqual(cbor_diag.bytes_to_edn(cbor_diag.part(self.ITEM, path)), edn)
        odd = cbor_diag.edn_to_bytes("""{"a  b": {"": 1, "\\"  ": "  "}}""")
        self.assertEqual([edn for _, edn in cbor_diag.paths(odd)], ["1", '"  "'])
        for path, edn in cbor_diag.paths(odd):
            self.assertEqual(cbor_diag.bytes_to_edn(cbor_diag.part(odd, path)), edn)
        self.assertEqual(cbor_diag.paths(b"\x01"), [("/", "1")])

    def test_named(self):
        self.assertEqual(cbor_diag.named(b"\xa1\x01\x04", "COSE_Key"), "/COSE_Key/ {/kty/ 1: 4 /Symmetric/}")
        self.assertEqual(cbor_diag.named(bytearray(b"\xa1\x01\x04")), "{1: 4}")
        with self.assertRaises(CborDiagError) as raised:
            cbor_diag.named(b"\xa0", "what")
        self.assertIs(raised.exception.error, Error.NO_TYPE)

    # By the definitions of the lines, for the item 1.
    LINE = ('<span class="l"><a class="o" id="x0" href="#x0">0000</a><span class="h"><b class="n">01</b></span>'
            '<span class="t"><span class="n" data-s="0" data-e="1">1</span></span>\n</span>')

    def test_page(self):
        thing, names = b"\xd9\x03\xe8\xa1\x01\x02", '[Thing]\ntag = 1000\nmap = { 1 = "one" }\n'
        self.assertEqual(cbor_diag.page(b"\x01"), self.LINE)
        self.assertEqual(cbor_diag.page(b""), "")
        for form, one in ((Form.BYTES, b"\x01"), (Form.HEX, "01"), (Form.EDN, "1"), (Form.HTML, "1 # one")):
            self.assertEqual(cbor_diag.convert(form, Form.HTML, one).decode(), self.LINE)
        for data in self.each(thing):
            lines = cbor_diag.page(data, names=names)
            self.assertTrue("/Thing/" in lines and "/one/" in lines, lines)
            self.assertFalse("/Thing/" in cbor_diag.page(data))
            self.assertFalse("/Thing/" in cbor_diag.page(data, names=names, notes=False))
        self.assertIn("/kty/", cbor_diag.page(b"\xa1\x01\x04", "COSE_Key"))
        self.assertIn("h'820102'", cbor_diag.page(b"\x43\x82\x01\x02"))
        self.assertIn("&lt;&lt;", cbor_diag.page(b"\x43\x82\x01\x02", embedded=True))
        self.assertIn("&lt;&amp;&gt;", cbor_diag.page(b"\x63<&>"))
        self.assertIn("truncated: ", cbor_diag.page(b"\x01\x82\x01"))
        self.assertIn("malformed: ", cbor_diag.page(b"\x82\x01\x1f"))
        long = b"\x99\x03\xe8" + b"\x01" * 1000
        self.assertEqual(cbor_diag.page(long).count('class="l"'), 1 + 1000 + 1)

    def test_page_errors(self):
        for error, arguments in ((Error.NO_TYPE, {"type": "what"}), (Error.WRONG_NAMES, {"names": "no TOML"}),
                                 (Error.WRONG_NAMES, {"names": "\ud800"})):
            with self.assertRaises(CborDiagError) as raised:
                cbor_diag.page(b"\xa0", **arguments)
            self.assertIs(raised.exception.error, error)
            self.assertEqual(str(raised.exception), TEXTS[error])

    def test_names_fault(self):
        self.assertIsNone(cbor_diag.names_fault(""))
        self.assertIsNone(cbor_diag.names_fault("[Thing]\ntag = 1000\n"))
        self.assertEqual(cbor_diag.names_fault("[Thing]\ntag = -1"), "line 2: a tag is an integer from 0 on")
        self.assertEqual(cbor_diag.names_fault("\ud800"), "not UTF-8")
        self.assertRegex(cbor_diag.names_fault("no TOML"), "^line 1: ")

    def test_recognized(self):
        for given, form, found in [
            ("0x82 01 02", "HEX", "820102"), ("[1, 2] 3", "EDN", "82010203"), ("ggEC", "BASE64", "820102"),
            (b"\x82\x01\x02\xf5", "BYTES", "820102f5"), (bytearray(b"1.5"), "EDN", "f93e00"), ("", "HEX", ""),
            ("[" + "1.5, " * 100 + "]", "EDN", "9864" + "f93e00" * 100),
        ]:
            self.assertEqual(cbor_diag.recognize(given), (cbor_diag.Input[form], bytes.fromhex(found)))
        for given in ("what is it?", b"\xff\xff", b"\x82\x01"):
            with self.assertRaises(CborDiagError) as raised:
                cbor_diag.recognize(given)
            self.assertIs(raised.exception.error, Error.NOT_RECOGNIZED)
            self.assertEqual(str(raised.exception), TEXTS[Error.NOT_RECOGNIZED])

    def test_errors(self):
        for call in (cbor_diag.part, cbor_diag.value):
            with self.assertRaises(CborDiagError) as raised:
                call(self.ITEM, "x")
            self.assertIs(raised.exception.error, Error.NO_PART)
            self.assertEqual(str(raised.exception), TEXTS[Error.NO_PART])
        for data in (self.ITEM[:-1], b"", b"\xa1\x61k\x82\x01\x1f", b"\x01\x02"):
            calls = (cbor_diag.bytes_to_diag, lambda data: cbor_diag.part(data, "0"),
                     lambda data: cbor_diag.parts(data, "*"), cbor_diag.value, cbor_diag.paths, cbor_diag.named)
            told = []
            for call in calls:
                with self.assertRaises(CborDiagError) as raised:
                    call(data)
                came = raised.exception
                told.append((came.error, came.offset, came.path, str(came)))
            self.assertEqual(set(told), {told[0]})
        with self.assertRaises(CborDiagError) as raised:
            cbor_diag.part(self.ITEM, "\ud800")
        self.assertIs(raised.exception.error, Error.UTF8)


class Errors(unittest.TestCase):
    def test_each_error(self):
        for source, given, error in REFUSED:
            for target in Form:
                with self.subTest(source=source, target=target, given=given[:20]):
                    with self.assertRaises(CborDiagError) as raised:
                        cbor_diag.convert(source, target, given)
                    self.assertIs(raised.exception.error, error)
                    self.assertIsNone(raised.exception.end)

    def test_places(self):
        for source, given, error, offset in (
            (Form.BYTES, b"", Error.CUT_SHORT, 0),
            (Form.BYTES, b"\x82\x01", Error.CUT_SHORT, 2),
            (Form.BYTES, bytearray(b"\x82\x01\x1c\x00"), Error.HEAD, 2),
            (Form.BYTES, b"\x81\x62\xff\x00\x00", Error.UTF8, 3),
            (Form.BYTES, b"\x81\x02\x03\x04", Error.REMAINING, 2),
            (Form.HEX, "82 01 # two", Error.CUT_SHORT, 11),
            (Form.HEX, "82 01 # one\n 1c # 28", Error.HEAD, 13),
            (Form.HEX, "82 01 # \u00e9\n 1c # 28", Error.HEAD, 11),  # characters
            (Form.HEX, "82 01 # \u00e9\n 1c # 28".encode(), Error.HEAD, 12),  # bytes
            (Form.HEX, "82 01 0#\n2 03 04", Error.REMAINING, 11),
            (Form.HEX, "82 0g", Error.BAD_HEX, 4),
            (Form.HEX, "82 01 0 # half", Error.ODD_HEX, 6),
            (Form.HEX, b"82 # \xff", Error.UTF8, 5),
            (Form.HEX, "82 # \u00e9\ud800", Error.UTF8, 6),
            (Form.PRETTY, b'["\xc3\xbc", \xff]', Error.UTF8, 7),
            (Form.DIAG, "[1, 2.5]", Error.NOTATION, 5),
            (Form.DIAG, "[1, 2", Error.NOTATION, 5),
            (Form.DIAG, '["\u00e9", 2.5]', Error.NOTATION, 7),  # characters
            (Form.EDN, '{"a" 1}', Error.NOTATION, 5),
            (Form.EDN, '{"\u00e9" 1}', Error.NOTATION, 5),  # characters
            (Form.EDN, '{"\u00e9" 1}'.encode(), Error.NOTATION, 6),  # bytes
        ):
            for target in Form:
                with self.subTest(source=source, target=target, given=given):
                    with self.assertRaises(CborDiagError) as raised:
                        cbor_diag.convert(source, target, given)
                    self.assertIs(raised.exception.error, error)
                    self.assertEqual(raised.exception.offset, offset)

    def test_edn(self):
        for given, offset, text in (
            ('{"a" 1}', 5, "a colon has to follow the key"),
            ("[1, 2", 5, "a comma or ] has to follow the member"),
            ("[_1]", 3, "a blank has to follow: [_1 ] is an empty array, and [_ 1] one of indefinite length"),
        ):
            with self.subTest(given=given):
                with self.assertRaises(CborDiagError) as raised:
                    cbor_diag.edn_to_bytes(given)
                self.assertIs(raised.exception.error, Error.NOTATION)
                self.assertEqual(raised.exception.offset, offset)
                self.assertEqual(str(raised.exception), text)
                self.assertEqual(str(pickle.loads(pickle.dumps(raised.exception))), text)

    def test_paths(self):
        for source, given, path, text in (
            (Form.BYTES, b"", "/", "truncated: no item is at byte 0"),
            (Form.BYTES, b"\x82\x01", "1", "truncated: the array at byte 0 has 2 items, 1 is there"),
            (Form.BYTES, bytearray(b"\xa1\x61k\x82\x01\x1f\x00"), "k/1",
             "1f: this major type has no indefinite length, at k/1, in the array of 2 at byte 3, of which 1 is there"),
            (Form.BYTES, b"\xa1\x62\xc3\xbc\x62\xff\x00", "\u00fc",
             "a text is not UTF-8, at \u00fc, in the map of 1 at byte 0, of which a key is there"),
            (Form.BYTES, b"\x81\x02\x03\x04", None, "bytes remain after the item"),
            (Form.HEX, "82 # \u00e9\n 1c", "0",
             "1c: lengths 28 to 30 are reserved, at 0, in the array of 2 at byte 0, of which none is there"),
            (Form.HEX, "82 0g", None, "not a hex digit"),
            (Form.DIAG, "[1, 2.5]", None, "not diagnostic notation"),
            (Form.EDN, '{"a" 1}', None, "a colon has to follow the key"),
            (Form.BYTES, b"\x81" * 127 + b"\x1f", "/".join("0" * 127), None),  # longer than the first room
        ):
            for target in Form:
                with self.subTest(source=source, target=target, given=given):
                    with self.assertRaises(CborDiagError) as raised:
                        cbor_diag.convert(source, target, given)
                    for failure in (raised.exception, pickle.loads(pickle.dumps(raised.exception))):
                        self.assertEqual(failure.path, path)
                        if text is not None:
                            self.assertEqual(str(failure), text)

    def test_keys_that_become_the_same(self):
        for source, given, keys in (
            (Form.BYTES, b"\xa2\x01\x00\x61\x31\x00", (1, 3)),
            (Form.BYTES, bytearray(b"\x82\x00\xa3\x02\x00\x01\x00\x18\x01\x00"), (5, 7)),
            (Form.BYTES, b"\xa1\x61a\xa2\x61b\x00\x7f\x61b\xff\x00", (4, 7)),
            (Form.HEX, "a2 01 00 # one\n 61 31 00", (1, 3)),
            (Form.DIAG, "[0,{1:0,\"1\":0}]", (3, 5)),
            (Form.EDN, '{1: 0, "\\u0031": 0}', (1, 3)),
        ):
            with self.subTest(source=source, given=given):
                with self.assertRaises(CborDiagError) as raised:
                    cbor_diag.convert(source, Form.JSON, given)
                for failure in (raised.exception, pickle.loads(pickle.dumps(raised.exception))):
                    self.assertIs(failure.error, Error.SAME_KEYS)
                    self.assertEqual(failure.keys, keys)
                    self.assertEqual(failure.offset, keys[1] if source is Form.BYTES else None)
                    self.assertEqual((failure.loss, failure.path), (None, None))
                    text = f"{TEXTS[Error.SAME_KEYS]}: those at bytes {keys[0]} and {keys[1]}"
                    self.assertEqual(str(failure), text)
        with self.assertRaises(CborDiagError) as raised:
            cbor_diag.bytes_to_json(b"\xa2\x61a\x00\x61a\x00", strict=True)
        self.assertEqual(raised.exception.keys, (1, 4))

    def test_what_json_does_not_keep(self):
        for given, loss, words in (
            ("c100", Loss(LossKind.TAG, 0), "a tag at byte 0"),
            ("82f97e00c100", Loss(LossKind.NOT_FINITE, 1), "NaN or an infinity at byte 1"),
            ("82f6f7", Loss(LossKind.SIMPLE, 2), "a simple value at byte 2"),
            ("a1616182014100", Loss(LossKind.BYTES, 5), "a byte string at byte 5"),
            ("a26161000100", Loss(LossKind.KEY, 4), "a key that is no text at byte 4"),
        ):
            with self.subTest(given=given):
                for failing in (
                    lambda: cbor_diag.bytes_to_json(bytes.fromhex(given), strict=True),
                    lambda: cbor_diag.hex_to_json(given, strict=True),
                ):
                    with self.assertRaises(CborDiagError) as raised:
                        failing()
                    failure = pickle.loads(pickle.dumps(raised.exception))
                    self.assertIs(failure.error, Error.NOT_KEPT)
                    self.assertEqual(failure.loss, loss)
                    self.assertIsNone(failure.keys)
                    self.assertEqual(str(failure), f"{TEXTS[Error.NOT_KEPT]}: {words}")
                cbor_diag.bytes_to_json(bytes.fromhex(given))

    def test_no_path(self):
        for failing in (lambda: cbor_diag.extent(b"\x82\x1f"), lambda: cbor_diag.Scanner().feed(b"\x82\x1f")):
            with self.assertRaises(CborDiagError) as raised:
                failing()
            self.assertIsNone(raised.exception.path)

    def test_no_form(self):
        for number in (9, 2**32 - 1, 2**32, 2**32 + 2, 2**64, -1, -(2**32)):
            for source, target in ((number, 0), (0, number)):
                with self.subTest(source=source, target=target):
                    with self.assertRaises(CborDiagError) as raised:
                        cbor_diag.convert(source, target, b"\x01")
                    self.assertIs(raised.exception.error, Error.NO_FORM)
        for form in ("hex", 1.0, None):
            self.assertRaises(TypeError, cbor_diag.convert, form, Form.HEX, b"\x01")

    def test_texts(self):
        self.assertEqual(set(TEXTS), set(Error))
        for error, text in TEXTS.items():
            self.assertEqual(str(CborDiagError(error)), text)

    def test_an_error_can_be_pickled(self):
        error = pickle.loads(pickle.dumps(CborDiagError(Error.HEAD, 3, 2)))
        self.assertIs(error.error, Error.HEAD)
        self.assertEqual((error.end, error.offset), (3, 2))
        self.assertEqual(str(error), TEXTS[Error.HEAD])


class Library(unittest.TestCase):
    def test_version(self):
        version = pathlib.Path(__file__).parents[2].joinpath("VERSION").read_text(encoding="utf-8")
        self.assertEqual(cbor_diag.library_version(), tuple(map(int, version.split("."))))

    def test_a_library_that_is_missing(self):
        given = {**os.environ, "CBOR_DIAG_LIBRARY": "/nowhere/libcbor_diag.so"}
        run = subprocess.run([sys.executable, "-c", "import cbor_diag"], cwd=os.path.dirname(os.path.abspath(__file__)),
                             env=given, stderr=subprocess.PIPE, text=True, check=False)
        self.assertEqual(run.returncode, 1)
        self.assertRegex(run.stderr, r"\nImportError: cannot load the library .*/nowhere/libcbor_diag.so.*"
                                     r"CBOR_DIAG_LIBRARY")


class Schemas(unittest.TestCase):
    CDDL = 'record = {\n  at: time,\n  event: "open" / "close",\n}\nname = tstr .regexp "[a-z]+"\n'
    FITS = b"\xa2\x62at\xc1\x00\x65event\x64open"
    MISFIT = b"\xa2\x62at\xc1\x00\x65event\x66opened"

    def test_misfits(self):
        schema = cbor_diag.Schema(self.CDDL)
        self.assertIsNone(schema.check(self.FITS))
        self.assertIsNone(schema.check(b""))
        self.assertIsNone(schema.check(self.FITS * 100))
        message = 'expected "open" / "close" for event (line 3), found "opened"; at event'
        for kind in (bytes, bytearray, memoryview):
            found = schema.check(kind(self.FITS + self.MISFIT))
            self.assertEqual(found, (29, "event", '"open" / "close"', '"opened"', "event", 3, 17, message))
            self.assertEqual(str(found), "byte 29: " + message)
        found = schema.check(b"\x01")
        self.assertEqual((found.place, found.path, found.expected, found.found, found.rule, found.line),
                         (0, "", "a map", "1", "record", 1))

    def test_rules(self):
        schema = cbor_diag.Schema(self.CDDL, "name")
        self.assertIsNone(schema.check(b"\x62hi"))
        self.assertEqual(schema.check(b"\x62Hi").found, '"Hi"')
        self.assertIsNone(pickle.loads(pickle.dumps(schema)).check(b"\x62hi"))
        self.assertEqual(schema.check(cbor_diag.edn_to_bytes('"\u00fc"')).found, '"\u00fc"')

    def test_errors_of_cddl(self):
        for arguments, text, line, column in [
            (("a = {\n  b: uit\n}",), "2:6: no rule uit is there; uint is one", 2, 6),
            (("a = uint", "b"), "no rule b is there", None, None),
            (("",), "no rule is there", None, None),
            (("a = \ud800",), "not UTF-8", None, None),
        ]:
            with self.assertRaises(CborDiagError) as raised:
                cbor_diag.Schema(*arguments)
            for came in (raised.exception, pickle.loads(pickle.dumps(raised.exception))):
                self.assertIs(came.error, Error.WRONG_CDDL)
                self.assertEqual((str(came), came.line, came.column), (text, line, column))

    def test_errors_of_items(self):
        schema = cbor_diag.Schema("a = any")
        for data, error, offset in [(b"\x01\x82\x01", Error.CUT_SHORT, 3), (b"\x01\x82\x01\x1f", Error.HEAD, 3),
                                    (b"\x01\x01\x61\xff", Error.UTF8, 3), (b"\x1f", Error.HEAD, 0)]:
            for kind in (bytes, bytearray):
                with self.assertRaises(CborDiagError) as raised:
                    schema.check(kind(data))
                self.assertEqual((raised.exception.error, raised.exception.offset), (error, offset))
        for data in ("01", 1, None):
            with self.assertRaises(TypeError):
                schema.check(data)


if __name__ == "__main__":
    unittest.main()
