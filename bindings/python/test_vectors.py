"""The rows of the vectors whose call is one of the module's: crates/vectors/data, as docs/VECTORS.md has their form."""
import collections
import pathlib
import re
import sys
import unittest

sys.path.insert(0, str(pathlib.Path(__file__).resolve().parents[2] / "checks" / "compare"))

import cbor_diag
from cbor_diag import CborDiagError, Error, Rules
from rows import DATA, file_names, rows_of

TEXTS = ["bytes_to_diag", "bytes_to_diag_pretty", "bytes_to_edn", "bytes_to_edn_pretty", "hex_to_diag",
         "hex_to_diag_pretty"]
DUMPS = ["bytes_to_hex", "diag_to_hex"]
BYTES = ["diag_to_bytes", "hex_to_bytes"]
SETS = {"rfc8949": Rules.RFC8949, "valid": Rules.VALID, "preferred": Rules.PREFERRED, "core": Rules.CORE,
        "length-first": Rules.LENGTH_FIRST, "ctap2": Rules.CTAP2, "dcbor": Rules.DCBOR}


def words(name):
    """The name of a constant as the rows write it: `KEY_ORDER` is `KeyOrder`."""
    return "".join(word.capitalize() for word in name.split("_"))


def given(row):
    """What the call is given: bytes, also for a text, so that places count bytes."""
    return row.bytes() if row.call.startswith("bytes_") else row.input


def converted(row):
    """What a conversion gives, or the name of its error."""
    try:
        found = getattr(cbor_diag, row.call)(given(row))
    except CborDiagError as error:
        return words(error.error.name)
    return found.hex() if isinstance(found, bytes) else found


def dumped(row):
    return converted(row).removesuffix("\n")


def beginning(row):
    """How bytes begin."""
    try:
        return f"item {cbor_diag.extent(row.bytes())}"
    except CborDiagError as error:
        return "truncated" if error.error is Error.CUT_SHORT else f"malformed {words(error.error.name)} {error.end}"


def fed(row):
    """What a scanner says of the last of the pieces."""
    scanner, data, size = cbor_diag.Scanner(), row.bytes(), int(row.argument)
    try:
        for begin in range(0, len(data), size) or [0]:
            found = scanner.feed(data[begin:begin + size])
    except CborDiagError as error:
        return f"malformed {words(error.error.name)} {error.end}"
    return "truncated" if found is None else f"item {found}"


def broken(row):
    """The place of a violation, and its kind."""
    found = cbor_diag.violation(row.bytes(), SETS[row.argument])
    return "kept" if found is None else f"{found.place} {words(found.kind.name)}"


def encoded(row):
    """The new encoding in hex, or the place of what is wrong."""
    try:
        return cbor_diag.reencode(row.bytes(), SETS[row.argument]).hex()
    except CborDiagError as error:
        return "none" if error.violation is None else f"{error.violation.place}"


def item_of(line):
    """The bytes of an item: EDN, or `hex` and digits."""
    return bytes.fromhex(line[4:]) if line.startswith("hex ") else cbor_diag.edn_to_bytes(line)


def said(call, misfit):
    """What a row says of an item."""
    if misfit is None or call == "cddl_fits":
        return "fits" if misfit is None else f"misfit {misfit.place}"
    message = re.sub(r"\(line (\d+)\)", r"(:\1)", misfit.message)
    head, found, rest = message.partition(f"found {misfit.found}")
    return f"{misfit.place} {head}{found}{rest.replace('; ', chr(10), 1)}"


def checked(row):
    """What is said of each item of a row of CDDL, or of the text."""
    cddl, _, items = (row.text(), "", "") if row.call == "cddl_fault" else row.text().rpartition("\n\n")
    try:
        schema = cbor_diag.Schema(cddl, row.argument or None)
    except CborDiagError as error:
        place = f"{error.line}:{error.column}"
        return f"{place} {str(error).removeprefix(f'{place}: ')}" if error.line else f"1:1 {error}"
    if row.call == "cddl_fault":
        return "none"
    return "\n".join(said(row.call, schema.check(item_of(line))) for line in items.split("\n"))


class Vectors(unittest.TestCase):
    def rows(self, call):
        """The rows of a call, of which there is one at least."""
        found = [row for name in file_names() for row in rows_of(DATA / name) if row.call == call]
        self.assertTrue(found, call)
        return found

    def check(self, call, made, wanted=lambda row: row.output(), taken=lambda row: not row.argument):
        tried = collections.Counter()
        for row in filter(taken, self.rows(call)):
            tried[call] += 1
            with self.subTest(row.place):
                self.assertEqual(made(row), wanted(row))
        self.assertTrue(tried[call], call)

    def test_conversions(self):
        for call in TEXTS + BYTES:
            self.check(call, converted)
        for call in DUMPS:
            self.check(call, dumped)

    def test_edn(self):
        """A row may have any number of items, and the module reads one."""
        for row in self.rows("edn_to_bytes"):
            with self.subTest(row.place):
                output = row.output()
                wrong = re.match(r"(\d+) \D", output)
                try:
                    self.assertEqual(cbor_diag.edn_to_bytes(row.input).hex(), output)
                except CborDiagError as error:
                    self.assertIs(error.error, Error.NOTATION)
                    if wrong:
                        self.assertEqual(error.offset, int(wrong[1]))
                    else:
                        item = bytes.fromhex(output)
                        self.assertTrue(not item or cbor_diag.extent(item) < len(item))

    def test_json(self):
        for row in self.rows("bytes_to_json"):
            if row.argument not in ("", "strict"):
                continue
            with self.subTest(row.place):
                try:
                    found = cbor_diag.bytes_to_json(row.bytes(), strict=bool(row.argument))
                except CborDiagError as error:
                    places = error.keys or (error.loss and (error.loss.place,)) or ()
                    found = " ".join(map(str, places)) or words(error.error.name)
                    self.assertTrue(row.output().startswith(found + " " * bool(places)))
                else:
                    self.assertEqual(found, row.output())

    def test_how_bytes_begin(self):
        self.check("extent", beginning)
        self.check("feed", fed, taken=lambda row: True)

    def test_rules(self):
        for call in ("violation", "violation_of"):
            self.check(call, broken, lambda row: " ".join(row.output().split()[:2]),
                       lambda row: row.argument in SETS and (call == "violation_of" or row.argument not in ("valid", "dcbor")))

    def test_cddl(self):
        for call in ("cddl_fits", "cddl_message", "cddl_fault"):
            self.check(call, checked, taken=lambda row: True)

    def test_reencoding(self):
        def wanted(row):
            kind, *numbers = row.output().split() or [""]
            return {"KeyTwice": numbers[1:], "Violation": numbers, "Written": ["none"]}.get(kind, [kind])[0]

        self.check("reencode", encoded, wanted, lambda row: row.argument in SETS)


if __name__ == "__main__":
    unittest.main()
