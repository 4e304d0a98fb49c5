"""Holds this reading of the format against the vectors, the examples, and itself on items made at random."""

import random

import calls_bytes
import calls_notes
import cases
from examples import BYTES, NOTATION, SEQUENCES, nested
from model import (
    Refused, normal, parse_bytes, parse_bytes_partial, parse_diag, resolve, strip, to_bytes, to_diag, to_diag_pretty,
    to_hex,
)
from outcome import Outcome, expected
from tally import inputs_of, rows_give


def bytes_of(digits):
    return bytes.fromhex(digits)


def answer(call, *arguments):
    """What a call returns, or the name of its error."""
    try:
        return call(*arguments)
    except Refused as refused:
        return refused.name


def check(wanted, found, at):
    if wanted != found:
        raise SystemExit(f"self-test: at {at!r:.200}\n wanted {wanted!r:.2000}\n found  {found!r:.2000}")


def fronts():
    """Of bytes that are an item each front is cut, and what follows changes nothing."""
    for data, error in inputs_of("bytes"):
        if error is None:
            found = parse_bytes(data)
            for end in range(len(data)):
                check(None, parse_bytes_partial(data[:end]), data)
            for more in (b"\x00", b"\xff"):
                check((found, len(data)), parse_bytes_partial(data + more), data)


def hostile():
    for digits, wanted in BYTES:
        check(wanted, answer(parse_bytes, bytes_of(digits)), digits)
    for text, wanted in NOTATION:
        found = parse_diag(text)
        # several errors may be allowed; the example names one of them
        good = wanted in found if isinstance(found, set) else wanted == to_bytes(found).hex()
        check(True, good, text)
    deepest = to_diag(parse_bytes(bytes_of(nested(64))))
    check({"TooDeep"}, parse_diag(deepest.replace("h'01'", "<<1>>")), deepest)
    check(True, not isinstance(parse_diag("24(<<" * 63 + "1" + ">>)" * 63), set), "63 embedded")
    check(True, not isinstance(parse_diag("24(<<" * 64 + ">>)" * 64), set), "64 embedded, the last one empty")
    deep = to_hex(parse_bytes(bytes_of(nested(64)))).split("\n")
    check(1, sum(line.endswith("nested deeper than 128 levels") for line in deep), "64 embedded")
    array = to_hex(parse_bytes(bytes_of("98ff" + "00" * 255)))
    check(True, array.startswith("98 ff # array(255)\n   00 #   unsigned(0)\n"), "255 members")


def sequences():
    for digits, target, output, refusal in SEQUENCES:
        wanted = Outcome(output.encode(), frozenset([refusal] if refusal else []))
        check(wanted, expected("seq", target, bytes_of(digits)), digits)
    check(Outcome(b"\xf4\x80", frozenset()), expected("seq", "bytes", bytes_of("f81480")), "two spellings of false")


def laws(count, seed):
    """What has to hold of every item, whatever the texts look like."""
    chance = random.Random(seed)
    for _ in range(count):
        item = cases.any_item(chance)
        check(resolve(item), parse_bytes(to_bytes(item)), item)
        compact, pretty, dump = to_diag(item), to_diag_pretty(item), to_hex(item)
        once = normal(item)
        check(once, parse_diag(compact), compact)
        check(once, parse_diag(pretty), pretty)
        check(once, normal(once), item)
        check(compact, to_diag(once), item)
        check(to_bytes(item).hex(), strip(dump).decode(), dump)
        columns = {line.index("#") for line in dump.split("\n")[:-1]}
        check(1, len(columns), dump)


def run(count=3000, seed=1):
    rows = rows_give(set(calls_bytes.CALLS) | set(calls_notes.CALLS))
    for part in (fronts, hostile, sequences):
        part()
    laws(count, seed)
    print(f"self-test: {rows} rows, all examples, and the laws of {count} items by seed {seed}")
