"""What a run of the program has to write, and how it has to end."""

from typing import NamedTuple

from bytes_form import item_at, parse_bytes, sequence, to_bytes
from diag_form import parse_diag
from diag_text import to_diag, to_diag_pretty
from dump import UNKNOWN_VERDICT, to_hex
from hex_form import parse_hex
from item import TEXTS, Refused, utf8

SOURCES = ("bytes", "hex", "diag", "seq")
TARGETS = {
    "bytes": to_bytes,
    "hex": lambda item: utf8(to_hex(item)),
    "diag": lambda item: utf8(to_diag(item) + "\n"),
    "pretty": lambda item: utf8(to_diag_pretty(item) + "\n"),
}
UNKNOWN = f"{UNKNOWN_VERDICT} URL (checked".encode()


class Outcome(NamedTuple):
    """The output, and the errors of which one is reported: none if the run succeeds."""

    output: bytes
    refusals: frozenset


def refused(*names):
    return Outcome(b"", frozenset(names))


def read(source, content):
    """The item of an input, or the set of its possible errors."""
    if source == "bytes":
        return parse_bytes(content)
    try:
        text = content.decode("utf-8")
    except UnicodeDecodeError:
        return {"Utf8"}
    return parse_hex(text) if source == "hex" else parse_diag(text)


def sequence_outcome(write, content):
    """Items one after the other: what was written of them, and why the rest is no item."""
    items, rest = sequence(content, 1)
    output = b"".join(map(write, items))
    if not rest:
        return Outcome(output, frozenset())
    try:
        item_at(rest, 0, 1)
    except Refused as refusal:
        return Outcome(output, frozenset([refusal.name]))
    raise AssertionError("the rest of a sequence begins with no item")


def expected(source, target, content):
    write = TARGETS[target]
    if source == "seq":
        return sequence_outcome(write, content)
    try:
        item = read(source, content)
    except Refused as refusal:
        return refused(refusal.name)
    if isinstance(item, set):
        return refused(*item)
    return Outcome(write(item), frozenset())


def blurred(output):
    """An output without the verdicts on URLs."""
    return output.replace(b"invalid URL (checked", UNKNOWN).replace(b"valid URL (checked", UNKNOWN)


def agrees(outcome, answer):
    """Whether the program's result is the expected one."""
    output, wanted = answer.output, outcome.output
    if UNKNOWN in wanted:
        output, wanted = blurred(output), blurred(wanted)
    if not outcome.refusals:
        return (answer.status, output, answer.error) == (0, wanted, b"")
    errors = [f"cbor_view: {TEXTS[name]}\n".encode() for name in outcome.refusals]
    return answer.status == 1 and output == wanted and answer.error in errors
