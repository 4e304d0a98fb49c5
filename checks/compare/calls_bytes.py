"""Calls on items in bytes, in hex, in notation and as dumps."""

import extents
from bytes_form import item_at, parse_bytes, to_bytes
from diag_faults import diag_fault
from diag_form import parse_diag
from diag_text import to_diag, to_diag_pretty
from dump import UNKNOWN_VERDICT, to_hex
from hex_form import parse_hex
from item import TEXTS, Refused
from item_fields import fields

# what is read, by the words of the names of calls
READERS = {"bytes": lambda row: parse_bytes(row.bytes()), "hex": lambda row: parse_hex(row.text()),
           "diag": lambda row: parse_diag(row.text())}


def dumped(item):
    return to_hex(item).removesuffix("\n")


# what is written of an item, by the words of the names of calls
WRITERS = {"bytes": lambda item: to_bytes(item).hex(), "hex": dumped, "diag": to_diag, "diag_pretty": to_diag_pretty,
           "pretty": to_diag_pretty, "fields": fields}


def refusal(row, names, text=str):
    """The error of a row, if it is one of these; text makes it of a name."""
    texts = {text(name) for name in names}
    return row.output() if row.output() in texts else " or ".join(sorted(texts))


def read(row, form):
    """The item of a row, or the names of errors of which it has one."""
    try:
        found = READERS[form](row)
    except Refused as refused:
        return None, {refused.name}
    except UnicodeDecodeError:
        return None, {"Utf8"}
    return (None, found) if isinstance(found, set) else (found, None)


def written(form, target):
    """A call from a form to another."""

    def call(row):
        item, names = read(row, form)
        return refusal(row, names) if names else WRITERS[target](item)

    return call


def converted(row):
    """`convert FROM TO`."""
    form, target = row.argument.split()
    item, names = read(row, form)
    return refusal(row, names, lambda name: f"refused: {TEXTS[name]}") if names else WRITERS[target](item)


# ---- the item at the front of bytes ----


def front(row, text):
    """A text of the item at the front and of its length; `truncated`; or an error."""
    try:
        return text(*item_at(row.bytes(), 0, 1))
    except Refused as refused:
        return "truncated" if refused.name == "CutShort" else refused.name


def counted(row):
    found = front(row, lambda item, used: f"{used} bytes")
    return f"{extents.turns(row.bytes())} turns, {found}"


def notation_fault(row):
    names, place = diag_fault(row.text())
    return refusal(row, names, lambda name: f"{name} {place}") if names else "none"


# ---- dumps, of which a row may ask for a part ----


def dump_call(form):
    def call(row):
        item, names = read(row, form)
        if names:
            return refusal(row, names)
        return known(row, part_of_dump(row, to_hex(item)))

    return call


def part_of_dump(row, dump):
    """What a row asks for of a dump."""
    if row.argument == "":
        return dump.removesuffix("\n")
    if row.argument == "first":
        return dump.split("\n")[0]
    if row.argument == "end":
        return dump.removesuffix("\n").encode()[-len(row.wanted):].decode(errors="replace")
    if row.argument == "lines":
        columns = {line.find("#") for line in dump.split("\n")[:-1]}
        return str(dump.count("\n")) if len(columns) == 1 else "another column"
    return str(dump.count(row.argument.removeprefix("count ")))


def notes_call(form):
    """The lines of a dump that have no digits, as they are indented in the comments."""

    def call(row):
        item, names = read(row, form)
        if names:
            return refusal(row, names)
        halves = [line.partition(" # ") for line in to_hex(item).split("\n")]
        found = [note.removeprefix("  ") for digits, _, note in halves if not digits.strip() and note]
        if row.argument == "flat":
            found = [note.lstrip() for note in found]
        return known(row, "\n".join(found))

    return call


def known(row, text):
    """A text, if each verdict on a URL in it is known."""
    return None if f"{UNKNOWN_VERDICT} URL (checked" in text else text


# ---- what is appended to a text ----


def appended(front, partial, write):
    """A call that appends the text of an item to a front, and a line that says what it returned."""

    def call(row):
        data = row.bytes()
        try:
            item, used = item_at(data, 0, 1)
            if not partial:
                parse_bytes(data)
            return f"{front}{write(item)}\n{used} bytes"
        except Refused as refused:
            # a front that is empty or ends a line is not ended again
            begun = front + ("" if front.endswith("\n") else "\n")
            return begun + ("truncated" if partial and refused.name == "CutShort" else refused.name)

    return call


def push_hex_bytes(row):
    found = appended("before\n", row.call.endswith("partial"), dumped)(row)
    return known(row, found)


CALLS = {
    **{f"{form}_to_{target}": written(form, target) for form in READERS for target in ("bytes", "diag", "diag_pretty")},
    **{f"{form}_to_hex": dump_call(form) for form in READERS},
    **{f"{form}_to_note": notes_call(form) for form in ("bytes", "diag")},
    **{f"parse_{form}": written(form, "fields") for form in READERS},
    "parse_bytes_partial": lambda row: front(row, lambda item, used: f"{used}: {fields(item)}"),
    "parse_bytes_counted": counted,
    "convert": converted,
    "push_bytes_to_hex": push_hex_bytes,
    "push_bytes_to_hex_partial": push_hex_bytes,
    "push_bytes_to_diag": appended("before:", False, to_diag),
    "push_bytes_to_diag_pretty": appended("before:", False, to_diag_pretty),
    "push_bytes_to_diag_partial": appended("before:", True, to_diag),
    "push_bytes_to_diag_pretty_partial": appended("before:", True, to_diag_pretty),
    "extent": lambda row: extents.extent(row.bytes()),
    # what a scanner answers does not depend on the pieces
    "feed": lambda row: extents.extent(row.bytes()),
    "diag_fault": notation_fault,
    "hex_fault": lambda row: extents.hex_fault(row.text()),
    "hex_place": lambda row: extents.hex_place(row.text(), int(row.argument)),
    "hex_bytes": lambda row: extents.hex_bytes(row.text()),
    "utf8_fault": lambda row: extents.utf8_fault(row.bytes()),
}
