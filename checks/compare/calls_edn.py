"""Calls on EDN, JSON and floats, and on items in each form."""

import edn_notes
import floats_form
import json_text
import reencode_form
import rules_form
from bytes_form import parse_bytes, sequence
from dump import to_hex
from edn_form import edn_to_bytes
from edn_text import Writer
from item import Refused


def read(row, one):
    """The bytes of a text. Of one that is refused the place is known: what is wrong is in the words of the library."""
    try:
        found = edn_to_bytes(row.input)
    except Refused as refused:
        return row.refused(lambda text: text.startswith(f"{refused.place} "), f"refused at {refused.place}")
    if one and len(sequence(found, 1)[0]) != 1:
        return row.refused(lambda text: " " in text, "refused: not one item")
    return found.hex()


def in_each_form(row):
    """An item in EDN, as JSON, encoded again by the core rules, and as a dump; `none` where it has no such form."""
    data = row.bytes()
    try:
        item = parse_bytes(data)
    except Refused:
        return "edn none\njson none\ncore none\nnone"
    json = json_text.bytes_to_json(data, [])
    core = reencode_form.reencode(data, rules_form.SETS["core"])
    json = "none" if json.endswith(json_text.SAME_KEYS) else json
    core = "none" if " " in core else core
    return f"edn {Writer().item(item)}\njson {json}\ncore {core}\n{to_hex(item).rstrip()}"


CALLS = {
    "item": in_each_form,
    "edn_to_bytes": lambda row: read(row, False),
    "parse_edn": lambda row: read(row, True),
    "bytes_to_edn": lambda row: edn_notes.bytes_to_edn(row.bytes(), row.argument.split()),
    "bytes_to_edn_pretty": lambda row: edn_notes.bytes_to_edn(row.bytes(), ["pretty"]),
    "push_bytes_to_edn_partial": lambda row: edn_notes.partial_to_edn(row.bytes(), row.argument.split()),
    "push_bytes_to_edn_noted": lambda row: edn_notes.noted(edn_notes.bytes_to_edn, row.bytes(), row.argument),
    "push_bytes_to_edn_noted_partial": lambda row: edn_notes.noted(
        edn_notes.partial_to_edn, row.bytes(), row.argument),
    "bytes_to_json": lambda row: json_text.bytes_to_json(row.bytes(), row.argument.split()),
    "bytes_to_json_named": lambda row: json_text.bytes_to_json(row.bytes(), row.argument.split()),
    "push_bytes_to_json_partial": lambda row: json_text.partial_to_json(row.bytes(), row.argument.split()),
    "parse_number": lambda row: floats_form.parsed(row.text(), None),
    "parse_in_width": lambda row: floats_form.parsed(row.text(), int(row.argument) // 8),
    "nearest_half": lambda row: floats_form.nearest_half(row.text()),
    "push_number": lambda row: floats_form.number_text(row.bytes()),
    "value": lambda row: floats_form.in_doubles(row.bytes()),
    "widened": lambda row: floats_form.widened(row.bytes()),
    "shorter": lambda row: floats_form.shorter(row.bytes()),
    "shortest": lambda row: floats_form.shortest(row.bytes()),
    "is_usual": lambda row: floats_form.is_usual(row.bytes()),
    "is_shortest": lambda row: floats_form.is_shortest(row.bytes()),
}
