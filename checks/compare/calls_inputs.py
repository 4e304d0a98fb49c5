"""Calls on inputs as people paste them, and on paths."""

import inputs_form
import path_form


def recognized(row):
    """The form and the bytes of an input; of one without a form only that is known."""
    found = inputs_form.recognize(row.input)
    return row.refused(lambda text: text.startswith("no "), "no form") if found is None else found


def fault(row):
    place = inputs_form.text_fault(row.input)
    return "none" if place is None else str(place)


def printed(row):
    found = inputs_form.printed(row.input)
    return f"{found[0]} h'{bytes(byte for byte, _ in found[1]).hex()}'" if found else "none"


CALLS = {
    "recognize": recognized,
    "also": lambda row: inputs_form.also(row.input),
    "is_text": lambda row: "true" if inputs_form.is_text(row.input) else "false",
    "text_fault": fault,
    "printed": printed,
    "printed_place": lambda row: str(inputs_form.printed_place(row.input, int(row.argument))),
    "show_items": lambda row: path_form.show_items(row.bytes(), row.argument),
}
