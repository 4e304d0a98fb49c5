"""Rows of CDDL: a text, an empty line, and items, a line each: EDN, or `hex` and the digits of bytes."""

import cddl_match
from cddl_item import placed
from cddl_load import Schema
from cddl_text import Fault
from edn_form import edn_to_bytes


def data_of(line):
    """The bytes of the item of a line."""
    return bytes.fromhex(line[4:]) if line.startswith("hex ") else edn_to_bytes(line.encode())


def each_item(row, answer):
    """What is said of each item, a line each. The word of the row names the rule; otherwise it is the first one."""
    text, _, lines = row.text().rpartition("\n\n")
    schema = Schema(text, row.argument or None)
    return "\n".join(answer(cddl_match.Matcher(schema).misfit(placed(data_of(line)))) for line in lines.split("\n"))


def fits(row):
    return each_item(row, lambda misfit: f"misfit {misfit.place}" if misfit else "fits")


def message(row):
    return each_item(row, lambda misfit: cddl_match.message(misfit) if misfit else "fits")


def fault(row):
    """The fault of a text, or `none`."""
    try:
        Schema(row.text())
        return "none"
    except Fault as found:
        lines = row.text()[:found.at].split("\n")
        return f"{len(lines)}:{len(lines[-1]) + 1} {found.words}"


CALLS = {"cddl_fits": fits, "cddl_message": message, "cddl_fault": fault}
