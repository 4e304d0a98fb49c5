"""Compares rows of the vectors with what the second implementation gives."""

import collections

from calls import CALLS, WITHOUT
from item import TEXTS
from rows import DATA, KnownRefused, file_names, rows_of


def answer(row):
    """What the second implementation gives for a row. Where it fails itself, that is no result that a row has."""
    try:
        return CALLS[row.call](row)
    except Exception as error:  # pylint: disable=broad-exception-caught
        return f"{type(error).__name__} in the second implementation: {error}"


class Tally:
    """How many rows there are of each call, and what is known of them."""

    def __init__(self):
        self.count, self.known, self.refused, self.alone = 0, 0, 0, collections.Counter()

    def row(self, row):
        """Compares a row with what the second implementation gives; yields what is wrong with it."""
        self.count += 1
        found = answer(row) if row.call in CALLS else None
        if found is None:
            self.alone[row.call] += 1
        elif found != row.output():
            yield (f"{row.place}: {row.call} {row.argument}  {row.input!r}\n"
                   f"  wanted {row.output()!r}\n  found  {str(found)!r}")
        elif isinstance(found, KnownRefused):
            self.refused += 1
        else:
            self.known += 1

    def unknown(self):
        """The calls that nobody knows."""
        alone = sorted(call for call in self.alone if call not in CALLS and call not in WITHOUT)
        return [f"nobody knows the call {call}" for call in alone]

    def __str__(self):
        alone = ", ".join(f"{call} {number}" for call, number in sorted(self.alone.items())) or "none"
        return (f"{self.count} rows: {self.known} also by the second implementation, {self.refused} errors by it, too, "
                f"but for their words,\n{sum(self.alone.values())} by the library alone: {alone}")


def all_rows():
    """The rows of all files."""
    return [row for name in file_names() for row in rows_of(DATA / name)]


def rows_give(calls):
    """How many rows of these calls there are. Stops at the first that the second implementation does not give."""
    tally = Tally()
    for row in all_rows():
        if row.call in calls:
            for wrong in tally.row(row):
                raise SystemExit(f"self-test: {wrong}")
    return tally.count


def inputs_of(form):
    """The inputs of the rows in a form, `bytes`, `hex` or `diag`, each with the error that it gives, or None."""
    found = {}
    for row in all_rows():
        if row.call.startswith(f"{form}_to_") and "edn" not in row.call and "json" not in row.call or \
                row.call == f"parse_{form}":
            content = row.bytes() if form == "bytes" else row.input
            found[content] = row.output() if row.output() in TEXTS else None
    return list(found.items())
