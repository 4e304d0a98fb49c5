"""Holds this reading of EDN against the vectors, the examples, and itself on items made at random."""

import random
import sys

import calls_edn
import cases
from bytes_form import sequence, to_bytes
from edn_cases import strict
from edn_examples import LINES, REFUSED
from edn_form import edn_to_bytes
from edn_text import Writer
from item import Refused
from tally import rows_give


def answer(text):
    try:
        return edn_to_bytes(text.encode()).hex()
    except Refused:
        return None


def check(wanted, found, at):
    if wanted != found:
        raise SystemExit(f"self-test of EDN: at {at!r:.300}\n wanted {wanted!r:.300}\n found  {found!r:.300}")


def run(seed=1, count=2000):
    rows = rows_give(calls_edn.CALLS)
    for columns, line, text in LINES:
        items, _ = sequence(edn_to_bytes(line.encode()), 1)
        check(text, Writer(columns=columns).item(items[0]), line)
    for text in REFUSED:
        check(None, answer(text), text)
    for number in range(count):
        chance = random.Random(f"{seed} edn {number}")
        item = strict(cases.any_item(chance))
        for writer in (Writer(), Writer(widths=True), Writer(embedded=True), Writer(True, True), Writer(columns=20)):
            text = writer.outermost(sequence(to_bytes(item), 1)[0][0])
            check(to_bytes(item).hex(), answer(text), text)
    print(f"self-test of EDN: {rows} rows, all examples, and {count} items by seed {seed}")


if __name__ == "__main__":
    sys.setrecursionlimit(100_000)
    run()
