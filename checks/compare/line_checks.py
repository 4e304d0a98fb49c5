"""Checks of where `cborcat` breaks lines: in the columns that it is given, and no more than it has to. What is expected is
written here by hand, from docs/EDN.md."""

import os
import random
import re

from bytes_form import to_bytes
from cases import any_item

# Names and what is in byte strings; and a date, whose note counts.
MESSAGE = "18([<<{1: -7}>>, {4: 'eleven'}, 'This is the content.', 'signature'])"
DATED = '[{"from": 1(1700000000)}, 0, 1]'

# Arguments, and what is written. The line of the first member has 42 columns, and that of the date 51; on one line the
# array with the date has 54, and without notes 31.
WRITTEN = [
    (["--width=42", "-x", MESSAGE], """\
/COSE_Sign1/ 18([
    /protected/ <<{/alg/ 1: -7 /ES256/}>>,
    /unprotected/ {
        /kid/ 4: h'656c6576656e' /'eleven'/,
    },
    /payload/ h'546869732069732074686520636f6e74656e742e' /'This is the content.'/,
    /signature/ h'7369676e6174757265' /'signature'/,
])
"""),
    (["--width=41", "-x", "18([<<{1: -7}>>, {}, null, ''])"], """\
/COSE_Sign1/ 18([
    /protected/ <<{
        /alg/ 1: -7 /ES256/,
    }>>,
    /unprotected/ {},
    /payload/ null,
    /signature/ h'',
])
"""),
    (["--width=50", "-x", DATED], """\
[
    {
        "from": 1(1700000000 /2023-11-14T22:13:20Z/),
    },
    0,
    1,
]
"""),
    (["--width=51", "-x", DATED], """\
[
    {"from": 1(1700000000 /2023-11-14T22:13:20Z/)},
    0,
    1,
]
"""),
    (["--width=54", "-x", DATED], '[{"from": 1(1700000000 /2023-11-14T22:13:20Z/)}, 0, 1]\n'),
    (["--width=31", "--no-notes", "-x", DATED], DATED + "\n"),
]


def bare(line):
    """A line without what is in quotes and comments, and without the marks of lengths."""
    line = re.sub(r'"(\\.|[^"\\])*"', "s", line)
    line = re.sub(r"'(\\.|[^'\\])*'", "s", line)
    return re.sub(r"(?<=[\[{(])_\d? ?", "", re.sub("/[^/]*/ ?", "", line))


def behind_key(line):
    """What stands behind the key with which a line begins or which ends on it, or the line."""
    depth = 0
    for at, character in enumerate(line):
        depth += (character in "[{(") - (character in ")}]")
        if character == ":" and depth <= 0:
            return line[at + 1:]
    return line


def may_break(line):
    """Whether a container on the line, other than a key, has members there."""
    return re.search(r"\[[^\]]|\{[^}]|\((?=s, )", behind_key(bare(line))) is not None


def is_in_columns(text, columns):
    """Whether no line is longer that could be broken. A line may have 20 columns after its blanks."""
    return all(len(line) <= max(columns, len(line) - len(line.lstrip(" ")) + 20) or not may_break(line)
               for line in text.splitlines())


def examples(run, same, folder):
    for name in sorted(os.listdir(folder)):
        if name.endswith(".md"):
            continue
        for columns in (20, 40, 69, 80, 120):
            for words in ([], ["-e"], ["--no-names"], ["--widths"]):
                text = run(f"--width={columns}", *words, f"{folder}/{name}")[0].decode()
                same(f"{name} in {columns} columns {words}", is_in_columns(text, columns), True)


def made(run, same):
    """Items by a seed; on one line there is all that fits."""
    for seed in range(100):
        chance = random.Random(seed)
        data = to_bytes(any_item(chance))
        columns = chance.randrange(20, 100)
        text = run(f"--width={columns}", "-f", "bytes", data=data)[0].decode()
        same(f"item {seed} in {columns} columns", is_in_columns(text, columns), True)
        line = run("--width=1000", "-f", "bytes", data=data)[0].decode().rstrip("\n")
        if "\n" not in line and len(line) <= columns:
            same(f"item {seed} on one line", text, line + "\n")


def check(run, same, folder):
    for words, text in WRITTEN:
        same(f"lines of {words}", run("-f", "diag", *words)[0].decode(), text)
    examples(run, same, folder)
    made(run, same)
