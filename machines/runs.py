"""Runs of cborcat, to compare what is built for another system with the program on Linux: status, output, messages and
the files that are left.

The runs are made one after the other in a folder that `prepare` fills. They are all examples in many ways, inputs of
the vectors, and files, pipes and wrong words of many kinds. Needs Python 3 and its standard library only.
"""
import pathlib
import shutil
import subprocess
import sys
from typing import NamedTuple

TOP = pathlib.Path(__file__).resolve().parent.parent
sys.path.insert(0, str(TOP / "checks/compare"))

from rows import DATA, file_names, rows_of

WAYS = [[], ["-t", "diag"], ["-t", "hex"], ["-t", "hex", "--no-names"], ["-t", "digits"], ["-t", "bytes"],
        ["-t", "json"], ["-t", "json", "--strict"], ["-t", "paths", "--places"], ["-t", "stats"], ["-t", "html"],
        ["-c"], ["--check=core"], ["--encode=core", "-t", "digits"], ["--color=always"],
        ["--color=always", "-t", "hex"], ["--width=40", "--no-notes"], ["--elide=8"], ["--partial", "-e"], ["--at=3"],
        ["-p", "*", "--as=COSE_Key"]]
# How many inputs of the vectors are taken, spread over all of them.
OF_VECTORS = 400

LOG, KEY, URI = "log.cbor", "cose-key.hex", "uri.hex"
ITEM = bytes.fromhex("a2616182010262c3bcf6")
NAMED = '[Reading]\ntag = 1001\nmap.1 = "sensor"\n'
CDDL = 'a = { a: [* uint], "ü": null }\n'
DEEP = b"\x81" * 127 + b"\x01"
DEEP_CDDL = "a = " + "[ " * 60 + "int" + " ]" * 60 + "\n"
FILES = {"item.cbor": ITEM, "with blank.cbor": ITEM, "ü.cbor": ITEM, "empty": b"", "cut.cbor": ITEM[:-2],
         "odd.hex": b"82 01 0\n", "wrong.edn": b'{"a" 1}\n', "text.json": b'{"a": [1, 2.5, "\\u00fc"]}\r\n',
         "names.toml": NAMED.encode(), "wrong.toml": b"[Reading]\ntag = -1\n", "item.cddl": CDDL.encode(),
         "wrong.cddl": b"a = [ uit ]\n", "deep.cbor": DEEP, "too-deep.cbor": b"\x81" + DEEP,
         "deep.cddl": DEEP_CDDL.encode(), "deep60.cbor": b"\x81" * 60 + b"\x01",
         "lines.edn": b"1\n2 # two\r\n[3,\n4]\n", "keep.cbor": b"kept",
         "long.cbor": b"\x9f" + b"\x65hello" * 30000 + b"\xff", "d/in.cbor": ITEM,
         "d/b.cbor": ITEM[:-1] + b"\xf5"}


class Run(NamedTuple):
    """The arguments of a run, and its input."""

    words: list
    data: bytes = b""


class Answer(NamedTuple):
    status: int
    output: bytes
    messages: bytes


def prepare(folder):
    """Fills a folder for the runs."""
    folder.mkdir()
    for file in sorted(TOP.joinpath("examples").iterdir()):
        shutil.copy(file, folder)
    folder.joinpath("d").mkdir()
    for name, data in FILES.items():
        folder.joinpath(name).write_bytes(data)


def of_examples():
    for file in sorted(TOP.joinpath("examples").glob("*.*")):
        if file.suffix in (".hex", ".cbor"):
            yield from (Run([*way, file.name]) for way in WAYS)


def of_vectors():
    """Inputs of the vectors on standard input, each in one of the ways."""
    inputs = sorted({row.input for name in file_names() for row in rows_of(DATA / name)})
    chosen = inputs[::max(1, len(inputs) // OF_VECTORS)]
    for number, data in enumerate(chosen):
        yield Run(WAYS[number % len(WAYS)], data)
        yield Run([*WAYS[(number + 7) % len(WAYS)], "-f", ["hex", "edn", "bytes"][number % 3]], data)


def of_files():
    """Files of all kinds, which are there or not, are read and written."""
    for name in FILES:
        yield from (Run(["-t", form, name]) for form in ["diag", "hex", "json"])
        yield Run(["-c", name])
    yield Run([LOG, KEY, URI])
    yield Run(["-t", "digits", "-", "item.cbor", "-"], b"\x01\x02")
    yield from (Run([name]) for name in ["lost", "d", "d/lost", "lost/x", "", "/lost", "./item.cbor", "d/../item.cbor"])
    yield Run(["--names=names.toml", "-x", "d903e9a10107"])
    yield from (Run([f"--names={name}", "item.cbor"]) for name in ["wrong.toml", "lost", "d", "item.cddl"])
    yield from (Run([f"--cddl={name}", "item.cbor"]) for name in ["item.cddl", "wrong.cddl", "lost", "log.cddl"])
    yield Run(["--cddl=deep.cddl", "deep60.cbor"])
    yield Run(["--cddl=log.cddl", LOG])
    others = ["d/b.cbor", "item.cbor", "lost", "text.json"]
    yield from (Run(["--diff", "item.cbor", other]) for other in others)
    yield Run(["--diff", "item.cbor"])


def of_outputs():
    """Outputs to files: new ones, others' places, folders, and those that fail."""
    yield Run(["-t", "bytes", "-o", "new.cbor", "text.json"])
    yield Run(["-t", "hex", "-o", "new.cbor", "item.cbor"])
    yield Run(["new.cbor"])
    yield Run(["-o", "keep.cbor", "cut.cbor"])
    yield Run(["-o", "out ü.txt", "ü.cbor"])
    yield Run(["out ü.txt"])
    yield Run(["-o", "item.cbor", "--set", "a/0=9", "-t", "bytes", "item.cbor"])
    yield Run(["item.cbor"])
    yield from (Run(["-o", name, URI]) for name in ["d", "d/lost/x", "/dev/null", "d/new.txt", ""])
    yield Run(["-o", "new.html", "-t", "html", LOG])


def of_words():
    """Other arguments, right and wrong."""
    yield from map(Run, [["--help"], ["--version"], ["--lost"], ["-t"], ["-t", "lost"], ["--widht=3"], ["--width=3"],
                         ["-x", "[1, 2"], ["-x", "82 01"], ["-x", '{"ü": "€𝄞"}'], ["-x", ""], ["-p", "a/1", "item.cbor"],
                         ["-p", "b", "item.cbor"], ["-p", "ü", "item.cbor"], ["--at=0x3", "item.cbor"],
                         ["--at=99", "item.cbor"], ["--delete", "a", "item.cbor"], ["--set", "ü=1.5", "item.cbor"],
                         ["--offset=1", "item.cbor"], ["--limit=3", "item.cbor"], ["-1", "lines.edn"],
                         ["-t", "raw", "-p", "0", "-x", "['ab\\r\\n']"], ["-t", "index=1", LOG], ["-o", "x", "-c"]])
    yield from (Run(["-t", "hex"], ITEM * count) for count in [0, 1, 3])
    yield Run([], bytes(range(256)))
    yield Run(["--partial"], ITEM[:5])
    yield Run(["-t", "diag"], b"\x18\x2a" * 200000)
    yield Run(["-t", "hex"], b"a\r\n\x1ab")


def runs():
    """All runs, in their order."""
    return [*of_examples(), *of_vectors(), *of_files(), *of_outputs(), *of_words()]


def answered(words, run, folder, env):
    """What a program answers, whose input and outputs are files: emulators may hang on pipes."""
    scratch = folder.parent
    names = [scratch / name for name in ["input", "output", "messages"]]
    names[0].write_bytes(run.data)
    with names[0].open("rb") as given, names[1].open("wb") as output, names[2].open("wb") as messages:
        status = subprocess.run([*words, *run.words], stdin=given, stdout=output, stderr=messages, cwd=folder, env=env,
                                timeout=300).returncode
    return Answer(status, names[1].read_bytes(), names[2].read_bytes())


def tree(folder):
    """The files of a folder, with their bytes."""
    files = [file for file in sorted(folder.rglob("*")) if file.is_file()]
    return {str(file.relative_to(folder)): file.read_bytes() for file in files}


def shown(answer):
    return f"{answer.status} {answer.output[-200:]!r} {answer.messages[-300:]!r}"


def differences(made, wanted, got):
    """The runs whose answers differ, in words."""
    for run, right, other in zip(made, wanted, got):
        if right != other:
            yield f"cborcat {run.words} < {run.data[:40]!r}\n  on Linux {shown(right)}\n  here     {shown(other)}"


def compare(program, others, env=None):
    """Makes all runs with the program on Linux in a folder, and in another by `others`, which is given the runs and the
    folder. Prints what differs; returns how many runs there are, and how many differences."""
    import tempfile
    made = runs()
    with tempfile.TemporaryDirectory() as scratch:
        folders = [pathlib.Path(scratch, name, "runs") for name in ["linux", "other"]]
        for folder in folders:
            folder.parent.mkdir()
            prepare(folder)
        wanted = [answered([program], run, folders[0], env or {}) for run in made]
        got = others(made, folders[1])
        found = list(differences(made, wanted, got))
        trees = [tree(folder) for folder in folders]
        found += [f"the file {name} differs" for name in sorted({*trees[0], *trees[1]})
                  if trees[0].get(name) != trees[1].get(name)]
    for text in found[:20]:
        print(text)
    return len(made), len(found)
