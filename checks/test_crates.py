"""Puts a copy of the repository together in which the folders of tests/ are crates.

    with test_crates.repository() as top:
        ...

The sources in tests/ have the ending `.rs`, because the gate refuses a file `.rt` that it does not prove. In the copy
they end in `.rt`, and crates.txt has a line for each of the crates:

- `rows`, the program `vectors` with the subjects of tests/rows in place of its own;
- `unit`, the tests of tests/unit;
- `doc_examples`, the examples of doc comments and pages, a test of each (doc_examples.py).

What a crate uses is read off its sources: crates, and what crates use. The copy is removed at the end.
"""
import contextlib
import pathlib
import re
import shutil
import tempfile

import doc_examples
from kit import TOP, uses


def copy_sources(source, target):
    """Copies the Rust sources of tests/ into a crate, over what is there."""
    for file in source.rglob("*.rs"):
        copy = target / file.relative_to(source).with_suffix(".rt")
        copy.parent.mkdir(parents=True, exist_ok=True)
        shutil.copy(file, copy)


def used_by(crate, known):
    """The crates that the sources of a crate name, as the first word of a path."""
    text = "\n".join(file.read_text() for file in crate.rglob("*.rt"))
    return sorted(known.intersection(re.findall(r"(?<![\w:])([a-z]\w*)::", text)))


@contextlib.contextmanager
def repository():
    """A copy of the repository with the crates of tests."""
    with tempfile.TemporaryDirectory() as folder:
        top = pathlib.Path(folder)
        shutil.copy(TOP / "HANDLES", top)
        shutil.copytree(TOP / "crates", top / "crates", ignore=shutil.ignore_patterns("out", "must-fail", "planted"))
        crates = {name: top / "crates" / name for name in ["rows", "unit", "doc_examples"]}
        shutil.copytree(top / "crates/vectors/src", crates["rows"] / "src")
        copy_sources(TOP / "tests/rows", crates["rows"] / "src")
        copy_sources(TOP / "tests/unit", crates["unit"] / "src")
        doc_examples.write(crates["doc_examples"] / "src")
        known = set(uses()).union(*uses().values())
        lines = [f"{name}: {' '.join(used_by(crate, known))}\n" for name, crate in crates.items()]
        top.joinpath("crates.txt").write_text(TOP.joinpath("crates.txt").read_text() + "".join(lines))
        yield top
