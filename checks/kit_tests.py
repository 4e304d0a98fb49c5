"""Runs the tests by `rt try`, which proves nothing: it builds each crate with the crates below it, and runs it.

    with kit_tests.ready() as tests:
        tests.rows()

Each call returns how many passed, how many failed, and what was written. `needs` is how many bytes of memory a call
takes, most of it to compile the crates.
"""
import contextlib
import re
import shutil
import subprocess

import test_crates
from outputs import DATA, counted_rows, counted_tests, file_names


def tried(crate, *words):
    """What a program or the tests of a crate wrote, and what the kit wrote beside it."""
    ran = subprocess.run(["rt", "try", *words], cwd=crate, stdin=subprocess.DEVNULL, capture_output=True)
    return ran.stdout, ran.stdout + ran.stderr


class Tests:
    """The tests of a copy of the repository, in which the folders of tests/ are crates."""
    name = "the kit's rt try"
    needs = 7e9

    def __init__(self, top):
        self.crates = top / "crates"

    def rows(self):
        given = [word for file in file_names() for word in ("--data", f"{file}={DATA / file}")]
        output, said = tried(self.crates / "rows", *given, "--", *file_names())
        return *counted_rows(output), said

    def unit(self):
        return self.tests_of("unit")

    def examples(self):
        return self.tests_of("doc_examples")

    def tests_of(self, crate):
        output, said = tried(self.crates / crate, "--test")
        return *counted_tests(output), said

    def runs(self, program):
        """Makes the stored run of a program, which the gate makes, and its cases: each is a standard input, and has
        arguments and the wanted output. A stored run has to end with status 0."""
        crate = self.crates / program
        cases = crate / "cases"
        cases.mkdir(exist_ok=True)
        for name, case in [("stdin", "stored"), ("args", "stored.args"), ("stdout", "stored.stdout")]:
            shutil.copy(crate / name, cases / case)
        _, said = tried(crate, "--cases", "cases")
        ended = re.findall(rb"^case=(\w+) run=ended status=(\d+)(?=.* output=expected)", said, re.MULTILINE)
        right = sum(case != b"stored" or status == b"0" for case, status in ended)
        return right, len(list(cases.glob("*.stdout"))) - right, said


@contextlib.contextmanager
def ready():
    """The tests, once the copy is made."""
    with test_crates.repository() as top:
        yield Tests(top)
