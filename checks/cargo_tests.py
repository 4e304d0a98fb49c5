"""Runs the tests by cargo, in the plain Rust crate that machines/rust/extract writes to dist/rust/semphluk.

    tests = cargo_tests.ready()
    tests.rows()

Each call returns how many passed, how many failed, and what was written. The first one builds all of them. `needs` is
how many bytes of memory a call takes.
"""
import pathlib
import shutil
import subprocess
import threading

from kit import CRATES, DIST, TOP
from outputs import DATA, counted_rows, counted_tests, file_names

FOLDER = DIST / "rust" / "semphluk"
DEBIAN = pathlib.Path("/usr/share/cargo/registry")
SECONDS = 120


def ran(words, folder, given=b""):
    """What a command wrote, what it wrote with its errors, and its status."""
    process = subprocess.run(words, cwd=folder, input=given, capture_output=True)
    return process.stdout, process.stdout + process.stderr, process.returncode


def finds_crates(*words):
    """Writes the Rust crate, and sees whether cargo has or gets the crates that it uses."""
    subprocess.run([TOP / "machines/rust/extract", *words, FOLDER], check=True, stdout=subprocess.DEVNULL)
    try:
        return subprocess.run(["cargo", "fetch", "--quiet"], cwd=FOLDER, capture_output=True,
                              timeout=SECONDS).returncode == 0
    except subprocess.TimeoutExpired:
        return False


class Tests:
    """The tests of the Rust crate."""
    name = "cargo, as plain Rust"
    needs = 1e9

    def __init__(self):
        self.lock = threading.Lock()
        self.status = None

    def once_built(self, work, *words):
        """What the work gives after the tests and the programs are built. If that fails, the first call says why."""
        with self.lock:
            said = b"nothing was built\n"
            if self.status is None:
                _, said, self.status = ran(["cargo", "test", "--test", "unit", "--no-run"], FOLDER)
        return (0, 1, said) if self.status else work(*words)

    def rows(self):
        return self.once_built(self.rows_of, "vectors")

    def unit(self):
        return self.once_built(self.tests_of, "--test", "unit")

    def examples(self):
        return self.once_built(self.tests_of, "--doc")

    def runs(self, program):
        return self.once_built(self.runs_of, program)

    def rows_of(self, program):
        output, said, _ = ran([self.program(program), *file_names()], DATA)
        return *counted_rows(output), said

    def tests_of(self, *words):
        output, said, _ = ran(["cargo", "test", *words], FOLDER)
        return *counted_tests(output), said

    def program(self, name):
        return FOLDER / "target/debug" / name

    def runs_of(self, program):
        """Makes the stored run of a program, which the gate makes, and its cases: each is a standard input, and has
        arguments and the wanted output. A stored run has to end with status 0."""
        crate, right, wrong, said = CRATES / program, 0, 0, b""
        cases = [(crate / "stdin", crate / "args", crate / "stdout")]
        for case in sorted(crate.glob("cases/*.stdout")):
            cases.append((case.with_suffix(""), case.with_suffix(".args"), case))
        for given, arguments, wanted in cases:
            words = [str(given) if word == "{}" else word for word in arguments.read_text().splitlines()]
            output, text, status = ran([self.program(program), *words], crate, given.read_bytes())
            if output == wanted.read_bytes() and (status == 0 or given.name != "stdin"):
                right += 1
            else:
                wrong, said = wrong + 1, said + f"{wanted}, status {status}:\n".encode() + text
        return right, wrong, said


def ready():
    """The tests, or None if cargo is not there or does not find the crates that they use."""
    if not shutil.which("cargo"):
        return None
    return Tests() if DEBIAN.is_dir() and finds_crates("--offline") or finds_crates() else None
