"""Runs systest on Linux and on another system, and compares the lines: check scripts call it.

Needs cc, Python 3 and its standard library only.
"""
import pathlib
import subprocess
import tempfile

HERE = pathlib.Path(__file__).resolve().parent
CC = ["cc", "-std=gnu11", "-O1", "-Wall", "-Wextra", "-Werror", "-fno-builtin", "-DON_LINUX"]
WORDS = ["one", "two ü"]
GIVEN = {"GIVEN": "a value ü"}


def told(words, folder, env):
    """What systest prints in a fresh folder, and its status."""
    home = folder / "home"
    home.joinpath("d").mkdir(parents=True)
    names = [folder / name for name in ["input", "output"]]
    names[0].write_bytes(b"in\r\nput \xc3\xbc")
    with names[0].open("rb") as given, names[1].open("wb") as output:
        status = subprocess.run([*words, *WORDS], stdin=given, stdout=output, cwd=home, env={**env, **GIVEN},
                                timeout=300).returncode
    return [*names[1].read_bytes().split(b"\n"), b"status %d" % status]


def compare(words, env):
    """Compares the lines of another system with those of Linux; returns whether they are the same."""
    with tempfile.TemporaryDirectory() as scratch:
        program = pathlib.Path(scratch, "systest")
        subprocess.run([*CC, HERE / "systest.c", HERE / "system.c", "-o", program], check=True)
        linux = told([program], pathlib.Path(scratch, "linux"), {})
        other = told(words, pathlib.Path(scratch, "other"), env)
    for line, there in zip(linux, other):
        if line != there:
            print(f"systest: on Linux {line!r}, here {there!r}")
    print(f"systest: {len(linux)} lines, {'the same' if linux == other else 'not all the same'}")
    return linux == other
