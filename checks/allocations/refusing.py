"""Runs a program in which an allocation fails, by the library of failing_malloc.c."""

import os
import subprocess
import tempfile

FOLDER = os.path.dirname(os.path.abspath(__file__))


def library_in(folder):
    """The library, compiled into a folder."""
    library = os.path.join(folder, "failing_malloc.so")
    source = os.path.join(FOLDER, "failing_malloc.c")
    subprocess.run(["cc", "-O1", "-shared", "-fPIC", "-o", library, source], check=True)
    return library


MARK = b"!"  # what the library writes if it makes a request fail


def run(program, words, content=b"", number=0, on=False, library=None, marked=False):
    """Status, output, errors, and whether a request failed: the one of this number, and those after it.

    If the output is to be marked, each mark is in it at the place that the program's own output had reached.
    """
    environment = {"FAIL_AT": str(number)} if number else {}
    if on:
        environment["FAIL_ON"] = "1"
    if library:
        environment["LD_PRELOAD"] = library
    files = [tempfile.TemporaryFile(buffering=0) for _ in range(4)]
    files[0].write(content)
    files[0].seek(0)
    targets = files[:3] + [files[1] if marked else files[3]]
    actions = [(os.POSIX_SPAWN_DUP2, file.fileno(), place) for place, file in enumerate(targets)]
    process = os.posix_spawn(program, [program, *words], environment, file_actions=actions)
    _, ended = os.waitpid(process, 0)
    for file in files[1:]:
        file.seek(0)
    output, error, marks = (file.read() for file in files[1:])
    for file in files:
        file.close()
    return os.waitstatus_to_exitcode(ended), output, error, MARK in (output if marked else marks)
