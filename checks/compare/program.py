"""Runs the program, a process for each input."""

import os
import tempfile
from typing import NamedTuple


class Answer(NamedTuple):
    status: int
    output: bytes
    error: bytes


class Program:
    """Keeps three files as standard input, output and error, and uses them for each run."""

    def __init__(self, path):
        self.path = path
        self.files = [tempfile.TemporaryFile(buffering=0) for _ in range(3)]

    def run(self, words, content):
        for file in self.files:
            file.seek(0)
            file.truncate()
        self.files[0].write(content)
        self.files[0].seek(0)
        actions = [(os.POSIX_SPAWN_DUP2, file.fileno(), number) for number, file in enumerate(self.files)]
        process = os.posix_spawn(self.path, [self.path, *words], {}, file_actions=actions)
        _, ended = os.waitpid(process, 0)
        for file in self.files[1:]:
            file.seek(0)
        return Answer(os.waitstatus_to_exitcode(ended), self.files[1].read(), self.files[2].read())

    def serves(self, source, target):
        """Whether the program knows these two words."""
        return self.run([source, target], b"").status != 2
