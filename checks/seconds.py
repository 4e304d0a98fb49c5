"""Processor seconds of each crate under the gate, read off while it runs.

`Watch` looks at the kit's processes twice a second, and takes the seconds that the system counts for each. A process in
a crate's folder counts for that crate, and for one of two kinds of work: the proof of the crate with its building, or
a must-fail edit, which the kit tries in a folder of its own. What a process takes in its last half
second is lost.

    python3 checks/seconds.py FILE

prints the table of a gate, which it left in FILE, the dearest crate first. Needs Python 3 and its standard library only.
"""
import collections
import os
import pathlib
import sys
import threading
import time

TOP = pathlib.Path(__file__).resolve().parent.parent
TICKS = os.sysconf("SC_CLK_TCK")
KINDS = ["crate", "edits"]
BETWEEN = 0.5


def owner(process):
    """The crate and the kind of work of one of the kit's processes; None of any other."""
    words = pathlib.Path(process, "cmdline").read_bytes().decode(errors="replace").split("\0")
    if "--crate-name" not in words:
        return None
    name, folder = words[words.index("--crate-name") + 1], os.readlink(f"{process}/cwd")
    if "/rt-edit" in folder:
        return name, "edits"
    if folder != str(TOP / "crates" / name):
        return None
    return name, "crate"


def taken(process):
    """When a process began, and how many seconds of a processor it took so far."""
    fields = pathlib.Path(process, "stat").read_text().rpartition(")")[2].split()
    return fields[19], (int(fields[11]) + int(fields[12])) / TICKS


class Watch(threading.Thread):
    """Watches the kit's processes until it is ended."""

    def __init__(self):
        super().__init__(daemon=True)
        self.ended = threading.Event()
        self.seen = {}
        self.begun = time.monotonic()

    def look(self):
        for process in pathlib.Path("/proc").glob("[0-9]*"):
            try:
                whose = owner(process)
                if whose:
                    start, seconds = taken(process)
                    self.seen[process.name, start] = whose, seconds
            except OSError:
                pass

    def run(self):
        while not self.ended.wait(BETWEEN):
            self.look()

    def end(self):
        """The seconds of each crate for each kind of work, and those of the clock."""
        self.ended.set()
        self.join()
        seconds = collections.defaultdict(lambda: dict.fromkeys(KINDS, 0.0))
        for (name, kind), took in self.seen.values():
            seconds[name][kind] += took
        return dict(seconds), time.monotonic() - self.begun


def text_of(seconds, clock):
    """What a gate leaves: a line for each crate, and one for the clock and the processors."""
    lines = [" ".join([name, *(f"{kinds[kind]:.0f}" for kind in KINDS)]) for name, kinds in seconds.items()]
    return "\n".join([f"clock {clock:.0f} {os.cpu_count()}", *lines]) + "\n"


def table_of(text):
    """The table, for people."""
    (_, clock, processors), *rows = [line.split() for line in text.splitlines()]
    rows = [(name, *map(int, numbers)) for name, *numbers in rows]
    totals = [sum(column) for column in list(zip(*rows))[1:]]
    lines = ["| Crate | Seconds | Its must-fail edits |", "|---|---|---|"]
    for name, *numbers in sorted(rows, key=lambda row: -sum(row[1:])):
        lines.append(f"| `{name}` | " + " | ".join(str(number or "") for number in numbers) + " |")
    lines.append("| all | " + " | ".join(map(str, totals)) + " |")
    whole = f"{sum(totals) / 60:.0f} minutes of a processor, {int(clock) / 60:.0f} by the clock on {processors}:\n\n"
    return whole + "\n".join(lines) + "\n"


if __name__ == "__main__":
    if len(sys.argv) != 2:
        sys.exit(__doc__)
    print(table_of(pathlib.Path(sys.argv[1]).read_text()), end="")
