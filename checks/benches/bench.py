#!/usr/bin/env python3
"""Times the program on inputs that it makes itself, and another program with the same arguments.

    checks/benches/bench.py PROGRAM [OTHER] [--rounds N] [--size PERCENT] [--only KIND] [--folder FOLDER] [--status]

PROGRAM is `crates/cbor_view/out/cbor_view`, which `rt run` builds. For each kind of input and each
conversion that PROGRAM has, the two programs run in turn, N times each. A line shows, for each of them, the
least time in milliseconds, the megabytes of input per second and the peak memory in megabytes, and then the
ratio of the two times. A dash means that a run failed. The inputs are the same on every machine. They are
kept in FOLDER, or in a folder that is removed at the end. The last lines compare records in a sequence with
the same records in an array. With --status, the programs take no arguments: each reads bytes and reports by
its exit status alone, as `checks/benches/extent.c` does. The script needs only Python and its
standard library.
"""
import argparse
import os
import random
import subprocess
import sys
import tempfile
import time

FROM = ["bytes", "hex", "diag"]
TO = ["bytes", "hex", "diag", "pretty"]

# ---- bytes of items


def head(major, number):
    """The shortest head of a major type with this number."""
    first = major << 5
    if number < 24:
        return bytes([first + number])
    for info, size in ((24, 1), (25, 2), (26, 4), (27, 8)):
        if number < 1 << 8 * size:
            return bytes([first + info]) + number.to_bytes(size, "big")
    raise ValueError(number)


def integer(number):
    return head(0, number) if number >= 0 else head(1, -1 - number)


def byte_string(content):
    return head(2, len(content)) + content


def text(content):
    content = content.encode()
    return head(3, len(content)) + content


def array(items):
    return head(4, len(items)) + b"".join(items)


def pairs(members):
    return head(5, len(members)) + b"".join(key + value for key, value in members)


def tagged(tag, item):
    return head(6, tag) + item


# ---- inputs


def some_integer(source):
    return source.choice([5, -7, 200, -60_000, 70_000, 4_000_000_000, -(2**40)])


def integers(source, count):
    return array([integer(some_integer(source)) for _ in range(count)])


def maps(source, count):
    def record(number):
        return pairs(
            [
                (text("id"), integer(number)),
                (text("name"), text(f"sensor {number % 97}")),
                (text("at"), integer(1_700_000_000 + number)),
                (text("values"), array([integer(source.randrange(1000)) for _ in range(3)])),
            ]
        )

    return array([record(number) for number in range(count)])


def nested(source, count):
    return array([array([array([integer(source.randrange(24))])]) for _ in range(count)])


def texts(source, count):
    words = ["value", "über", "reading", "of", "the", "sensor", "日本", "at", "noon"]
    return array([text(" ".join(source.choices(words, k=6))) for _ in range(count)])


def cose(source, count):
    def message():
        protected = byte_string(pairs([(integer(1), integer(-7))]))
        key = pairs([(integer(4), byte_string(b"11"))])
        payload = byte_string(b"This is the content.")
        return tagged(18, array([protected, key, payload, byte_string(source.randbytes(64))]))

    return array([message() for _ in range(count)])


def large_string(source, count):
    return byte_string(source.randbytes(count))


def integer_keys(source, count):
    return pairs([(integer(key), integer(some_integer(source))) for key in range(count)])


def embedded(source, count):
    def item(number):
        return tagged(24, byte_string(array([integer(number), text("embedded")])))

    return array([item(number) for number in range(count)])


def noted(source, count):
    """Tags that the dump has notes for."""

    def values(number):
        return array(
            [
                tagged(1, integer(1_700_000_000 + number)),
                tagged(32, text("https://example.com/a/b?c=d")),
                tagged(34, text("AAECAwQFBgcICQoLDA0ODw==")),
                tagged(37, byte_string(source.randbytes(16))),
                tagged(52, byte_string(source.randbytes(4))),
                tagged(54, byte_string(source.randbytes(16))),
                tagged(69, byte_string(source.randbytes(32))),
                tagged(100, integer(18_000)),
            ]
        )

    return array([values(number) for number in range(count)])


KINDS = [
    ("maps", maps, 150_000),
    ("integers", integers, 2_000_000),
    ("nested", nested, 500_000),
    ("texts", texts, 300_000),
    ("cose", cose, 100_000),
    ("string", large_string, 50_000_000),
    ("keys", integer_keys, 1_000_000),
    ("embedded", embedded, 300_000),
    ("noted", noted, 30_000),
]

# ---- items one after the other


def records(count):
    """Small records, each by itself."""
    return [
        pairs(
            [
                (text("id"), integer(number)),
                (text("name"), text(f"sensor {number % 97}")),
                (text("at"), integer(1_700_000_000 + number)),
            ]
        )
        for number in range(count)
    ]


def input_of(folder, kind, make, count):
    """The file of an input. A child makes it, since the peak memory of a program that is started counts
    that of the process which starts it."""
    path = os.path.join(folder, f"{kind}-{count}.bytes")
    if not os.path.exists(path):
        child = os.fork()
        if child == 0:
            with open(path, "wb") as file:
                file.write(make(random.Random(kind), count))
            os._exit(0)
        os.waitpid(child, 0)
    return path


# ---- runs


def run(program, words, path, output=os.devnull):
    """Seconds and peak kilobytes of one run, or None where it ends with another status than 0."""
    with open(path, "rb") as source, open(output, "wb") as target:
        start = time.perf_counter()
        child = subprocess.Popen(
            [program, *words], stdin=source, stdout=target, stderr=subprocess.DEVNULL
        )
        _, status, used = os.wait4(child.pid, 0)
        seconds = time.perf_counter() - start
        child.returncode = os.waitstatus_to_exitcode(status)
    return (seconds, used.ru_maxrss) if child.returncode == 0 else None


def input_for(program, folder, source, path):
    """The input in another form, which the program makes of its bytes; None if it cannot."""
    if source == "bytes":
        return path
    made = f"{path}.{source}"
    if not os.path.exists(made) and run(program, ["bytes", source], path, made) is None:
        os.remove(made)
        return None
    return made


def least(results):
    """The least time and the greatest memory of some runs, or None where one of them failed or none was."""
    if not results or None in results:
        return None
    return min(result[0] for result in results), max(result[1] for result in results)


def rounds_of(programs, words, path, rounds):
    results = [[] for _ in programs]
    for _ in range(rounds):
        for program, result in zip(programs, results):
            result.append(run(program, words, path))
    return [least(result) for result in results]


def milliseconds(result):
    return f"{result[0] * 1000:10.1f}" if result else f"{'-':>10}"


def cells(result, size):
    if result is None:
        return f"{milliseconds(result)} {'-':>8} {'-':>7}"
    seconds, memory = result
    return f"{milliseconds(result)} {size / seconds / 1e6:8.0f} {memory / 1024:7.0f}"


def ratio(one, other):
    """The time of the one as a share of the time of the other."""
    return f"{one[0] / other[0]:6.2f}" if one and other else f"{'-':>6}"


def sequences(program, folder, count, rounds):
    """Records as a sequence, and the same ones in an array: how long each takes."""
    paths = [os.path.join(folder, f"records-{count}.{form}") for form in ("array", "sequence")]
    made = records(count)
    for path, content in zip(paths, (array(made), b"".join(made))):
        with open(path, "wb") as file:
            file.write(content)
    print(f"{'records':10} {'words':13} {'MB in':>7} {'array ms':>10} {'seq ms':>10} {'ratio':>6}")
    for to in TO:
        times = [[], []]
        for _ in range(rounds):
            for word, path, result in zip(("bytes", "seq"), paths, times):
                result.append(run(program, [word, to], path))
        one, many = map(least, times)
        size = os.path.getsize(paths[1])
        print(f"{count:<10} {'seq ' + to:13} {size / 1e6:7.1f} {milliseconds(one)} {milliseconds(many)} {ratio(many, one)}")


def serves(program, words, path):
    return run(program, words, path) is not None


def compare(programs, folder, source, words, options):
    """A line for each kind of input in this form."""
    for kind, make, count in KINDS:
        if options.only not in (None, kind):
            continue
        path = input_of(folder, kind, make, max(1, count * options.size // 100))
        for maker in programs:
            made = input_for(maker, folder, source, path)
            if made:
                break
        if not made:
            continue
        size = os.path.getsize(made)
        results = rounds_of(programs, words, made, options.rounds)
        line = f"{kind:10} {' '.join(words):13} {size / 1e6:7.1f} {cells(results[0], size)}"
        if options.other:
            line += f" {cells(results[1], size)} {ratio(*results)}"
        print(line, flush=True)


def main():
    parser = argparse.ArgumentParser(description=__doc__, formatter_class=argparse.RawTextHelpFormatter)
    parser.add_argument("program")
    parser.add_argument("other", nargs="?")
    parser.add_argument("--rounds", type=int, default=5)
    parser.add_argument("--size", type=int, default=100, help="percent of the counts of each input")
    parser.add_argument("--only", help="one kind of input: " + ", ".join([kind for kind, _, _ in KINDS] + ["records"]))
    parser.add_argument("--folder", help="where inputs are kept")
    parser.add_argument("--status", action="store_true", help="the programs take no words")
    options = parser.parse_args()
    programs = [options.program] + ([options.other] if options.other else [])
    with tempfile.TemporaryDirectory() as passing:
        folder = options.folder or passing
        os.makedirs(folder, exist_ok=True)
        small = os.path.join(passing, "small")
        forms = {"bytes": b"\x01", "hex": b"01", "diag": b"1"}
        columns = f"{'ms':>10} {'MB/s':>8} {'MB':>7}"
        print(f"{'input':10} {'words':13} {'MB in':>7} {columns}" + (f" {columns} {'ratio':>6}" if options.other else ""))
        if options.status:
            compare(programs, folder, "bytes", [], options)
            return
        for source in FROM:
            with open(small, "wb") as file:
                file.write(forms[source])
            for to in TO:
                if serves(options.program, [source, to], small):
                    compare(programs, folder, source, [source, to], options)
        if options.only in (None, "records"):
            sequences(options.program, folder, max(1, 1000 * options.size), options.rounds)


if __name__ == "__main__":
    sys.exit(main())
