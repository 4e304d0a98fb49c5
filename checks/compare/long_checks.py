"""What `checks/cborcat` checks of long strings: a check keeps some blocks of them, and --limit looks at their heads."""
import random
import resource
import subprocess

MILLION = 1_000_000
# a length of four bytes: more than what is looked at at once
LENGTH = 3 * MILLION


def head(major, length):
    return bytes([major << 5 | 26]) + length.to_bytes(4, "big")


def little_memory():
    """For a process that is to begin: 64 MB."""
    resource.setrlimit(resource.RLIMIT_AS, (64 << 20, 64 << 20))


def check(run, same, shell, folder, program):
    memory(same, shell, folder, program)
    at_once(same, program)
    messages(run, same)
    any_messages(run, same)


def memory(same, shell, folder, program):
    """A string of 300 MB in 64 MB of memory, from a file and from a pipe."""
    for name, front in [("bytes", b""), ("in.array", b"\x82\x01"), ("tagged", b"\xc1\xa1\x01")]:
        path = f"{folder}/{name}.cbor"
        with open(path, "wb") as it:
            it.write(front + head(2, 300 * MILLION))
            it.truncate(len(front) + 5 + 300 * MILLION)
        for words, said, status in [
                (["-c", "--limit=1g"], "", 0),
                (["-c"], f"cborcat: {path}: byte 0: the item is longer than 268435456 bytes (--limit)\n", 1),
                (["--limit=2m"], f"cborcat: {path}: byte 0: the item is longer than 2097152 bytes (--limit)\n", 1),
                (["-c", f"--limit={300 * MILLION + len(front) + 5}"], "", 0)]:
            ran = subprocess.run([program, *words, path], capture_output=True, timeout=60, preexec_fn=little_memory)
            same(f"{name} of 300 MB with {words}", (ran.stdout, ran.stderr.decode(), ran.returncode),
                 (b"", said, status))
        same(f"{name} in a pipe", shell(f"ulimit -v 65536; cat {path} | cborcat -c --limit=1g"), (b"", "", 0))


def at_once(same, program):
    """The error comes while more of the item may come."""
    process = subprocess.Popen([program, "--limit=10m"], stdin=subprocess.PIPE, stdout=subprocess.DEVNULL,
                               stderr=subprocess.PIPE)
    try:  # It may end before it has read all of this.
        process.stdin.write(b"\x01\x81" + head(3, 20 * MILLION) + 2 * MILLION * b"a")
        process.stdin.flush()
    except BrokenPipeError:
        pass
    same("a limit before the end of the input", (process.stderr.readline().decode(), process.wait(timeout=20)),
         ("cborcat: standard input: byte 1: the item is longer than 10485760 bytes (--limit)\n", 1))
    process.stderr.close()
    try:
        process.stdin.close()
    except BrokenPipeError:
        pass


def messages(run, same):
    """Where something is wrong, and what of a string is there, of which most was dropped."""
    zeros, letters = LENGTH * b"\0", LENGTH // 2 * b"\xc3\xa9"
    for what, data, said in [
            ("a whole item", b"\x82" + head(2, LENGTH) + zeros + head(3, LENGTH) + letters, ""),
            ("a cut string", head(2, LENGTH + 1) + zeros,
             f"truncated: the byte string at byte 0 has {LENGTH + 1} bytes, {LENGTH} are there\n"),
            ("a cut text", b"\x01\xa1\x61a" + head(3, LENGTH + 1) + letters,
             f"truncated: the text at a (byte 4) has {LENGTH + 1} bytes, {LENGTH} are there\n"),
            ("a cut array", b"\x01\x83" + head(2, LENGTH) + zeros + head(3, LENGTH) + letters,
             "truncated: the array at byte 1 has 3 items, 2 are there\n"),
            ("a fault", b"\x01\x83" + head(2, LENGTH) + zeros + head(3, LENGTH) + letters + b"\x1f",
             "byte 6000012 (0x5b8d8c): 1f: this major type has no indefinite length\n"
             "    at 2, in the array of 3 at byte 1, of which 2 are there\n"
             "    a9 c3 a9 c3 a9 c3 a9 c3 a9 c3 a9 1f\n" + 37 * " " + "^^\n"),
            ("a fault in the next item", b"\x81" + head(2, LENGTH) + zeros + b"\x81\x1f",
             "byte 3000007 (0x2dc6c7): 1f: this major type has no indefinite length\n"
             "    at 0, in the array of 1 at byte 3000006, of which none is there\n"
             "    81 1f\n       ^^\n"),
            ("a text that is not UTF-8", b"\x81" + head(3, LENGTH) + letters[:-4] + b"\xff" + b"abc\x01",
             "byte 3000002 (0x2dc6c2): a text is not UTF-8\n"
             "    at 0, in the array of 1 at byte 0, of which none is there\n"
             "    a9 c3 a9 c3 a9 c3 a9 c3 a9 c3 a9 ff 61 62 63 01\n" + 37 * " " + "^^\n")]:
        wanted = f"cborcat: standard input: {said}" if said else ""
        same(f"-c of {what}", run("-c", "-f", "bytes", data=data), (b"", wanted, 1 if said else 0))


def any_messages(run, same):
    """Of items made by a seed, cut or wrong at a place: what -c says is what -t index says, which keeps all bytes."""
    chance = random.Random(7)

    def item(depth):
        kind = chance.randrange(5 if depth else 2)
        if kind == 0:
            length = chance.randrange(2 * MILLION)
            return head(2, length) + length * b"\1"
        if kind == 1:
            length = chance.randrange(MILLION)
            return head(3, 2 * length) + length * b"\xc3\xa9"
        if kind == 2:
            return bytes([0xc0 + chance.randrange(24)]) + item(depth - 1)
        if kind == 3:
            return b"\x9f" + item(depth - 1) + item(depth - 1) + b"\xff"
        return b"\xa2\x01" + item(depth - 1) + b"\x61b" + item(depth - 1)

    for number in range(25):
        data = item(3)
        at = chance.randrange(len(data))
        data = data[:at] if number % 2 else data[:at] + b"\xff" + data[at + 1:] + item(1)
        same(f"long item {number}", run("-c", "-f", "bytes", data=data)[1:],
             run("-t", "index=1", "-f", "bytes", data=data)[1:])
