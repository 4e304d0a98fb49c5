"""What `cborcat -t stats` and `-t index=SIZE` write. Expected lines are counted by hand from the bytes of the items."""

import argument_checks

# Items in notation, and the lines of their statistics.
ROWS = [
    ('[1, 20, "a"]',
     "1 item, 5 bytes\n"
     "           4  80.0%          3  *  integer 1 to 20, text of 1 byte\n"
     "           1  20.0%            (heads of containers, and keys)\n"),
    ('{"a": 1.5, "b": [true, null]}, {"a": -2}',
     "2 items, 15 bytes\n"
     "           4  26.6%          2  a  integer -2, float 1.5\n"
     "           2  13.3%          2  b/*  boolean, null\n"
     "           9  60.0%            (heads of containers, and keys)\n"),
    ("99([h'', {}, h'01', h'0203'])",
     "1 item, 10 bytes\n"
     "           3  30.0%          1  3  byte string of 2 bytes\n"
     "           2  20.0%          1  2  byte string of 1 byte\n"
     "           1  10.0%          1  0  byte string of 0 bytes\n"
     "           1  10.0%          1  1  empty container\n"
     "           3  30.0%            (heads of containers, and keys)\n"),
    ('1(2), "abc", (_ "a", "bc")',
     "3 items, 13 bytes\n"
     "          13 100.0%          3  /  integer 2, text of 3 to 5 bytes; tagged\n"),
    ("24(<<[-1, 1e300]>>)",
     "1 item, 14 bytes\n"
     "          10  71.4%          2  @/*  integer -1, float 1e300\n"
     "           4  28.5%            (heads of containers, and keys)\n"),
    ("18446744073709551615, -18446744073709551616, undefined, simple(40)",
     "4 items, 21 bytes\n"
     "          21 100.0%          4  /  integer -18446744073709551616 to 18446744073709551615, undefined,"
     " simple value\n"),
    ("", "0 items, 0 bytes\n"),
]


# Bytes, a size, and the pieces of the items.
PIECES = [
    ("01 82 02 03 04", "1", "0 1 1\n1 3 1\n4 1 1\n"),
    ("01 82 02 03 04", "2", "0 4 2\n4 1 1\n"),
    ("01 82 02 03 04", "5", "0 5 3\n"),
    ("01 82 02 03 04", "0x1", "0 1 1\n1 3 1\n4 1 1\n"),
    ("", "1", ""),
    ("01", "64M", "0 1 1\n"),
]


def pieces(run, same):
    """Pieces of whole items, one after the other, that have all bytes."""
    for digits, size, wanted in PIECES:
        same(f"{size} of {digits}", run("-t", f"index={size}", "-f", "hex", "-x", digits), (wanted.encode(), "", 0))
    data = bytes.fromhex("83010203") * 5000
    same("of 1K", run("-t", "index=1K", data=data)[0].splitlines()[-1], b"19456 544 136")
    same("behind an offset", run("-t", "index=8", "--offset=19992", data=data), (b"19992 8 2\n", "", 0))
    said = "cborcat: standard input: truncated: the array at byte 1 has 2 items, none is there\n"
    same("before what is no item", run("-t", "index=1", data=b"\x01\x82"), (b"0 1 1\n", said, 1))
    for word in ("index", "index=", "index=0", "index=1X", "index=-1", "index=0K", "index=99999999999999999999"):
        written, said, status = run("-t", word, "-x", "1")
        same(word, (written, said, status), (
            b"", f'cborcat: --to takes {argument_checks.FORMS}, and not "{word}"\n', 2))


def check(run, same, folder):
    """All of it."""
    pieces(run, same)
    for text, wanted in ROWS:
        same(f"statistics of {text}", run("-t", "stats", "-f", "diag", "-x", text), (wanted.encode(), "", 0))

    first, second = f"{folder}/1.edn", f"{folder}/2.edn"
    for name, text in ((first, "[1]"), (second, "[2]")):
        with open(name, "w", encoding="utf-8") as file:
            file.write(text)
    same("of two files", run("-t", "stats", first, second),
         (b"1 item, 2 bytes\n"
          b"           1  50.0%          1  *  integer 1\n"
          b"           1  50.0%            (heads of containers, and keys)\n"
          b"1 item, 2 bytes\n"
          b"           1  50.0%          1  *  integer 2\n"
          b"           1  50.0%            (heads of containers, and keys)\n", "", 0))

    # 10,000 paths have a line each, and the others share one. The item has 3 bytes of its head, 12,000 of values, and
    # 72,890 of keys: 84,893, of which 2,000 are 2.35 in a hundred.
    keys = ", ".join(f'"k{number}": 1' for number in range(12_000))
    written, said, status = run("-t", "stats", "-f", "diag", data=f"{{{keys}}}".encode())
    lines = written.decode().splitlines()
    same("of many keys", (len(lines), said, status), (10_003, "", 0))
    same("those without a line", [line for line in lines if "(other paths)" in line],
         ["        2000   2.3%       2000  (other paths)  integer 1"])
    said = "cborcat: --path and -t stats cannot be used together: leave one of them out\n"
    same("of a part", run("-t", "stats", "-p", "0", "-x", "[1]"), (b"", said, 2))
