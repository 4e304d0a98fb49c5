"""What `cborcat` reads of what people paste: the stored outputs of other programs in checks/pasted, and hints.

Each stored output is that of the command beside it, in that folder, of a file `item.cbor` or `short.cbor`; where the
program is installed, the command has to give the same today. Those of tcpdump and Wireshark are made by hand, in the
forms of their manuals. The bytes have to be those of the file that the command was given."""

import os
import random
import shutil
import subprocess

from printed_form import printed

FOLDER = os.path.join(os.path.dirname(os.path.dirname(os.path.abspath(__file__))), "pasted")
C = "printf 'unsigned char m[] = {%s};' \"$(xxd -i < short.cbor)\" | gcc -g -c -o /tmp/m.o -x c - && gdb -batch -ex"
PSQL = "INSERT INTO m VALUES (pg_read_binary_file('short.cbor')), in psql"
WRITTEN = "by hand"
# file, what was read, what it is said to be, and the command
FILES = [
    ("od.txt", "item", "a dump of od", "od -tx1 item.cbor"),
    ("od-Ax.txt", "item", "a dump of od; -f hex reads it, too", "od -v -Ax -tx1 item.cbor"),
    ("od-Ad-z.txt", "item", "a dump of od", "od -Ad -tx1z item.cbor"),
    ("xxd.txt", "item", "a dump of xxd", "xxd item.cbor"),
    ("xxd-a.txt", "item", "a dump of xxd", "xxd -a item.cbor"),
    ("xxd-i.txt", "item", "an array of bytes", "xxd -i item.cbor"),
    ("hexdump.txt", "item", "a dump of hexdump -C", "hexdump -C item.cbor"),
    ("tcpdump-X.txt", "short", "a dump of tcpdump", WRITTEN),
    ("wireshark-ascii.txt", "short", "a dump of Wireshark", WRITTEN),
    ("wireshark-hex.txt", "short", "a dump of Wireshark; -f hex reads it, too", WRITTEN),
    ("wireshark-escaped.txt", "short", "a string with escapes", WRITTEN),
    ("wireshark-c.txt", "short", "an array of bytes", WRITTEN),
    ("gdb.txt", "short", "a dump of gdb", f"{C} 'x/25xb &m' /tmp/m.o"),
    ("gdb-print.txt", "short", "a string with escapes", f"{C} 'print m' /tmp/m.o"),
    ("gdb-print-x.txt", "short", "an array of bytes", f"{C} 'print/x m' /tmp/m.o"),
    ("node-buffer.txt", "short", "a Buffer of Node.js", "node -e 'console.log(fs.readFileSync(\"short.cbor\"))'"),
    ("node-array.txt", "short", "an array of bytes",
     "node -e 'console.log(new Uint8Array(fs.readFileSync(\"short.cbor\")))'"),
    ("python-bytes.txt", "item", "a string with escapes", "python3 -c 'print(open(\"item.cbor\", \"rb\").read())'"),
    ("python-quotes.txt", "short", "a string with escapes", "python3 -c 'print(open(\"short.cbor\", \"rb\").read())'"),
    ("python-pprint.txt", "short", "a string with escapes",
     "python3 -c 'import pprint; pprint.pprint(open(\"short.cbor\", \"rb\").read(), width=40)'"),
    ("python-array.txt", "item", "an array of bytes",
     "python3 -c 'import array; print(array.array(\"B\", open(\"item.cbor\", \"rb\").read()))'"),
    ("rust-vec.txt", "short", "an array of bytes", "println!(\"vec!{:?}\", bytes), in Rust"),
    ("rust-bytes.txt", "short", "a string with escapes", "println!(\"b\\\"{}\\\"\", bytes.escape_ascii()), in Rust"),
    ("psql.txt", "short", "a result of psql", f"SELECT payload FROM m, after {PSQL}"),
    ("psql-At.txt", "short", None, f"the same with psql -At, after {PSQL}"),
    ("psql-copy.txt", "short", None, f"COPY m TO STDOUT, after {PSQL}"),
]
# what nothing reads, and the hint
HINTS = [
    ("eyJhbGciOiJFUzI1NiJ9.e30.c2ln",
     "a JWT? It is JSON in base64url, not CBOR: cut -d. -f2 FILE | basenc --base64url -d"),
    ("HC1:6BFOXN", "a health certificate (HC1:)? Decode its base 45, then unpack it with zlib"),
    ("ur:crypto-seed/oyadgdst", "a UR? Decode its bytewords first"),
    ("mdoc:owBjMS4w", "a device engagement? Give the base 64 after mdoc: alone"),
    ("<Buffer 82 01 ... 36 more bytes>", "cut by Node.js? Give all of it: buffer.toString('hex')"),
    ("0000000 61a3 5861\n0000004",
     "a dump? Its first column has to count the bytes, which are pairs of digits: od -tx1, xxd or hexdump -C"),
]
BINARY = [
    (b"\x1f\x8b\x08\x00", "gzip? Unpack it first: gzip -dc FILE | cborcat"),
    (b"\x30\x04\x02\x02\xff\x00", "DER, as in certificates? openssl asn1parse -inform DER -in FILE shows it"),
    (b"\xef\xbb\xbf\x9f", "a byte order mark before the bytes (ef bb bf)? --offset=3 skips it"),
]


def content(name):
    with open(os.path.join(FOLDER, name), "rb") as file:
        return file.read()


def check(run, same, folder):
    """Runs all of this."""
    listed = {name for name, *_ in FILES} | {"item.cbor", "short.cbor"}
    same("the stored outputs are listed", set(os.listdir(FOLDER)), listed)
    for name, item, said, command in FILES:
        digits = content(f"{item}.cbor").hex() + "\n"
        lines = f"cborcat: standard input: read as {said}\n" if said else ""
        same(name, run("-t", "digits", data=content(name)), (digits.encode(), lines, 0))
        crlf = content(name).replace(b"\n", b"\r\n")
        same(f"{name} with CR", run("-t", "digits", data=crlf)[::2], (digits.encode(), 0))
        if command != WRITTEN and shutil.which(command.split()[0]) and "gdb" not in command:
            ran = subprocess.run(["bash", "-c", command], cwd=FOLDER, capture_output=True)
            same(f"{command} today", ran.stdout, content(name))
    for text, hint in HINTS:
        out, error, status = run("-x", text)
        same(f"{text!r} is named", (error.endswith(f"\n  {hint}\n"), status), (True, 1))
    for data, hint in BINARY:
        out, error, status = run(data=data)
        same(f"{data!r} is named", (error.endswith(f"\n  {hint}\n"), status), (True, 1))
    places(run, same)
    line_feeds(run, same, folder)
    pairs(run, same)
    generated(run, same, folder)
    damaged(run, same)


def string(chance):
    """A byte string item of bytes that are hard to read back: lines that repeat, blanks, quotes, digits, backslashes."""
    pieces = [b"\0" * 16, b" ", b"  |", b"'", b'"', b"\\x4", b"\\", b"*\n", b"ab", b"0", b"\xff", b"// /* #", b"\t", b">.<"]
    content = b"".join(chance.choice(pieces) * chance.choice([1, 1, 2, 5]) for _ in range(chance.randrange(1, 9)))[:200]
    return bytes([0x58, len(content)]) + content


def generated(run, same, folder):
    """What programs print of generated items is read as their bytes."""
    chance, file = random.Random(7), f"{folder}/generated.cbor"
    commands = ["od -tx1", "od -Ax -tx1", "od -v -Ad -tx1z", "xxd", "xxd -g1 -c7", "xxd -i", "hexdump -C"]
    for _ in range(12):
        item = string(chance)
        with open(file, "wb") as out:
            out.write(item)
        for command in commands:
            if shutil.which(command.split()[0]):
                text = subprocess.run([*command.split(), file], capture_output=True).stdout
                same(f"{command} of {item.hex()}", run("-t", "digits", data=text)[::2], (item.hex().encode() + b"\n", 0))
        for text in (repr(item), repr(bytearray(item)), f"vec!{list(item)}", f"X'{item.hex()}'"):
            same(f"{text}", run("-t", "digits", data=text.encode())[::2], (item.hex().encode() + b"\n", 0))


WORDS = {"Od": "a dump of od", "Xxd": "a dump of xxd", "Hexdump": "a dump of hexdump -C", "Tcpdump": "a dump of tcpdump",
         "Wireshark": "a dump of Wireshark", "Gdb": "a dump of gdb", "Buffer": "a Buffer of Node.js",
         "Psql": "a result of psql", "Array": "an array of bytes", "Escapes": "a string with escapes",
         "QuotedHex": "hex in quotes"}


def damaged(run, same):
    """Damaged outputs are read, or not, as the second implementation does."""
    chance = random.Random(8)
    for name, *_ in FILES:
        text = content(name).decode()
        for _ in range(12):
            at = chance.randrange(len(text))
            new = chance.choice(["", "", " ", "\n", "0", "a", "x", "|", "'", ",", "*", text[at:at + 1] * 2])
            other = text[:at] + new + text[at + 1:]
            found = printed(other)
            out, error, status = run("-t", "digits", data=other.encode())
            line = error.split("\n")[0].split(": ", 2)[-1].removesuffix("; -f hex reads it, too")
            said = line if line[8:] in WORDS.values() else None
            same(f"damaged {other!r}", said, f"read as {WORDS[found[0]]}" if found else None)
            if found and status == 0:
                same(f"bytes of {other!r}", out.replace(b"\n", b""), bytes(byte for byte, _ in found[1]).hex().encode())


def places(run, same):
    """An error in a dump or in code has its place there; -f hex takes hex as hex, and a dump that is none."""
    same("an error in a dump", run("-x", "00000000: 8201 1f  ..."), (
        b"", "cborcat: -x: read as a dump of xxd\n"
        "cborcat: -x:1:16: 1f: this major type has no indefinite length\n"
        "    at 1, in the array of 2 at 1:11, of which 1 is there\n"
        "    00000000: 8201 1f  ...\n                   ^^\n", 1))
    same("a cut array", run("-x", "vec![130, 1]"), (
        b"", "cborcat: -x: read as an array of bytes\n"
        "cborcat: -x:1:13: truncated: the array at 1:6 has 2 items, 1 is there\n", 1))
    same("hex by name", run("-f", "hex", "-t", "digits", "-x", "0000 82 01 02"), (b"00\n00\n820102\n", "", 0))
    same("a dump by -f hex", run("-f", "hex", "-t", "digits", "-x", "00000000: 8201 02  ..."),
         (b"820102\n", "cborcat: -x: read as a dump of xxd\n", 0))
    same("words", run("-t", "digits", "-x", "0000000 060643\n0000002"),
         (b"00\n19ece3\n02\n", "cborcat: -x: read as diag; -f base64 reads it, too\n  a dump? Its first column has to count the bytes, which are pairs of digits: "
          "od -tx1, xxd or hexdump -C\n", 0))


def line_feeds(run, same, folder):
    """A line feed behind the items of a file of bytes is an item; a line says so."""
    def written(name, data):
        with open(f"{folder}/{name}", "wb") as file:
            file.write(data)
        return f"{folder}/{name}"

    def said(file):
        return (f"cborcat: {file}: the last byte (0a) is read as the item 10\n  a line feed that an editor or echo "
                f"added? head -c -1 {file} | cborcat -f bytes\n")

    for data, out in [(b"\x82\x01\x02\n", b"[1, 2]\n10\n"), (b"\xa1\x00\x01\x80\n", b"{0: 1}\n[]\n10\n")]:
        file = written("feed.cbor", data)
        same(f"{data!r}", run("-t", "diag", file), (out, said(file), 0))
        same(f"{data!r} is checked", run("-c", file), (b"", said(file), 0))
    for data in (b"\x82\x01\x0a", b"\x19\x00\x0a", b"\x0a", b"\x82\x01\x02", b"\x62\x0a\x0a"):
        same(f"{data!r}", run("-c", "-f", "bytes", written("feed.cbor", data)), (b"", "", 0))
    same("another name", run("-t", "diag", written("feed.bin", b"\x82\x01\x02\n")), (b"[1, 2]\n10\n", "", 0))


def pairs(run, same):
    """With --partial, the pairs before an odd digit are shown."""
    odd = "1:7: an odd number of hex digits\n"
    same("an odd digit", run("-f", "hex", "--partial", "-t", "diag", "-x", "82 01 0"), (
        b"[1, /truncated/ h'']\n", f"cborcat: -x:{odd}"
        "cborcat: -x:1:7: truncated: the array at 1:1 has 2 items, 1 is there\n", 1))
    same("without --partial", run("-f", "hex", "-t", "diag", "-x", "82 01 0"), (b"", f"cborcat: -x:{odd}", 1))
    same("a digit behind an item", run("--partial", "-t", "diag", "-x", "a0 01 f"), (
        b"{}\n1\n", f"cborcat: -x:{odd}", 1))
    same("a digit alone", run("-f", "hex", "--partial", "-x", "0 # one"), (
        b"", "cborcat: -x:1:1: an odd number of hex digits\n", 1))
    for text in ("; none", "-- none", "/* none */", "// none"):
        same(f"{text!r} has no item", run("-x", text), (b"", "cborcat: -x: no item: the text has only comments\n", 0))
    comment = "82 01 02 /* 03"
    same("a comment that does not end", run("-f", "hex", "-x", comment), (
        b"", f"cborcat: -x:1:15: the comment does not end\n    {comment}\n                  ^\n", 1))
