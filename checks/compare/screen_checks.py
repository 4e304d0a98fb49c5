"""Checks of what `checks/cborcat` sees in a terminal: colours, long strings that are cut, EDN without widths, and dumps
as they are shown. A part of that script."""

import os
import re

ENDED = re.compile(rb"([^\x1b]|\x1b\[[0-9;]+m[^\x1b]*\x1b\[0m)*")
SGR = re.compile(rb"\x1b\[[0-9;]*m")
KEY, TEXT, BYTES, NUMBER, TAG, NOTE, FAULT = b"1;34", b"32", b"33", b"36", b"35", b"90", b"1;31"


def colored(*parts):
    """Plain bytes, and pairs of a colour and a token, as they are shown."""
    return b"".join(part if isinstance(part, bytes) else b"\x1b[%sm%s\x1b[0m" % part for part in parts)


def colors(run, same):
    """A token of each kind, in each form that has colours."""
    item = bytes.fromhex("a201c1182a6161425e00")
    pretty = colored(b"{", (KEY, b"1"), b": ", (TAG, b"1"), b"(", (NUMBER, b"42"), b" ",
                     (NOTE, b"/1970-01-01T00:00:42Z/"), b"), ", (KEY, b'"a"'), b": ", (BYTES, b"h'5e00'"), b"}\n")
    same("colours", run("--color=always", data=item)[0], pretty)
    same("a text", run("--color=always", "-t", "diag", "-f", "hex", "-x", "6161 f5")[0],
         colored((TEXT, b'"a"'), b"\n", (NUMBER, b"true"), b"\n"))
    same("a dump", run("--color=always", "-t", "hex", "-f", "hex", "-x", "6161")[0],
         colored((BYTES, b"61    "), (NOTE, b"# text(1)"), b"\n   ", (BYTES, b"61 "), (NOTE, b'#   "a"'), b"\n"))
    same("paths", run("--color=always", "-t", "paths", "-f", "hex", "-x", "a1 64 61202022 f4")[0],
         colored((KEY, b'"a  \\u0022"  '), (NUMBER, b"false"), b"\n"))
    same("with places", run("--color=always", "-t", "paths", "--places", "-f", "hex", "-x", "a1 64 61202022 f4")[0],
         colored((KEY, b'0x6  "a  \\u0022"  '), (NUMBER, b"false"), b"\n"))
    same("JSON", run("--color=always", "-t", "json", "-f", "hex", "-x", "a161610a")[0],
         colored(b"{", (KEY, b'"a"'), b": ", (NUMBER, b"10"), b"}\n"))
    partial = ["--color=always", "--partial", "-f", "hex", "-x", "a2 05 41 00 03"]
    same("what is wrong with an item", run(*partial, "-t", "diag")[0],
         colored(b"{", (KEY, b"5"), b": ", (BYTES, b"h'00'"), b", ", (KEY, b"3"), b": ", (FAULT, b"/truncated/"), b" ",
                 (BYTES, b"h''"), b"}\n"))
    same("the same in a dump", run(*partial, "--no-names", "-t", "hex")[0].split(b"\n")[-2],
         colored(b"   ", (FAULT, b"# truncated")))
    for form in ("digits", "bytes"):
        same(f"{form} have no colours", run("--color=always", "-t", form, data=item), run("-t", form, data=item))
    same("never", run("--color=never", data=item), run(data=item))


def terminals(in_terminal, run, same):
    """Colours come in a terminal alone, and by what the environment says."""
    wanted = run("--color=always", data=b"\x81\x01")[0].decode()
    for variables, has in [
        ({"TERM": "xterm"}, True), ({"TERM": "xterm", "NO_COLOR": ""}, True),
        ({"TERM": "xterm", "NO_COLOR": "0"}, False), ({"TERM": "dumb"}, False), ({"TERM": ""}, False), ({}, False),
    ]:
        same(f"a terminal with {variables}", in_terminal([], b"\x81\x01", variables)[0], wanted if has else "[1]\n")
    same("always in a terminal", in_terminal(["--color=always"], b"\x81\x01", {"NO_COLOR": "1"})[0], wanted)
    same("never in a terminal", in_terminal(["--color=never"], b"\x81\x01", {"TERM": "xterm"})[0], "[1]\n")
    same("a pipe", run(data=b"\x81\x01", env={**os.environ, "TERM": "xterm"})[0], b"[1]\n")


def marks(in_terminal, run, same):
    """The mark below what is wrong has a colour where standard error is shown colours, and nothing else has."""
    said = ("cborcat: standard input: byte 2 (0x2): 1f: this major type has no indefinite length\n"
            "    at 1, in the array of 2 at byte 0, of which 1 is there\n    82 01 1f\n          ^^\n")
    marked = said.replace("^^", "\x1b[1;31m^^\x1b[0m")
    bad = bytes.fromhex("82011f")
    same("a mark in a pipe", run("-c", data=bad), (b"", said, 1))
    same("a mark with --color=always", run("-c", "--color=always", data=bad), (b"", marked, 1))
    for words, variables, wanted in [
        ([], {"TERM": "xterm"}, marked), ([], {}, said), ([], {"TERM": "xterm", "NO_COLOR": "1"}, said),
        (["--color=never"], {"TERM": "xterm"}, said), (["--color=always"], {"NO_COLOR": "1"}, marked),
    ]:
        same(f"a mark in a terminal {words} {variables}", in_terminal(["-c", *words], bad, variables), (wanted, 1))
    for words in (["-f", "hex", "-x", "82 01\n 1f"], ["-f", "hex", "-x", "82 0g"], ["-f", "diag", "-x", "[1 2"]):
        plain, shown = run("-c", *words)[1], run("-c", "--color=always", *words)[1]
        same(f"{words} without colours", re.sub("\x1b\\[[0-9;]*m", "", shown), plain)
        same(f"{words} has one mark", shown.count("\x1b[1;31m^"), 1)


def elided(run, same):
    """Strings that are as long as is allowed, and longer ones."""
    item = "82 43 010203 64 61c3bc62"
    for most, text in [
        (0, "[h'...' /3 bytes/, \"...\" /4 bytes/]"), (2, "[h'0102...' /3 bytes/, \"a...\" /4 bytes/]"),
        (3, "[h'010203', \"aü...\" /4 bytes/]"), (4, "[h'010203', \"aüb\"]"),
    ]:
        got = run(f"--elide={most}", "-t", "diag", "-f", "hex", "-x", item)[0].decode()
        same(f"strings cut at {most}", got, f"{text}\n")
    same("32 bytes", run("--elide", "-f", "hex", "-x", "5820" + "00" * 32)[0].decode(), "h'" + "00" * 32 + "'\n")
    same("33 bytes", run("--elide", "-f", "hex", "-x", "5821" + "00" * 33)[0].decode(),
         "h'" + "00" * 32 + "...' /33 bytes/\n")
    same("paths are whole", run("--elide=1", "-t", "paths", "-f", "hex", "-x", "a1 6461202061 426162")[0],
         b"\"a  a\"  h'61...' /2 bytes/\n")
    same("in colours", run("--elide=1", "--color=always", "-f", "hex", "-x", "a1 426162 00")[0],
         colored(b"{", (KEY, b"h'61...'"), b" ", (NOTE, b"/2 bytes/"), b" ", (NOTE, b"/'ab'/"), b": ",
                 (NUMBER, b"0"), b"}\n"))
    for form in ("digits", "bytes", "json", "raw"):
        same(f"no --elide of {form}", run("--elide", "-t", form, "-x", "[1]"),
             (b"", "cborcat: --elide is for -t pretty, -t diag, -t hex, -t paths or --diff\n", 2))


def elided_dumps(run, same):
    """The same in dumps, also in items in byte strings, with names, and of parts."""
    def dump(digits, *words):
        return run(*words, "-t", "hex", "-f", "hex", "-x", digits)[0].decode()

    same("strings cut", dump("82 43 616263 64 61c3bc62", "--elide=2"), """\
82            # array(2)
   43         #   bytes(3)
      6162... #     "ab..." /3 bytes/
   64         #   text(4)
      61...   #     "a..." /4 bytes/
""")
    same("33 bytes", dump("5821" + "61" * 33, "--elide").splitlines()[1:], [
        "   61616161616161616161616161616161 #   \"aaaaaaaaaaaaaaaa\""] * 2 + [
        "   ...                              #   \"...\" /33 bytes/"])
    same("32 bytes", dump("5820" + "61" * 32, "--elide"), dump("5820" + "61" * 32))
    same("in a byte string", dump("44 81 42 6162", "-e", "--elide=1"), """\
44             # bytes(4)
   81          #   array(1)
      42       #     bytes(2)
         61... #       "a..." /2 bytes/
""")
    same("with names", dump("d2 84 43a10126 a0 43616263 40", "--elide=2").splitlines()[-3:], [
        "         6162... #       \"ab...\" /3 bytes/", "      40         #     /signature/ bytes(0)",
        "                 #       \"\""])
    same("a part", dump("82 43616263 00", "--elide=0", "-p", "0"), '43     # bytes(3)\n   ... #   "..." /3 bytes/\n')


def widthless(run, same):
    """EDN without widths."""
    item = "9803 fb3ff8000000000000 1800 d90001 7800"
    for words, text in [
        (["-t", "diag"], '[1.5, 0, 1("")]\n'), ([], '[1.5, 0, 1("")]\n'),
        (["-t", "paths"], '0  1.5\n1  0\n2  1("")\n'),
        (["-t", "paths", "--places"], '0x2  0  1.5\n0xb  1  0\n0xd  2  1("")\n'),
    ]:
        same(f"no widths {words}", run("--no-widths", *words, "-f", "hex", "-x", item)[0].decode(), text)
    same("an indefinite length", run("--no-widths", "-t", "diag", "-f", "hex", "-x", "9f 7f7800ff 1800 ff")[0],
         b'[_ (_ ""), 0]\n')
    same("cut, too", run("--no-widths", "--elide=1", "-t", "diag", "-f", "hex", "-x", "5802 6162")[0],
         b"h'61...' /2 bytes/\n")
    same("in colours", run("--no-widths", "--color=always", "-f", "hex", "-x", "1800")[0],
         colored((NUMBER, b"0"), b"\n"))
    for form in ("hex", "digits", "bytes", "json", "raw"):
        same(f"no --no-widths of {form}", run("--no-widths", "-t", form, "-x", "[1]"),
             (b"", "cborcat: --no-widths is for -t pretty, -t diag, -t paths or --diff\n", 2))
    same("--widths and --no-widths", run("--widths", "--no-widths", "-x", "1")[2], 2)


def spelled(run, same):
    """Dumps have the bytes of simple values in two bytes."""
    def dump(digits, *words):
        return run(*words, "-t", "hex", "-f", "hex", "-x", digits)[0].decode()

    same("f8 00", dump("f800"), "f8 00 # unassigned, simple(0)\n")
    same("after another item", dump("01 f814 02"), "01 # unsigned(1)\nf8 14 # false, simple(20)\n02 # unsigned(2)\n")
    same("in an array", dump("82 f800 f4"),
         "82       # array(2)\n   f8 00 #   unassigned, simple(0)\n   f4    #   false, simple(20)\n")
    same("in a part", dump("82 01 81f814", "-p", "1"), "81       # array(1)\n   f8 14 #   false, simple(20)\n")
    same("in parts", dump("82 f800 81f814 01", "-p", "*"),
         "f8 00 # unassigned, simple(0)\n81       # array(1)\n   f8 14 #   false, simple(20)\n")
    same("a byte string with it is not opened", dump("43 81f814", "-e"),
         '43        # bytes(3)\n   81f814 #   "\\x81\\xf8\\x14"\n')
    same("in a note", dump("d818 43 81f814").splitlines()[-2:],
         ["             #     81       # array(1)", "             #        f8 14 #   false, simple(20)"])
    same("with names", dump("d2 84 40 a0 f816 40").splitlines()[-3],
         "      f8 16 #     /payload/ null, simple(22)")
    for digits in ("82f80001", "42f800", "8242f800f800", "d8184381f814", "f820f8ff", "bf6161f814ff", "9ff8009ff817ffff"):
        shown = "".join(line.partition("#")[0] for line in dump(digits).splitlines()).replace(" ", "")
        same(f"the digits of {digits}", shown, digits)
    deepest = "81" * 127 + "5f428105ff"
    shown = "".join(line.partition("#")[0] for line in dump(deepest, "-e").splitlines()).replace(" ", "")
    same("the digits of chunks at the deepest level", shown, deepest)


def partial_dumps(run, same):
    """Dumps of what is there of an item that is not whole."""
    def dump(digits, *words):
        return run("--partial", *words, "-t", "hex", "-f", "hex", "-x", digits)

    said = "cborcat: -x:1:9: truncated: the array at 1:1 has 2 items, 1 is there\n"
    same("f8 00", dump("82 f8 00"),
         (b"82       # array(2)\n   f8 00 #   unassigned, simple(0)\n   # truncated\n", said, 1))
    same("a long string", dump("83 43 616263 f8 00", "--elide=2")[0].decode(), """\
83            # array(3)
   43         #   bytes(3)
      6162... #     "ab..." /3 bytes/
   f8 00      #   unassigned, simple(0)
   # truncated
""")
    same("a string that is not whole", dump("82 01 43 6162", "--elide=0")[0],
         b"82    # array(2)\n   01 #   unsigned(1)\n   # truncated\n   436162\n")
    same("names", dump("d2 84 43 a10126 a1 05 1c")[0].decode(), """\
d2              # /COSE_Sign1/ tag(18)
   84           #   array(4)
      43        #     /protected/ bytes(3)
         a10126 #       "\\xa1\\x01&"
      a1        #     /unprotected/ map(1)
         05     #       /IV/ unsigned(5)
         # malformed: 1c: lengths 28 to 30 are reserved
         1c
""")
    same("names, and items in byte strings", dump("d2 84 43 a10126 a0", "-e")[0].decode(), """\
d2             # /COSE_Sign1/ tag(18)
   84          #   array(4)
      43       #     /protected/ bytes(3)
         a1    #       map(1)
            01 #         /alg/ unsigned(1)
            26 #         negative(-7) /ES256/
      a0       #     /unprotected/ map(0)
      # truncated
""")
    same("by a type", dump("a2 01 26 05", "--as=COSE_Key")[0].decode(), """\
a2    # /COSE_Key/ map(2)
   01 #   /kty/ unsigned(1)
   26 #   negative(-7)
   05 #   /Base IV/ unsigned(5)
   # truncated
""")
    same("no names", dump("d2 84 40", "--no-names")[0],
         b"d2       # tag(18)\n   84    #   array(4)\n      40 #     bytes(0)\n         #       \"\"\n      # truncated\n")


def dumps(run, same):
    """Items in byte strings, in dumps."""
    def dump(digits, *words):
        return run(*words, "-t", "hex", "-f", "hex", "-x", digits)[0].decode()

    same("a map", dump("43a10126", "-e"), """\
43       # bytes(3)
   a1    #   map(1)
      01 #     unsigned(1)
      26 #     negative(-7)
""")
    same("strings in each other", dump("458143a10126 4180", "-e"), """\
45             # bytes(5)
   81          #   array(1)
      43       #     bytes(3)
         a1    #       map(1)
            01 #         unsigned(1)
            26 #         negative(-7)
41    # bytes(1)
   80 #   array(0)
""")
    for digits in ("44c14101f5", "424180", "4100", "40", "d81843a10126", "d83f43a10126", "c24180", "d8404180",
                   "5f43a10126ff"):
        same(f"{digits} as it is", dump(digits, "-e"), dump(digits))


def check(run, in_terminal, same, examples):
    """All of them; without the sequences each example is the same text in each form, and no line leaves one open."""
    colors(run, same)
    terminals(in_terminal, run, same)
    marks(in_terminal, run, same)
    elided(run, same)
    elided_dumps(run, same)
    widthless(run, same)
    spelled(run, same)
    partial_dumps(run, same)
    dumps(run, same)
    for name in sorted(os.listdir(examples)):
        if not name.endswith((".hex", ".cbor")):
            continue
        dump = run("-e", "-t", "hex", f"{examples}/{name}")[0]
        same(f"the dump of {name} is read back", run("-f", "hex", "-t", "bytes", data=dump),
             run("-t", "bytes", f"{examples}/{name}"))
        for words in (
                ["-t", "pretty"], ["-t", "diag"], ["-t", "hex"], ["-t", "paths"], ["-e"], ["--widths"],
                ["--no-widths"], ["--elide=8"],
                ["-e", "-t", "hex"]):
            plain = run(*words, f"{examples}/{name}")[0]
            shown = run(*words, "--color=always", f"{examples}/{name}")[0]
            same(f"{name} {words} without colours", SGR.sub(b"", shown), plain)
            same(f"{name} {words} has colours", shown != plain, True)
            open_lines = [line for line in shown.splitlines() if not ENDED.fullmatch(line)]
            same(f"{name} {words} ends each colour in its line", open_lines, [])
