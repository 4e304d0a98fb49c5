"""What `checks/cborcat` checks of arguments, and of the help, the manual page and the completion that name them."""

import os
import re

TOP = os.path.dirname(os.path.dirname(os.path.dirname(os.path.abspath(__file__))))

# Words, the last of which is no file, and what is asked then.
MEANT_AS_VALUES = {
    ("--check", "core"): "  --check=core? A value of --check follows the =\n",
    ("-c", "dcbor"): "  --check=dcbor? A value of --check follows the =\n",
    ("--elide", "10"): "  --elide=10? A value of --elide follows the =\n",
    ("--check=core", "dcbor"): "",
    ("--check", "cores"): "",
    ("--elide", "10a"): "",
    ("core",): "",
}

FORMS = "pretty, diag, edn, hex, html, digits, bytes, cbor, json, raw, paths, stats, or index=SIZE"
NAMES = "output with names (pretty, hex, html or paths without --no-notes) or a path (-p, --set or --delete)"
RULES = "rfc8949, valid, preferred, core, length-first, ctap2 or dcbor"

# The units of sizes, without regard to case: as GNU's dd, head and split have them.
UNITS = {"k": 1024, "K": 1024, "KiB": 1024, "kib": 1024, "kB": 1000, "KB": 1000, "m": 1048576, "M": 1048576,
         "MiB": 1048576, "MB": 1000000, "g": 1073741824, "G": 1073741824, "GiB": 1073741824, "GB": 1000000000}

# Wrong arguments, and what is said of them.
WRONG = {
    ("--nothing",): 'there is no option "--nothing": cborcat --help lists all options',
    ("--it's",): 'there is no option "--it\'s": cborcat --help lists all options',
    ("--colour=never",): 'there is no option "--colour": did you mean --color?',
    ("-Z",): 'there is no option "-Z": cborcat --help lists all options',
    ("-x",): "--text needs a value: cborcat --help says which",
    ("--from", "--one"): "--from needs a value: cborcat --help says which",
    ("--one=1",): "--one takes no value: leave it out",
    ("-1", "--one"): "--one is given twice: give it once",
    ("--check", "-c"): "--check is given twice: give it once",
    ("-f", "xml"): '--from takes bytes, cbor, hex, diag, edn, json or base64, and not "xml"',
    ("--from=",): '--from takes bytes, cbor, hex, diag, edn, json or base64, and not ""',
    ("-t", "xml"): f'--to takes {FORMS}, and not "xml"',
    ("--check=cores",): f'--check takes {RULES}, and not "cores"',
    ("--encode=valid",): '--encode takes preferred, core, length-first, ctap2 or dcbor, and not "valid"',
    ("--color=no",): '--color takes auto, always or never, and not "no"',
    ("--width=19",): '--width takes a number of columns from 20 to 1000, and not "19"',
    ("--width=1001",): '--width takes a number of columns from 20 to 1000, and not "1001"',
    ("-x", "01", "file"): "--text and a FILE cannot be used together: leave one of them out",
    ("--strict",): "--strict is for -t json",
    ("--exact",): "--exact is for --diff",
    ("--rule=a",): "--rule is for --cddl",
    ("--places", "-t", "hex"): "--places is for -t paths",
    ("--width=30", "-t", "html", "-c"): "--to and --check cannot be used together: leave one of them out",
    ("-t", "digits", "-e"): "--embedded and -t digits cannot be used together: leave one of them out",
    ("-c", "-e"): "--embedded and --check cannot be used together: leave one of them out",
    ("-c", "-o", "it"): "--output and --check cannot be used together: leave one of them out",
    ("--no-names", "-t", "json"): "--no-names is for " + NAMES,
    ("--as=CWT", "--no-notes"): "--as is for " + NAMES,
    ("--as=CWT", "--no-names"): "--no-names and --as cannot be used together: leave one of them out",
    ("--diff", "1"): "--diff compares two files",
    ("-t", "html", "1", "2"): "-t html makes one page, of one input",
    ("--diff", "--one", "1", "2"): "--one and --diff cannot be used together: leave one of them out",
}


def check(run, shell, same, examples):
    """All of it: run and shell run the program, and same compares."""
    words(run, same, examples)
    numbers(run, same, examples)
    text = run("--help")[0].decode()
    same("lines of the help past 80 columns", [it for it in text.splitlines() if len(it) > 80], [])
    shown_commands(shell, same, text)
    forms(run, same, text)
    options(same, text)


def text_of(name):
    with open(f"{TOP}/{name}", encoding="utf-8") as it:
        return it.read()


def words(run, same, examples):
    """Help, version, and wrong arguments."""
    out, error, status = run("--help")
    same("help", (out[:44], out.endswith(b"git config diff.cbor.textconv cborcat\n"), error, status),
         (b"Usage: cborcat [OPTION]... [FILE]...\nShows C", True, "", 0))
    same("-h", run("-h")[0], out)
    same("version", run("-V"), (f"cborcat {text_of('VERSION')}".encode(), "", 0))
    for wrong, said in WRONG.items():
        same(f"{wrong}", run(*wrong), (b"", f"cborcat: {said}\n", 2))
    for given, said in MEANT_AS_VALUES.items():
        lines, status = run(*given, cwd=examples)[1:]
        same(f"{given}", (lines.partition("\n")[2], "No such file" in lines, status), (said, True, 2))


def numbers(run, same, examples):
    """Numbers of bytes, in base 10 and in base 16."""
    token = f"{examples}/cwt-claims.hex"
    same("--at in base 16", run("--at=0x3e", token), run("--at=62", token))
    same("--offset in base 16", run("--offset=0xA", "-t", "diag", data=b"\xff" * 10 + b"\x05"), (b"5\n", "", 0))
    long = b"\x9f" + b"\x01" * 300000 + b"\xff"
    same("--limit in base 16", [run(f"--limit={it}", data=long)[2] for it in ("0x186a0", "0x100000")], [1, 0])
    for unit, size in UNITS.items():
        same(f"3{unit}", run(f"--at=3{unit}", data=b"\x00")[1],
             f"cborcat: standard input: byte {3 * size}: no item has this byte; 1 bytes came\n")
    many = b"\x00" * 2048
    same("--offset=1k", run("--offset=1k", "-t", "stats", data=many)[0].splitlines()[0], b"1024 items, 1024 bytes")
    same("index=1KiB", run("-t", "index=1KiB", data=many)[0], b"0 1024 1024\n1024 1024 1024\n")
    same("--limit=1kB", run("--limit=1kB", data=b"\x9f" + many)[1],
         "cborcat: standard input: byte 0: the item is longer than 1000 bytes (--limit)\n")
    same("--elide=1k", run("--elide=1k", "-f", "bytes", "-t", "diag", data=b"\x59\x04\x01" + bytes(1025))[0].count(b"00"), 1024)
    same("--width=0x14", run("--width=0x14", "-x", "[10000, 20000, 30000]"), run("--width=20", "-x", "[10000, 20000, 30000]"))
    for wrong in ("", "0x", "0xg", "5b", "0x5b ", "1.5", "-1", "+1", "k", "1 k", "1ki", "1kk", "0x1k", "1t",
                  "0x10000000000000000", "18446744073709551616", "18014398509481984k"):
        for option in ("at", "offset", "limit", "elide"):
            same(f"--{option}={wrong}", run(f"--{option}={wrong}", "-x", "01"), (
                b"", f'cborcat: --{option} takes a number of bytes, as 91, 0x5b or 64MiB, and not "{wrong}"\n', 2))


def shown_commands(shell, same, text):
    """The commands at the beginning of the help print what it shows, and are at the beginning of the manual page."""
    block = text.split("\n\n")[1]
    shown = [it.replace("\n  ", "\n") for it in block.removeprefix("  $ ").split("\n  $ ")]
    same("five commands", len(shown), 5)
    for it in shown:
        command, _, printed = it.partition("\n")
        out, error, _ = shell(command)
        same(f"{command} in the help", out.decode() + error, printed + "\n")
    page = text_of("share/man/cborcat.1").replace("\\-", "-").replace("\\(aq", "'")
    at = page.find("\n".join(f"$ {it}" for it in shown))
    same("the manual page begins with them", 0 < at < page.find(".SH OPTIONS"), True)


def forms(run, same, text):
    """Each form stands in the help once, and is one of an input and of the output as it says there."""
    block = text.partition("Forms, ")[2].partition("\n\n")[0]
    rows = re.findall(r"^  ([a-z0-9]+)(?:=SIZE)?(?:, ([a-z]+))? +(io|i|o) ", block, re.MULTILINE)
    same("how many forms", len(rows), 12)
    for name, other, ways in rows:
        for word in filter(None, (name, other)):
            same(f"-f {word}", run("-f", word, "-t", "digits")[2], 0 if "i" in ways else 2)
            asked = "index=1" if word == "index" else word
            same(f"-t {word}", run("-t", asked)[2], 0 if "o" in ways else 2)
    page = text_of("share/man/cborcat.1").partition(".SH FORMS")[2].partition(".SH ")[0]
    listed = re.findall(r"[a-z0-9]+", " ".join(re.findall(r"^\.TP.*\n\.B[RI]? (.*)$", page, re.MULTILINE)))
    wanted = [word for name, other, _ in rows for word in (name, other) if word]
    same("the forms of the manual page", sorted(listed), sorted(wanted))


def options(same, text):
    """Each option of the help is in the manual page, in the completions and in the check of pairs."""
    page = text_of("share/man/cborcat.1").replace("\\-", "-")
    bash, zsh, fish = (text_of(f"share/completions/{it}") for it in ("cborcat", "_cborcat", "cborcat.fish"))
    bash, pairs = re.sub(r"[\s\"]+", " ", bash), text_of("checks/pairs")
    for line in text.splitlines():
        for word in re.split(r"[ ,=\[]+", line):
            if line.startswith("  ") and word.startswith("--"):
                same(f"{word} in the manual page", word in page, True)
                same(f"{word} in bash and zsh", (f" {word} " in bash, word in zsh), (True, True))
                same(f"{word} in fish", f"-l {word[2:]} " in fish, True)
                same(f"{word} in checks/pairs", f'"{word}' in pairs or word in ("--help", "--version", "--to"), True)
