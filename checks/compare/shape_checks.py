"""What `checks/cborcat` checks of the line that says what an item looks like."""

# What an item without a tag looks like: RFC 9052, sections 2, 5 and 6, RFC 8392, section 3.1.
SHAPES = [
    ("[h'a10126', {4: h'3131'}, h'00', h'01']", "COSE_Sign1"),
    ("[<<{1: -7}>>, {}, null, h'01']", "COSE_Sign1"),
    ("[<<{1: 5}>>, {}, h'00', h'01']", "COSE_Mac0"),
    ("[<<{1: 1}>>, {5: h'00'}, h'01']", "COSE_Encrypt0"),
    ("[<<{1: 1}>>, {5: h'00'}, null]", "COSE_Encrypt0"),
    ("{1: 2, -1: 1, -2: h'00', -3: h'01'}", "COSE_Key"),
    ("{-1: h'00', 1: 4}", "COSE_Key"),
    ('{1: "a", 4: 1444064944}', "CWT"),
    ('{7: h\'00\', 3: ["a"], 38: "b", -70000: 1}', "CWT"),
    ('{2: "a", 6: 1444064944.5}', "CWT"),
    ("18([<<{1: -7}>>, {}, h'00', h'01'])", ""),
    ("[h'01', {}, h'00', h'01']", ""),
    ("[h'a0a0', {}, h'00', h'01']", ""),
    ("[h'', {}, h'00', h'01']", ""),
    ("[<<{}>>, [], h'00', h'01']", ""),
    ("[<<{}>>, {}, 1, h'01']", ""),
    ("[<<{}>>, {}, h'00', [1]]", ""),
    ("[<<{}>>, {}]", ""),
    ("[<<{}>>, {}, h'00', h'01', h'02']", ""),
    ("{1: 2}", ""),
    ("{1: 9, -1: 1}", ""),
    ('{1: "a", -1: 1}', ""),
    ('{1: "a", 8: {}}', ""),
    ('{1: "a", 2: 3}', ""),
    ('{1: "a", 2: "b", "c": 3}', ""),
    ("{4: 1, 6: 2}", ""),
    ("[]", ""),
    ("{}", ""),
]


def check(run, in_terminal, same):
    """In a terminal a line says what an item without a tag looks like, once for each input, if names are shown."""
    def looks(*words):
        lines = [it for it in in_terminal([*words])[0].splitlines() if "looks like" in it]
        return [it.removeprefix("cborcat: -x: this looks like ") for it in lines]

    for text, word in SHAPES:
        same(f"what {text} looks like", looks("-f", "diag", "-x", text), [f"{word}: --as={word}"] if word else [])
    text = "{1: 2, -1: 1}, {1: 2, -1: 1}"
    same("once", looks("-f", "diag", "-x", text), ["COSE_Key: --as=COSE_Key"])
    for words in (["-t", "paths"], ["--at=1"]):
        same(f"with {words}", looks(*words, "-f", "diag", "-x", text), ["COSE_Key: --as=COSE_Key"])
    same("in a dump", looks("-t", "hex", "-f", "diag", "-x", text), ["COSE_Key: --as=COSE_Key"])
    same("not in a pipe", run("-f", "diag", "-x", text)[1], "")
    for words in (["--as=COSE_Key"], ["--no-names"], ["--no-notes"], ["-c"], ["-t", "diag"], ["-t", "json"], ["-p", "1"]):
        same(f"not with {words}", looks(*words, "-f", "diag", "-x", text), [])
