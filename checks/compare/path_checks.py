"""What `checks/cborcat` checks of paths beside its own rows: where the steps lead in items made by a seed, against the
items of `cases.py`, and what is said where a path leads nowhere."""
import random

from bytes_form import to_bytes
from cases import any_item
from item import Array, Bytes, Integer, Map, Tagged
from path_form import Place, next_items, untagged

KEY = ("a50102032620012158" "20143329cce7868e416927599cf65a34f3ce2ffda55a7eca69ed8919a394d42f0f"
       "225820" "60f7f1a780d8a783bfb7a2dd6b2796e8128dbbcef9d3d168db9529971a36e7b9")


def check(run, same, examples):
    """All of it: run runs the program, and same compares."""
    steps_at(run, same, examples)
    each_member(run, same)
    keys_in_notation(run, same)
    inside_strings(run, same, examples)
    nowhere(run, same)
    in_shown_strings(run, same, examples)
    by_names(run, same, examples)
    by_number(run, same)
    any_paths(run, same)


def steps_at(run, same, examples):
    """The item at a byte of a byte string, whatever follows it."""
    webauthn = f"{examples}/webauthn.hex"
    same("a key in authenticator data", run("-p", "authData/@71", "-t", "digits", webauthn),
         (f"{KEY}\n".encode(), "", 0))
    same("the key by its name", run("-p", "authData/credentialPublicKey", "-t", "digits", webauthn),
         (f"{KEY}\n".encode(), "", 0))
    same("and in it", run("-p", "authData/credentialPublicKey/-1", "-t", "diag", webauthn), (b"1\n", "", 0))
    said = f"cborcat: {webauthn}: authData/extensions: "
    out, error, status = run("-p", "authData/extensions", webauthn)
    same("no extensions", (out, error.startswith(said), status), (b"", True, 1))
    same("and in that", run("-p", "authData/@71/-1", "-t", "diag", webauthn), (b"1\n", "", 0))
    for path, wanted in (("@0", b"1\n"), ("@1", b"[2]\n"), ("@01", b"[2]\n"), ("@2", b"2\n"), ("@1/0", b"2\n")):
        same(path, run("-p", path, "-t", "diag", "-f", "hex", "-x", "44 01 81 02 ff"), (wanted, "", 0))
    same("a text of @ and digits", run("-p", '"@1"', "-t", "diag", "-x", '{"@1": 3}'), (b"3\n", "", 0))
    same("a text that begins with @", run("-p", "@a", "-t", "diag", "-x", '{"@a": 3}'), (b"3\n", "", 0))


def each_member(run, same):
    """Each member, in order."""
    rows = [
        ("*", '[1, "a", [2]]', b'1\n"a"\n[2]\n'),
        ("*", '{"b": 1, 2: h\'03\', "a": {}}', b"1\nh'03'\n{}\n"),
        ("*", "1([_ 5, 6(7)])", b"5\n6(7)\n"),
        ("*/*", "[[1, 2], [], [3]]", b"1\n2\n3\n"),
        ("*/id", '[{"id": 1}, {"x": 2}, 5, {"id": 3}]', b"1\n3\n"),
        ("m/*/0", '{"m": [[1, 2], [3]]}', b"1\n3\n"),
        ("*/@1", "[h'ff07', h'ff', h'ff8108']", b"7\n[8]\n"),
        ('"*"', '{"*": 1, "a": 2}', b"1\n"),
    ]
    for path, text, wanted in rows:
        same(f"{path} of {text}", run("-p", path, "-t", "diag", "-f", "diag", "-x", text), (wanted, "", 0))
    same("as JSON", run("-p", "*", "-t", "json", "-f", "diag", "-x", "[1, [2]]"), (b"1\n[2]\n", "", 0))
    same("as contents", run("-p", "*", "-t", "raw", "-f", "diag", "-x", '["a", h\'62\']'), (b"ab", "", 0))
    same("as bytes", run("-p", "*", "-t", "bytes", "-f", "diag", "-x", '[1, "a"]'), (b"\x01\x61a", "", 0))
    same("as dumps", run("-p", "*", "-t", "hex", "-f", "diag", "-x", "[1, 2]"),
         (b"01 # unsigned(1)\n02 # unsigned(2)\n", "", 0))
    log = b"\x81\xa1\x01\x02\x80\x81\x03"
    same("of one item after the other", run("-p", "*", "-t", "diag", "-f", "bytes", data=log),
         (b"{1: 2}\n3\n", "cborcat: standard input: *: the array has no members\n", 1))
    same("of one item alone", run("-1", "-p", "*", "-t", "diag", "-f", "bytes", data=b"\x82\x01\x02"),
         (b"1\n2\n", "", 0))


def keys_in_notation(run, same):
    """Keys of all kinds in one map: each line of `-t paths` has the path that leads to its value."""
    keys = [
        ("1", "01"), ("-1", "20"), ("a", "6161"), ('"1"', "6131"), ("h'01'", "4101"), ("1.5", "f93e00"),
        ("2.5_3", "fb4004000000000000"), ("true", "f5"), ("simple(16)", "f0"), ("[1]", "8101"), ("[2_0]", "811802"),
        ("[_ 1]", "9f01ff"), ('["a/b", {}]', "8263612f62a0"), ("{1: 2}", "a10102"), ("1(0)", "c100"),
        ("24(0)", "d81800"), ("24_1(0)", "d9001800"), ("24(<<256>>)", "d81843190100"), ("(_ h'01')", "5f4101ff"),
        ("2(h'010000000000000000')", "c249010000000000000000"), ('32("a:")', "d82062613a"),
    ]
    digits = f"b5{''.join(f'{key}{place:02x}' for place, (_, key) in enumerate(keys))}"
    out, said, status = run("-t", "paths", "-f", "hex", "-x", digits)
    same("the paths of all keys", (out.decode().splitlines(), said, status),
         ([f"{path}  {place}" for place, (path, _) in enumerate(keys)], "", 0))
    for place, (path, _) in enumerate(keys):
        same(f"the value of {path}", run("-p", path, "-t", "diag", "-f", "hex", "-x", digits),
             (f"{place}\n".encode(), "", 0))
    same("a number of another width in an array", run("-p", "[1]", "-t", "diag", "-f", "hex", "-x", "a1 811801 05"),
         (b"", "cborcat: -x: [1]: no such key; the map has [1_0]\n", 1))


# The lines of a signed token (RFC 8392, A.3) by the names of COSE, by -e, and by tags alone.
BY_NAMES = ["0/@/1", "1/4", *(f"2/@/{key}" for key in range(1, 8)), "3"]
BY_TAGS = ["0", "1/4", "2", "3"]


def inside_strings(run, same, examples):
    """Lines of items in byte strings that are shown as items: each path leads to the value of its line."""
    token, webauthn, log = (f"{examples}/{name}" for name in ("cwt-signed.hex", "webauthn.hex", "log.cbor"))
    for words, wanted in (([], BY_NAMES), (["-e"], BY_NAMES), (["--no-names"], BY_TAGS), (["--no-notes"], BY_TAGS),
                          (["--no-names", "-e"], BY_NAMES), (["--no-notes", "-e"], BY_NAMES)):
        lines = run("-t", "paths", *words, token)[0].decode().splitlines()
        same(f"the paths of a token with {words}", [line.split("  ", 1)[0] for line in lines], wanted)
    texts = ["<<[1, {'a': <<2>>}]>>", "24(<<<<[5]>>>>)", "63(<<1, [2], \"a\">>)", "63(<<>>)", "[24(<<24(<<[7]>>)>>)]",
             "{24(<<5>>): 24(<<5>>)}", "2(h'80')", "24(h'')", "[1, 63(<<63(<<0>>), {\"k\": 24(<<-1>>)}>>)]"]
    inputs = [(["-f", "diag", "-x", text], words) for text in texts for words in ([], ["-e"])]
    inputs += [([file], words) for file in (token, webauthn) for words in ([], ["-e"])]
    inputs += [(["-f", "hex", "-x", "8443a10126a04043010203"], words) for words in ([], ["--as=COSE_Sign1"])]
    for given, words in inputs:
        lines = run("-t", "paths", *words, *given)[0].decode().splitlines()
        same(f"some paths of {given} with {words}", lines != [], True)
        for line in lines:
            path, text = line.split("  ", 1)
            how = [word for word in words if word == "-e"]
            same(f"{path} of {given} with {words}", run("-t", "diag", *how, "-p", path, *given),
                 (f"{text}\n".encode(), "", 0))
    same("the type that is asked for", run("-t", "paths", "--as=COSE_Sign1", "-f", "hex", "-x", "8443a10126a04043010203"),
         (b"0/@/1  -7\n1  {}\n2  h''\n3  h'010203'\n", "", 0))
    for text, wanted in (
        ("24(<<[1, 2]>>)", "@/0  1\n@/1  2\n"),
        ("63(<<1, [2]>>)", "@0  1\n@1/0  2\n"),
        ("24(<<256>>)", "@  256\n"),
        ("63(<<>>)", "63(<<>>)"),
        ("<<[1]>>", "/  h'8101'\n"),
        ("24(<<<<[5]>>>>)", "@  h'8105'\n"),
        ("24(h'81f800')", "24(h'81f800')"),
        ("63(h'05f818')", "63(h'05f818')"),
    ):
        wanted = wanted if wanted.endswith("\n") else f"/  {wanted}\n"
        same(f"the lines of {text}", run("-t", "paths", "-f", "diag", "-x", text), (wanted.encode(), "", 0))
    for digits, wanted in (("d9126744a101f818", "4711(h'a101f818')"), ("c243820102", "2(h'820102')"),
                           ("d9126744a101f820", None)):
        wanted = f"/  {wanted}\n" if wanted else "@/1  simple(32)\n"
        got = run("-e", "-t", "paths", "-f", "hex", "-x", digits)
        same(f"the lines of {digits} with -e", got, (wanted.encode(), "", 0))
    items = run("-t", "paths", log)[0].decode().splitlines()
    same("lines of later items", [line.partition(":")[0] for line in items if line[:1].isdigit()],
         ["1"] * 3 + ["2"] * 3 + ["3"] * 2)
    same("the second item", run("-t", "paths", "-f", "hex", "-x", "01 8102 d8184103"),
         (b"/  1\n1:0  2\n2:@  3\n", "", 0))
    for byte, wanted in ((2, "0"), (3, "0/@"), (4, "0/@, in a key"), (5, "0/@/1"), (6, "1")):
        line = run(f"--at={byte}", "-f", "hex", "-x", "d28443a10126a04043010203")[0].decode().splitlines()[0]
        same(f"--at={byte} by names", line, f"path: {wanted}")


def nowhere(run, same):
    """What is said where a path leads nowhere."""
    rows = [
        ("*", "[]", "*: the array has no members"),
        ("a/*", '{"a": {}}', "a/*: the map at a has no members"),
        ("*", "5", "*: no array or map is there"),
        ("0/*", "[5]", "0/*: no array or map is at 0"),
        ("*/*/x", '[1, [{"y": 1}, {"z": 1}]]', '*/*/x: no such key; the map at */* has "y"'),
        ("0/@", "[5]", "0/@: no bytes are at 0"),
        ("@", "5", "@: no bytes are there"),
        ("@", "h'0102'", "@: the bytes are not one item"),
        ("@", "(_ h'01')", "@: the bytes are of indefinite length"),
        ("@0", "(_ h'01')", "@0: the bytes are of indefinite length"),
        ("@2", "h'0102'", "@2: no item begins at that byte of the 2 bytes"),
        ("a/@0", '{"a": h\'82\'}', "a/@0: no item begins at that byte of the 1 byte at a"),
        ("@0", "h'1f'", "@0: no item begins at that byte of the 1 byte"),
        ("@18446744073709551616", "h'01'", "@18446744073709551616: no item begins at that byte of the 1 byte"),
        ("1", "5", "1: no array or map is there"),
        ("3", "[5]", "3: no such index; the array has 1 item"),
        ("3", "[5, 6]", "3: no such index; the array has 2 items"),
        ("a//b", '{"a": {"c": 1}}', 'a//b: no such key; the map at a has "c"'),
        ("/a", '{"c": 1}', '/a: no such key; the map has "c"'),
        ("//a//b/c/", '{"a": {"b": 5}}', "//a//b/c: no array or map is at //a//b"),
    ]
    for path, text, said in rows:
        same(f"{path} of {text}", run("-p", path, "-t", "diag", "-f", "diag", "-x", text),
             (b"", f"cborcat: -x: {said}\n", 1))


def in_shown_strings(run, same, examples):
    """Byte strings that are shown as the item in them need no `@`."""
    token = f"{examples}/cwt-signed.hex"
    same("by a name", run("-p", "2/1", "-t", "diag", token), (b'"coap://as.example.com"\n', "", 0))
    same("without names", run("--no-names", "-p", "2/1", "-t", "diag", token)[::2], (b"", 1))
    rows = [
        ([], "a/0", "a1 6161 d818 42 8105", b"5\n"),
        ([], "a/@/0", "a1 6161 d818 42 8105", b"5\n"),
        ([], "0", "d818 45 d818 42 8105", b"5\n"),
        ([], "*", "d818 43 820506", b"5\n6\n"),
        ([], "0", "d83f 43 810506", b"5\n"),
        ([], "@", "d83f 43 810506", b"[5]\n"),
        ([], "@2", "d83f 43 810506", b"6\n"),
        (["-e"], "0/1", "81 43 a10105", b"5\n"),
        (["-e"], "0/@/1", "81 43 a10105", b"5\n"),
        (["-e"], "*/0", "82 c2 43 820102 43 820102", b"1\n"),
        (["-e"], "*/1", "82 d91267 44 a101f818 43 a10105", b"5\n"),
        (["-e"], "*/@/1", "82 d91267 44 a101f818 43 a10105", b"simple(24)\n5\n"),
        ([], "*/0", "83 d818 43 81f800 d818 42 8105 d83f 43 05f800", b"5\n"),
    ]
    for words, path, digits, wanted in rows:
        same(f"{path} of {digits}", run(*words, "-p", path, "-t", "diag", "-f", "hex", "-x", digits), (wanted, "", 0))
    said = [
        ("0/1", "81 43 a10105", "0/1: a byte string is at 0; 0/@ is the item in it"),
        ("1", "43 a10105", "1: a byte string is there; @ is the item in it"),
        ("0/*", "81 43 a10105", "0/*: a byte string is at 0; 0/@ is the item in it"),
        ("0/1", "81 43 a101ff", "0/1: no array or map is at 0"),
        ("a/2", "a1 6161 d818 43 a10105", "a/2: no such key; the map at a/@ has 1"),
        ("0", "d818 43 81f800", "0: a byte string is there; @ is the item in it"),
        ("0", "d83f 43 8105ff", "0: no array or map is there"),
    ]
    for path, digits, words in said:
        same(f"{path} of {digits}", run("-p", path, "-t", "diag", "-f", "hex", "-x", digits),
             (b"", f"cborcat: -x: {words}\n", 1))
    for path, digits in (("0/0", "81 c2 43 820102"), ("0/1", "81 d91267 44 a101f818"), ("0/0", "81 d825 42 8105")):
        same(f"-e: {path} of {digits}", run("-e", "-p", path, "-t", "diag", "-f", "hex", "-x", digits),
             (b"", f"cborcat: -x: {path}: a byte string is at 0; 0/@ is the item in it\n", 1))


def by_names(run, same, examples):
    """A step may be a name that is shown, but a key and an index win."""
    token = f"{examples}/cwt-signed.hex"
    for form, wanted in (("diag", b'"coap://as.example.com"\n'), ("raw", b"coap://as.example.com"),
                         ("json", b'"coap://as.example.com"\n')):
        same(f"iss as {form}", run("-p", "payload/iss", "-t", form, token), (wanted, "", 0))
    same("of a type", run("--as=COSE_Sign1", "-p", "payload", "-t", "diag", "-f", "hex", "-x", "84 40 a0 43 a10105 40"),
         (b"h'a10105'\n", "", 0))
    same("a key wins", run("--as=COSE_Key", "-p", "kty", "-t", "diag", "-f", "hex", "-x", "a2 01 04 636b7479 05"),
         (b"5\n", "", 0))
    same("without names", run("--no-names", "-p", "payload", "-t", "diag", token)[::2], (b"", 1))
    closed = ("-f", "hex", "-x", "d2 84 44 a101f800 a0 40 40")
    same("a header that is shown as bytes", run("-p", "protected/alg", "-t", "diag", *closed), (
        b"", "cborcat: -x: protected/alg: a byte string is at 0; 0/@ is the item in it\n", 1))
    same("and gone into by @", run("-p", "protected/@/alg", "-t", "digits", *closed), (b"f800\n", "", 0))
    same("and its line", run("-t", "paths", *closed)[0].splitlines()[0], b"0  h'a101f800'")
    same("no such name", run("-p", "payload/isss", token), (
        b"", f"cborcat: {token}: payload/isss: no such key; the map at 2/@ has iss, sub, aud, exp, nbf, iat, cti\n", 1))
    same("no such member", run("-p", "pay", token), (
        b"", f"cborcat: {token}: pay: no such index; the array has 4 items: "
        "protected, unprotected, payload, signature\n", 1))


def by_number(run, same):
    """The number of an item before a path."""
    log = ("-t", "diag", "-f", "hex", "-x", "81 05 a1 6161 07 f5")
    same("the first", run("-p", "0:0", *log), (b"5\n", "", 0))
    same("the second", run("-p", "1:a", *log), (b"7\n", "", 0))
    same("all of the last", run("-p", "2:", *log), (b"true\n", "", 0))
    same("without such a part", run("-p", "1:b", *log), (b"", 'cborcat: -x: b: no such key; the map has "a"\n', 1))
    same("too few", run("-p", "3:a", *log), (b"", "cborcat: -x: 3: no such item; 3 items came, from 0 on\n", 1))
    same("a key with quotes", run("-p", '"3:a"', "-t", "diag", "-x", '{"3:a": 4}'), (b"4\n", "", 0))
    same("as JSON", run("-p", "1:", "-t", "json", *log[2:]), (b'{"a": 7}\n', "", 0))
    same("as a dump", run("-p", "1:", "-t", "hex", "-x", "1 2 3"), (b"02 # unsigned(2)\n", "", 0))
    same("a fault behind it", run("-p", "0:", "-t", "diag", "-f", "hex", "-x", "01 1f")[::2], (b"1\n", 1))


def nested(chance, depth):
    """An item that often holds others where paths lead: in arrays, below small keys, in byte strings."""
    kind = chance.randrange(4 if depth > 1 else 5) if depth > 0 else 4
    if kind == 4:
        return any_item(chance, 4)
    members = tuple(nested(chance, depth - 1) for _ in range(chance.choice([0, 1, 1, 2, 3])))
    if kind == 0:
        return Array(members, chance.choice([None, 0, 2]))
    if kind == 1:
        return Map(tuple((Integer(chance.randrange(3), chance.choice([0, 1])), it) for it in members), None)
    if kind == 2:
        return Tagged(chance.randrange(1000, 2000), 2, nested(chance, depth - 1))
    before, after = b"\x00" * chance.randrange(2), b"\x00" * chance.randrange(2)
    return Bytes(before + b"".join(to_bytes(it) for it in members) + after, 4)


def any_step(chance, parts):
    """A step, mostly one that may lead somewhere from one of these."""
    steps = ["*", "@", "@0", "@1", "0", "1"]
    if parts and chance.random() < 0.8:
        part, _ = untagged(chance.choice(parts))
        steps = ["@", "@0", "@1"] if isinstance(part.item, Bytes) else ["*", "*", "0", "1"]
    return chance.choice(steps)


def any_paths(run, same):
    """Paths in items made by a seed: their parts, one after the other."""
    chance = random.Random(5)
    some = 0
    for _ in range(1000):
        item = nested(chance, 3)
        steps, parts = [], [Place(item)]
        for _ in range(chance.randrange(1, 4)):
            steps.append(any_step(chance, parts))
            parts = [found for part in parts for found in next_items(part, steps[-1])]
        wanted = b"".join(to_bytes(part.item) for part in parts)
        path = "/".join(steps)
        out, _, status = run("-f", "bytes", "-t", "bytes", "-p", path, data=to_bytes(item))
        same(f"{path} in {to_bytes(item).hex()}", (out, status), (wanted, 0 if parts else 1))
        some += len(parts) > 0
    same("many lead somewhere", some > 200, True)
