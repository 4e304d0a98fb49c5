"""What `checks/cborcat` checks of `--set` and `--delete`: rows worked out by hand, and items made by a seed, against the
items of `cases.py` with another part, which this encodes anew."""
import random
import re

from bytes_form import to_bytes
from cases import any_item
from edn_cases import strict
from item import Array, Integer, Map

# what is before and after the first two bytes of the hash in authenticator data
AUTHENTICATOR = re.compile("(.*686175746844617461(?:58..|59....))....(.*)")
WANTED = "cborcat: --set: expected a path, = and EDN, as in 1/exp=1700000000\n"


def check(run, same, examples):
    """All of it: run runs the program, and same compares."""
    set_parts(run, same)
    deleted(run, same)
    added(run, same)
    each(run, same)
    widths(run, same)
    in_strings(run, same, examples)
    sequences(run, same)
    kept(run, same)
    named(run, same, examples)
    in_forms(run, same)
    wrong(run, same)
    any_edits(run, same)


def hexed(run, same, rows):
    """Rows of words, an item in hex, and what becomes of it."""
    for words, digits, wanted in rows:
        got = run(*words, "-t", "digits", "-f", "hex", data=digits.encode())
        same(f"{words} of {digits[:200]}", got, (f"{wanted.replace(' ', '')}\n".encode(), "", 0))


def set_parts(run, same):
    """Other items in place of parts: all other bytes stay."""
    hexed(run, same, [
        (["--set", "1=5"], "82 01 02", "82 01 05"),
        (["--set=1=5"], "82 01 02", "82 01 05"),
        (["--set", '1="a=b"'], "82 01 02", "82 01 63613d62"),
        (["--set", '"a=b"=1'], "a1 63613d62 f5", "a1 63613d62 01"),
        (["--set", "a=-1"], "a1 6161 1805", "a1 6161 20"),
        (["--set", "-1=7"], "a1 20 00", "a1 20 07"),
        (["--set", "0/1/a=[]"], "81 82 01 bf 6161 02 ff", "81 82 01 bf 6161 80 ff"),
        (["--set", "a=5_1"], "a2 01 01 6161 02", "a2 01 01 6161 190005"),
        (["--set", "0=1.5"], "c1 81 c1 1a 00000001", "c1 81 f93e00"),
        (["--set", "1=2", "--set", "0=1", "--set", "1=3"], "82 05 06", "82 01 03"),
        (["--set", "a=[1]", "--set", "a/0=2"], "a1 6161 00", "a1 6161 81 02"),
    ])


def deleted(run, same):
    """Members that are dropped."""
    hexed(run, same, [
        (["--delete", "0"], "82 01 02", "81 02"),
        (["--delete", "1"], "82 01 02", "81 01"),
        (["--delete", "0"], "81 01", "80"),
        (["--delete", "a"], "a2 6161 01 02 03", "a1 02 03"),
        (["--delete", "2"], "a2 6161 01 02 03", "a1 6161 01"),
        (["--delete", "0"], "9f 01 02 ff", "9f 02 ff"),
        (["--delete", "1"], "bf 01 02 03 04 ff", "bf 03 04 ff"),
        (["--delete", "0/a"], "82 a1 6161 c1 02 03", "82 a0 03"),
        (["--delete", "1", "--delete", "1"], "83 01 02 03", "81 01"),
        (["--delete", "@0"], "c2 44 01 02 03 04", "c2 43 02 03 04"),
        (["-1", "--delete", "0:"], "01 02", "02"),
    ])
    same("no item is left", run("-1", "--delete", "0:", "-f", "hex", "-x", "01"),
         (b"", "cborcat: -x: no item is left after --delete, but -1 asks for one\n", 1))


def added(run, same):
    """A key that is not there, and the next index of an array."""
    hexed(run, same, [
        (["--set", "b=1"], "a1 6161 00", "a2 6161 00 6162 01"),
        (["--set", "5=1"], "a0", "a1 05 01"),
        (["--set", "5=1"], "bf ff", "bf 05 01 ff"),
        (["--set", "b=1"], "bf 6161 00 ff", "bf 6161 00 6162 01 ff"),
        (["--set", "0/b=1"], "82 c1 a0 03", "82 c1 a1 6162 01 03"),
        (["--set", "2=9"], "82 01 02", "83 01 02 09"),
        (["--set", "0=9"], "80", "81 09"),
        (["--set", "0=9"], "9f ff", "9f 09 ff"),
        (["--set", "2=9", "--set", "3=8"], "82 01 02", "84 01 02 09 08"),
        (["--set", "a={}", "--set", "a/b=1"], "a0", "a1 6161 a1 6162 01"),
        (["--delete", "a", "--set", "a=1"], "a2 6161 00 01 02", "a2 01 02 6161 01"),
    ])


def each(run, same):
    """Each member."""
    hexed(run, same, [
        (["--set", "*=0"], "83 01 6161 80", "83 00 00 00"),
        (["--set", "*=0"], "bf 01 02 03 04 ff", "bf 01 00 03 00 ff"),
        (["--delete", "*"], "83 01 6161 80", "80"),
        (["--delete", "*"], "9f 01 02 ff", "9f ff"),
        (["--delete", "*"], "b802 01 02 03 04", "b800"),
        (["--delete", "*/0"], "82 82 01 02 81 03", "82 81 02 80"),
        (["--delete", "*/a"], "83 a1 6161 01 05 a1 6162 02", "83 a0 05 a1 6162 02"),
        (["--set", "*/a=7"], "84 a1 6161 01 05 a1 6162 02 80", "84 a1 6161 07 05 a2 6162 02 6161 07 80"),
        (["--set", "*/@=0"], "82 d818 42 1805 d818 41 01", "82 d818 41 00 d818 41 00"),
    ])


def widths(run, same):
    """A count or a length keeps its width if it fits, and takes the next if not."""
    few, many = "01" * 23, "01" * 24
    hexed(run, same, [
        (["--set", "1=5"], "9802 01 02", "9802 01 05"),
        (["--delete", "1"], "9802 01 02", "9801 01"),
        (["--delete", "1"], "9b0000000000000002 01 02", "9b0000000000000001 01"),
        (["--delete", "0"], f"9818 {many}", f"9817 {few}"),
        (["--set", "23=1"], f"97 {few}", f"9818 {many}"),
        (["--set", "23=1"], f"990017 {few}", f"990018 {many}"),
        (["--set", "255=1"], f"98ff {'01' * 255}", f"990100 {'01' * 256}"),
        (["--set", "65535=1"], f"99ffff {'01' * 65535}", f"9a00010000 {'01' * 65536}"),
        (["--set", "23=1"], f"b7 {''.join(f'{key:02x}00' for key in range(23))}",
         f"b818 {''.join(f'{key:02x}00' for key in range(23))} 17 01"),
        (["--set", "@/0=1"], "d818 5802 8105", "d818 5802 8101"),
        (["--set", f"@/0=h'{'00' * 21}'"], "d818 42 8105", f"d818 57 81 55 {'00' * 21}"),
        (["--set", f"@/0=h'{'00' * 22}'"], "d818 42 8105", f"d818 5818 81 56 {'00' * 22}"),
        (["--set", f'@="{"a" * 252}"'], f"d818 58fc 78fa {'61' * 250}", f"d818 58fe 78fc {'61' * 252}"),
        (["--set", f'@="{"a" * 255}"'], f"d818 58fe 78fc {'61' * 252}", f"d818 590101 78ff {'61' * 255}"),
        # Both heads around get longer, and the earlier part is still where it is.
        (["--set", f"0/@/*=h'{'00' * 11}'"], "81 d818 43 820102", f"81 d818 5819 82 4b {'00' * 11} 4b {'00' * 11}"),
        (["--set", f"@/@/0=h'{'00' * 20}'"], "d818 45 d818 42 8105", f"d818 5819 d818 56 81 54 {'00' * 20}"),
    ])


def in_strings(run, same, examples):
    """In byte strings that are shown as the item in them, by tags, by names, by `-e` and by `@`."""
    uuid = "".join(f"{byte:02x}" for byte in range(1, 16))
    hexed(run, same, [
        (["--set", "0=6"], "d818 42 8105", "d818 42 8106"),
        (["--set", "@/0=1000"], "d818 42 8105", "d818 44 811903e8"),
        (["--set", "a=1000"], "d818 41 a0", "d818 46 a1 6161 1903e8"),
        (["--delete", "a/1"], "a1 6161 d818 43 820506", "a1 6161 d818 42 8105"),
        (["--set", "@0=[]"], "44 01 02 03 04", "44 80 02 03 04"),
        (["--set", "@2=500"], "44 01 02 03 04", "46 01 02 1901f4 04"),
        (["--set", "0=6"], "d83f 43 8105 07", "d83f 43 8106 07"),
        (["-e", "--set", "0/1=6"], "81 43 a10105", "81 43 a10106"),
        (["-e", "--set", "0/2=6"], "81 43 a10105", "81 45 a201050206"),
        (["--set", "0/@/2=6"], "81 41 a0", "81 43 a10206"),
        (["--set", "0/1=6", "--as=COSE_Sign1"], "84 43a10126 a0 40 40", "84 43a10106 a0 40 40"),
        # Big numbers, UUIDs and bytes that are not written back as they are stay, but for an `@`.
        (["-e", "--set", "*/1=9"], "82 c2 43 820102 43 820102", "82 c2 43 820102 43 820109"),
        (["-e", "--set", "*/0=5"], f"82 d825 50 8f{uuid} 42 8100", f"82 d825 50 8f{uuid} 42 8105"),
        (["-e", "--delete", "*/1"], "82 d91267 44 a101f818 43 a10102", "82 d91267 44 a101f818 41 a0"),
        (["-e", "--delete", "*/0"], "82 d840 42 8101 42 8101", "82 d840 42 8101 41 80"),
        (["--set", "*/0=5"], "82 d818 43 81f800 d818 42 8100", "82 d818 43 81f800 d818 42 8105"),
        (["--set", "*/0=5"], "82 d83f 43 8100ff d83f 43 810000", "82 d83f 43 8100ff d83f 43 810500"),
        (["--set", "0/@/0=5"], "81 c2 43 820102", "81 c2 43 820502"),
        (["--set", "@/0=5"], "d818 43 81f800", "d818 42 8105"),
    ])
    for words, digits in ((["--set", "a/1=9"], "a16161c243820102"), (["--set", "a/0=5"], f"a16161d825508f{uuid}"),
                          (["--delete", "a/1"], "a16161c243820102")):
        out, _, status = run("-e", *words, "-t", "digits", "-f", "hex", "-x", digits)
        same(f"{words} changes no {digits}", (out.decode().strip() in ("", digits), status), (True, 1))
    signed = f"{examples}/cose-sign1.hex"
    before = run("-t", "digits", signed)[0].decode()
    same("the algorithm by its name", run("--set", "protected/alg=-257", "-t", "digits", signed),
         (before.replace("43a10126", "45a101390100").encode(), "", 0))
    same("a header by its key", run("--set", 'protected/4="k"', "-t", "digits", signed),
         (before.replace("43a10126", "46a2012604616b").encode(), "", 0))
    same("without names", run("--no-names", "--set", "protected/alg=-257", "-t", "digits", signed)[::2],
         (before.encode(), 1))
    # The hash before the key looks like the head of a string that has the key.
    given = run("-t", "digits", f"{examples}/webauthn.hex")[0].decode().strip()
    hashed = AUTHENTICATOR.match(given)
    looks = f"{hashed[1]}58a0{hashed[2]}"
    wanted = looks.replace("a5010203262001", "a5010203262002") + "\n"
    for path in ("authData/credentialPublicKey/-1", "authData/@71/-1"):
        got = run("--set", f"{path}=2", "-t", "digits", "-f", "hex", data=looks.encode())
        same(f"{path} after such a hash", got, (wanted.encode(), "", 0))
    same("and shown", run("--set", "protected/alg=-8", "-p", "protected/alg", "-t", "diag", signed), (b"-8\n", "", 0))


def sequences(run, same):
    """Each item, or one by its number."""
    items = ("-t", "diag", "-f", "hex", "-x", "8101 8102 05")
    same("each item", run("--set", "0=7", "-t", "diag", "-f", "hex", "-x", "8101 8102"), (b"[7]\n[7]\n", "", 0))
    same("one", run("--set", "1:0=7", *items), (b"[1]\n[7]\n5\n", "", 0))
    same("all of one", run("--set", "1:=7", *items), (b"[1]\n7\n5\n", "", 0))
    same("one less", run("--delete", "1:", *items), (b"[1]\n5\n", "", 0))
    same("those that are left", run("--delete", "1:", "-p", "1:", *items), (b"5\n", "", 0))
    same("an item without the part", run("--set", "0=7", *items),
         (b"[7]\n[7]\n5\n", "cborcat: -x: 0: no array or map is there; item 2 stays as it is\n", 1))
    same("too few", run("--delete", "3:0", *items),
         (b"[1]\n[2]\n5\n", "cborcat: -x: 3: no such item; 3 items came, from 0 on\n", 1))
    same("in pieces", run("--set", "*=0", "-t", "diag", "-f", "bytes", data=b"\x9a\x00\x03\x00\x00" + b"\x01" * 196608)[0],
         f"[{', '.join(['0'] * 196608)}]\n".encode())
    same("a fault behind", run("--set", "0=1", "-t", "diag", "-f", "bytes", data=b"\x81\x05\xff"), (
        b"[1]\n", "cborcat: standard input: byte 2 (0x2) of the changed bytes: a break (ff), but no indefinite-length item "
        "is open\n    ff\n    ^^\n", 1))
    same("truncated", run("--set", "0=1", "-t", "diag", "-f", "hex", "-x", "8105 82 01")[::2], (b"[1]\n", 1))
    same("after an offset", run("--offset=1", "--set", "0=1", "-t", "diag", "-f", "hex", "-x", "ff 8105"),
         (b"[1]\n", "", 0))
    same("one item", run("-1", "--set", "0=1", "-t", "diag", "-f", "hex", "-x", "8105"), (b"[1]\n", "", 0))


def kept(run, same):
    """No item is left out: a change is made where it can be, and what cannot be changed stays as it is."""
    maps = ("-t", "diag", "-f", "diag", "-x", '{"a": 1}, {"b": 2}, 3')
    all_of = b'{"a": 1}\n{"b": 2}\n3\n'
    none = "b/c: none of the 3 items has such a part; nothing is deleted"
    rows = [
        # A part that some items have, and one that none has.
        (["--delete", "b"], b'{"a": 1}\n{}\n3\n', []),
        (["--delete", "b/c"], all_of, [none]),
        (["--delete", "b/c", "--delete", "a"], b'{}\n{"b": 2}\n3\n', [none]),
        (["--delete", "b/c", "--delete", "b/c"], all_of, [none, none]),
        (["--delete", "b", "--delete", "b"], b'{"a": 1}\n{}\n3\n',
         ["b: none of the 3 items has such a part; nothing is deleted"]),
        # Of an item by its number, the message says what is there.
        (["--delete", "0:b"], all_of, ['b: no such key; the map has "a"; nothing is deleted']),
        (["--delete", "1:b"], b'{"a": 1}\n{}\n3\n', []),
        (["--delete", "2:b"], all_of, ["b: no array or map is there; nothing is deleted"]),
        (["--delete", "3:b"], all_of, ["3: no such item; 3 items came, from 0 on"]),
        # Each change in its order, where it can be made.
        (["--set", "b=5"], b'{"a": 1, "b": 5}\n{"b": 5}\n3\n', ["b: no array or map is there; item 2 stays as it is"]),
        (["--set", "b=5", "--delete", "a"], b'{"b": 5}\n{"b": 5}\n3\n',
         ["b: no array or map is there; item 2 stays as it is"]),
        (["--set", "a/c=1", "--set", "b=5", "--set", "2:=4"], b'{"a": 1, "b": 5}\n{"b": 5}\n4\n',
         ["a/c: no array or map is at a; item 0 stays as it is",
          'a: no such key; the map has "b"; item 1 stays as it is',
          "a: no array or map is there; item 2 stays as it is", "b: no array or map is there; item 2 stays as it is"]),
        (["--delete", "2:", "--set", "c=1"], b'{"a": 1, "c": 1}\n{"b": 2, "c": 1}\n', []),
    ]
    for words, wanted, said in rows:
        messages = "".join(f"cborcat: -x: {line}\n" for line in said)
        same(f"{words}", run(*words, *maps), (wanted, messages, 1 if said else 0))
    # Whatever is done with the items next, those that stay are among them.
    for words, wanted, status in [(["-p", "0", "-t", "diag"], b"7\n[1]\n", 1),
                                  (["-p", "1:0", "-t", "diag"], b"[1]\n", 1),
                                  (["-t", "paths"], b"0  7\n1:0/0  1\n", 1), (["-t", "json"], b"[7]\n[[1]]\n", 1),
                                  (["-c"], b"", 1), (["-t", "digits"], b"8107\n818101\n", 1)]:
        got = run("--set", "0:0=7", "--set", "1:0/0/0=7", *words, "-f", "hex", "-x", "8101 818101")
        same(f"and {words}", (got[0], got[1].startswith("cborcat: -x: 0/0/0: no array or map is at 0/0; item 1 stays"),
                              got[2]), (wanted, True, status))
    same("-1 with an item that stays", run("-1", "--set", "0=7", "-t", "diag", "-x", "5"),
         (b"5\n", "cborcat: -x: 0: no array or map is there; item 0 stays as it is\n", 1))
    same("--at", run("--delete", "1", "--at=1", "-f", "hex", "-x", "81 05")[2], 1)
    same("nothing to delete in", run("--delete", "1", "-f", "bytes", data=b""), (b"", "", 0))
    same("each input by itself", run("--delete", "a", "-t", "diag", "-", "-", data=b'{"a": 1}')[:1], (b"{}\n",))


def named(run, same, examples):
    """A new key by its name: what the types of COSE (RFC 9052) and CWT (RFC 8392) have."""
    signed = f"{examples}/cwt-signed.hex"
    before = run("-t", "digits", signed)[0].decode()
    with_nonce = before.replace("5850a7", "5853a8").replace("420b71", "420b710a4101")
    same("a claim", run("--set", "payload/nonce=h'01'", "-t", "digits", signed), (with_nonce.encode(), "", 0))
    message = "d2 84 40 a0 40 40"
    quoted = "in quotes adds the text; item 0 stays as it is"
    hexed(run, same, [
        (["--set", "unprotected/alg=-7"], message, "d284 40 a10126 40 40"),
        (["--set", "unprotected/kid=h'31'"], message, "d284 40 a1044131 40 40"),
        (["--set", 'unprotected/"alg"=-7'], message, "d284 40 a163616c6726 40 40"),
        (["--set", "unprotected/5=1"], message, "d284 40 a10501 40 40"),
        (["--set", "1/alg=-7", "--no-names"], message, "d284 40 a163616c6726 40 40"),
        (["--set", "alg=-7", "--as=COSE_Key"], "a1 01 02", "a2 01 02 03 26"),
        # crv depends on the type of the key: EC2 (2) has it, at -1.
        (["--set", "crv=1", "--as=COSE_Key"], "a1 01 02", "a2 01 02 20 01"),
        (["--set", "crv=1", "--set", "crv=2", "--as=COSE_Key"], "a1 01 02", "a2 01 02 20 02"),
        (["--set", "*/alg=-7", "--as=COSE_KeySet"], "82 a1 01 02 a1 01 01", "82 a2 01 02 03 26 a2 01 01 03 26"),
        # Nothing is known of such a map.
        (["--set", "alg=-7"], "a0", "a1 63616c67 26"),
        (["--set", "1/9/alg=-7"], "d284 40 a109a0 40 40", "d284 40 a109a163616c6726 40 40"),
        (["--set", "unprotected/alg=-7", "--set", "unprotected/alg=-8"], message, "d284 40 a10127 40 40"),
    ])
    for words, digits, said in [
            (["--set", "payload/expp=1"], before.strip(),
             "payload/expp: no key and no name of CWT; exp is one; \"expp\""),
            (["--set", "unprotected/zzz=1"], message, "unprotected/zzz: no key and no name of COSE_Header; \"zzz\""),
            (["--set", "crv=1", "--as=COSE_Key"], "a1 01 04", "crv: no key and no name of COSE_Key; \"crv\""),
            (["--set", "*/alk=1", "--as=COSE_KeySet"], "81a10102",
             "*/alk: no key and no name of COSE_Key; alg is one; \"alk\"")]:
        same(f"{words}", run(*words, "-t", "digits", "-f", "hex", data=digits.encode()),
             (digits.replace(" ", "").encode() + b"\n", f"cborcat: standard input: {said} {quoted}\n", 1))


    # Beside -p, --as may be the type of the part: that says nothing of the item.
    same("--as of a part", run("--as=COSE_Key", "-p", "alk", "--set", "alk=1", "-t", "diag", "-x", "{1: 2}"),
         (b"1\n", "", 0))


def in_forms(run, same):
    """Whatever is written of the items, and whatever form they come in."""
    given = ("--set", "a=2", "-x", '{"a": 1}')
    for form, wanted in (("pretty", b'{"a": 2}\n'), ("diag", b'{"a": 2}\n'), ("digits", b"a1616102\n"),
                         ("bytes", b"\xa1\x61a\x02"), ("json", b'{"a": 2}\n'), ("paths", b"a  2\n")):
        same(f"as {form}", run("-t", form, *given), (wanted, "", 0))
    same("as a dump", run("-t", "hex", *given), run("-t", "hex", "-x", '{"a": 2}'))
    same("a part", run("-p", "a", "-t", "diag", *given), (b"2\n", "", 0))
    same("a content", run("--set", 'a="x"', "-p", "a", "-t", "raw", "-x", '{"a": 1}'), (b"x", "", 0))
    same("a byte", run("--set", "a=1000", "--at=4", "-x", '{"a": 1}')[0].decode().splitlines()[0], "path: a")
    same("a check", run("--set", "a=5_0", "-c=core", "-x", '{"a": 1}')[2], 1)
    same("encoded again", run("--set", "b=5_0", "--encode=core", "-t", "digits", "-x", '{"c": 1}'),
         (b"a2616205616301\n", "", 0))


def wrong(run, same):
    """What is no edit, and what leads nowhere."""
    for text in ("", "a", "=1", "/=1"):
        same(f"--set of {text}", run("--set", text, "-x", "01"), (b"", WANTED, 2))
    for text in ("", "/"):
        same(f"--delete of {text}", run("--delete", text, "-x", "01"),
             (b"", "cborcat: --delete: expected a path, as in 1/exp\n", 2))
    for text in ("a=", "a=1 2"):
        same(f"--set of {text}", run("--set", text, "-x", "01"),
             (b"", "cborcat: --set a: expected exactly one item after the =\n", 2))
    same("no EDN", run("--set", "a=[1", "-x", "01")[::2], (b"", 2))
    rows = [
        (["--set", "3=1"], "[5, 6]", "3: no such index; the array has 2 items"),
        (["--set", "a/b=1"], '{"c": 1}', 'a: no such key; the map has "c"'),
        (["--set", "a/b=1"], '{"a": 1}', "a/b: no array or map is at a"),
        (["--set", "a=1"], "[5]", "a: no such index; the array has 1 item"),
        (["--set", "*=1"], "[]", "*: the array has no members"),
        (["--set", "@=1"], "h'0102'", "@: the bytes are not one item"),
        (["--delete", "2"], "[5, 6]", "2: no such index; the array has 2 items"),
        (["--delete", "b"], '{"c": 1}', 'b: no such key; the map has "c"'),
        (["--delete", "0"], "5", "0: no array or map is there"),
    ]
    for words, text, said in rows:
        end = "nothing is deleted" if words[0] == "--delete" else "item 0 stays as it is"
        same(f"{words} of {text}", run(*words, "-t", "diag", "-f", "diag", "-x", text),
             (f"{text}\n".encode(), f"cborcat: -x: {said}; {end}\n", 1))
    deep = "[" * 127 + "]" * 127
    same("too many levels", run("--set", f"0={deep}", "-t", "diag", "-f", "diag", "-x", "[[0]]")[2], 0)
    same("and one more", run("--set", f"0/0={deep}", "-t", "diag", "-f", "diag", "-x", "[[0]]")[::2], (b"[[0]]\n", 1))


def with_part(item, steps, part):
    """The item with the part at these indexes and keys."""
    if not steps:
        return part
    if isinstance(item, Array):
        members = list(item.members)
        members[steps[0]] = with_part(members[steps[0]], steps[1:], part)
        return Array(tuple(members), item.width)
    pairs = list(item.pairs)
    index = next(at for at, (key, _) in enumerate(pairs) if key.value == steps[0])
    pairs[index] = (pairs[index][0], with_part(pairs[index][1], steps[1:], part))
    return Map(tuple(pairs), item.width)


def nested(chance, depth):
    """Arrays, and maps with small keys, in all widths."""
    if depth == 0:
        return strict(any_item(chance, 3))
    members = tuple(nested(chance, depth - 1) for _ in range(chance.choice([1, 1, 2, 3])))
    width = chance.choice([None, 0, 1, 2, 4, 8])
    if chance.random() < 0.5:
        return Array(members, width)
    return Map(tuple((Integer(key, 1), it) for key, it in enumerate(members)), width)


def any_edits(run, same):
    """Parts of items made by a seed."""
    chance = random.Random(11)
    for _ in range(200):
        item, part = nested(chance, 3), strict(any_item(chance, 3))
        steps, at = [], item
        for _ in range(chance.randrange(1, 4)):
            members = at.members if isinstance(at, Array) else [value for _, value in at.pairs]
            steps.append(chance.randrange(len(members)))
            at = members[steps[-1]]
        path = "/".join(str(step) for step in steps)
        text = run("-t", "diag", "-f", "bytes", data=to_bytes(part))[0].decode().strip()
        got = run("-f", "bytes", "-t", "bytes", "--set", f"{path}={text}", data=to_bytes(item))
        same(f"{path}={text} in {to_bytes(item).hex()}", got, (to_bytes(with_part(item, steps, part)), "", 0))
