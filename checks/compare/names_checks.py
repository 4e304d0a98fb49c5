"""What `checks/cborcat` checks of names. What is expected is written here by hand: from RFC 8392 and RFC 9052, which print
these names, and the rules of docs/NAMES.md."""

import os
import re

TOKEN = """\
/COSE_Sign1/ 18([
    /protected/ <<{/alg/ 1: -7 /ES256/}>>,
    /unprotected/ {
        /kid/ 4: h'4173796d6d65747269634543445341323536' /'AsymmetricECDSA256'/,
    },
    /payload/ <<{
        /iss/ 1: "coap://as.example.com",
        /sub/ 2: "erikw",
        /aud/ 3: "coap://light.example.com",
        /exp/ 4: 1444064944 /2015-10-05T17:09:04Z/,
        /nbf/ 5: 1443944944 /2015-10-04T07:49:04Z/,
        /iat/ 6: 1443944944 /2015-10-04T07:49:04Z/,
        /cti/ 7: h'0b71',
    }>>,
    /signature/ h'5427c1ff28d23fbad1f29c4c7c6a555e601d6fa29f9179bc3d7438bacaca5acd08c8d4d4f96131680c429a01f85951ecee743a52b9b\
63632c57209120e1c9e30',
])
"""

# The payload of the token as a part.
PAYLOAD = """\
<<{
    /iss/ 1: "coap://as.example.com",
    /sub/ 2: "erikw",
    /aud/ 3: "coap://light.example.com",
    /exp/ 4: 1444064944 /2015-10-05T17:09:04Z/,
    /nbf/ 5: 1443944944 /2015-10-04T07:49:04Z/,
    /iat/ 6: 1443944944 /2015-10-04T07:49:04Z/,
    /cti/ 7: h'0b71',
}>>
"""

SIGNED = """\
/COSE_Sign1/ 18([
    /protected/ <<{/alg/ 1: -7 /ES256/}>>,
    /unprotected/ {/kid/ 4: h'3131' /'11'/},
    /payload/ h'546869732069732074686520636f6e74656e742e' /'This is the content.'/,
    /signature/ h'8eb33e4ca31d1c465ab05aac34cc6b23d58fef5c083106c4d25a91aef0b0117e2af9a291aa32e14ab834dc56ed2a223444547e01f11\
d3b0916e5a4c345cacb36',
])
"""

# The parts that examples/webauthn.hex says beside its bytes.
PARTS = (" /rpIdHash 32 bytes, flags UP AT, signCount 0, aaguid 00000000-0000-0000-0000-000000000000, "
         "credentialIdLength 16, credentialPublicKey @71/")

KEY = """\
/COSE_Key/ {
    /kty/ 1: 2 /EC2/,
    /alg/ 3: -7 /ES256/,
    /crv/ -1: 1 /P-256/,
    /x/ -2: h'143329cce7868e416927599cf65a34f3ce2ffda55a7eca69ed8919a394d42f0f',
    /y/ -3: h'60f7f1a780d8a783bfb7a2dd6b2796e8128dbbcef9d3d168db9529971a36e7b9',
}
"""

# A message, and how the map in its payload is shown.
MESSAGE = "18([h'a10126', {4: '11'}, h'a2041a5612aeb0016161', h''])"
CLAIMS = '{/exp/ 4: 1444064944 /2015-10-05T17:09:04Z/, /iss/ 1: "a"}'

# Words, and what is written.
SHOWN = [
    (["--as=COSE_Key", "-x", "{1: 4, -1: h'00'}"], "/COSE_Key/ {/kty/ 1: 4 /Symmetric/, /k/ -1: h'00'}\n"),
    (["-x", "{1: 4, -1: h'00'}"], "{1: 4, -1: h'00'}\n"),
    (["--as=COSE_Key", "-p", "2", "-x", "[0, 1, {1: 4}]"], "/COSE_Key/ {/kty/ 1: 4 /Symmetric/}\n"),
    (["--as=SenML", "-x", "[{0: 'a', 2: 1.5}]"], "/SenML/ [{/n/ 0: h'61' /'a'/, /v/ 2: 1.5}]\n"),
    # RFC 9052 C.3.1: the names of the layers of an encrypted message. Names count for the length of a line.
    (["-x", "96([h'a10101', {5: h'c9cf4df2fe6c632bf7886413'}, h'7a', [[h'a1013818', {4: 'm'}, h'']]])"],
     "/COSE_Encrypt/ 96([\n"
     "    /protected/ <<{/alg/ 1: 1 /A128GCM/}>>,\n"
     "    /unprotected/ {/IV/ 5: h'c9cf4df2fe6c632bf7886413'},\n"
     "    /ciphertext/ h'7a' /'z'/,\n"
     "    /recipients/ [\n"
     "        [\n"
     "            /protected/ <<{/alg/ 1: -25 /ECDH-ES + HKDF-256/}>>,\n"
     "            /unprotected/ {/kid/ 4: h'6d' /'m'/},\n"
     "            /ciphertext/ h'',\n"
     "        ],\n"
     "    ],\n"
     "])\n"),
    (["--no-names", "-x", "18([h'a10126', {}, h'', h''])"], "18([h'a10126', {}, h'', h''])\n"),
    # A type is found by a name that is alike, and its own name asks for its shape.
    (["--as=cose_key", "-x", "{1: 4}"], "/COSE_Key/ {/kty/ 1: 4 /Symmetric/}\n"),
    (["--as=COSE-KeySet", "-x", "[{1: 4}]"], "/COSE_KeySet/ [{/kty/ 1: 4 /Symmetric/}]\n"),
    (["--as=COSE_Sign1", "-x", "{1: 2} [h'', {}, h'', h'']"],
     "{1: 2}\n/COSE_Sign1/ [/protected/ h'', /unprotected/ {}, /payload/ h'', /signature/ h'']\n"),
    (["-x", "18([1, 2, 3, 4]), 18(\"a\")"], "18([1, 2, 3, 4])\n18(\"a\")\n"),
    (["--as=CWT", "-x", "{266: {\"a\": {1: \"x\"}, \"b\": h'd28440a04040'}}"],
     "/CWT/ {\n"
     "    /submods/ 266: {\n"
     "        \"a\": {/iss/ 1: \"x\"},\n"
     "        \"b\": <</COSE_Sign1/ 18([\n"
     "            /protected/ h'',\n"
     "            /unprotected/ {},\n"
     "            /payload/ h'',\n"
     "            /signature/ h'',\n"
     "        ])>>,\n"
     "    },\n"
     "}\n"),
    # Values that have a meaning, near the front of an item and far from it, and in a text none.
    (["-x", "1(1363896240.5) 4([-2, 27315]) 5([-1, 3])"],
     "1(1363896240.5 /2013-03-21T20:04:00.5Z/)\n4([-2, 27315 /273.15/])\n5([-1, 3 /1.5/])\n"),
    (["-x", f"[\"{'a' * 200}\", 4([-2, 27315])]"], f"[\n    \"{'a' * 200}\",\n    4([-2, 27315 /273.15/]),\n]\n"),
    (["-x", f"[\"{'a' * 200}\", 4([-2, \"\"])]"], f"[\n    \"{'a' * 200}\",\n    4([-2, \"\"]),\n]\n"),
    (["-x", "\"\u0444\u0444\""], "\"\u0444\u0444\"\n"),
    (["-x", "65(h'0001ffff')"], "65(h'0001ffff' /1, 65535/)\n"),
    (["--no-names", "-x", "4([-2, 27315]) 1(1.5) 64(h'01')"], "4([-2, 27315])\n1(1.5)\n64(h'01' /1/)\n"),
    (["--no-names", "-e", "-x", "18([h'a10126', {}, h'', h''])"], "18([<<{1: -7}>>, {}, h'', h''])\n"),
    (["--no-names", "-x", "1(0)"], "1(0 /1970-01-01T00:00:00Z/)\n"),
    (["--no-notes", "-x", "18([h'a10126', {}, h'', h''])"], "18([h'a10126', {}, h'', h''])\n"),
    (["-t", "diag", "-x", "18([h'a10126', {}, h'', h''])"], "18([h'a10126', {}, h'', h''])\n"),
    # A part has the names that it has in its item: by its key or its place, by the tags around it, in byte strings.
    (["-p", "protected", "-x", MESSAGE], "<<{/alg/ 1: -7 /ES256/}>>\n"),
    (["-p", "protected/alg", "-x", MESSAGE], "-7 /ES256/\n"),
    (["-p", "1", "-x", MESSAGE], "{/kid/ 4: h'3131' /'11'/}\n"),
    (["-p", "payload", "-x", MESSAGE], f"<<{CLAIMS}>>\n"),
    (["-p", "payload/@", "-x", MESSAGE], f"{CLAIMS}\n"),
    (["-p", "payload/exp", "-x", MESSAGE], "1444064944 /2015-10-05T17:09:04Z/\n"),
    (["-p", "*", "-x", MESSAGE], f"<<{{/alg/ 1: -7 /ES256/}}>>\n{{/kid/ 4: h'3131' /'11'/}}\n<<{CLAIMS}>>\nh''\n"),
    (["-p", "1/0", "-x", f"[0, {MESSAGE}]"], "<<{/alg/ 1: -7 /ES256/}>>\n"),
    (["-p", "*/0", "-x", f"[{MESSAGE}, 55799({MESSAGE})]"], "<<{/alg/ 1: -7 /ES256/}>>\n" * 2),
    (["-p", "payload/4", "-x", "61(18([h'', {}, h'a1041a5612aeb0', h'']))"], "1444064944 /2015-10-05T17:09:04Z/\n"),
    (["-p", "payload", "-x", "61(18([h'', {}, h'a1041a5612aeb0', h'']))"],
     "<<{/exp/ 4: 1444064944 /2015-10-05T17:09:04Z/}>>\n"),
    (["-p", "3/0/0", "-x", "96([h'', {}, h'', [55799([h'a10101', {}, h''])]])"], "<<{/alg/ 1: 1 /A128GCM/}>>\n"),
    (["-p", "0/@/0", "-x", f"55799([<<{MESSAGE}>>])"], "<<{/alg/ 1: -7 /ES256/}>>\n"),
    (["-p", "1", "-x", "18([1, {4: '11'}, 3, 4])"], "{4: h'3131' /'11'/}\n"),
    # A token's claims, by any two of them: an audience of several and a time with its tag (RFC 8392), a nonce and a UEID
    # (RFC 9711), two of PSA's (RFC 9783), and one that is no token, since its audience is a number.
    (["-p", "payload", "-x", "18([h'', {}, h'a20381616104c11a5612aeb0', h''])"],
     "<<{/aud/ 3: [\"a\"], /exp/ 4: 1(1444064944 /2015-10-05T17:09:04Z/)}>>\n"),
    (["-p", "payload", "-x", "18([h'', {}, h'a20a4101190100410102', h''])"], "h'a20a4101190100410102'\n"),
    (["-p", "payload", "-x", "18([h'', {}, h'a20a41011901004102', h''])"], "<<{/nonce/ 10: h'01', /ueid/ 256: h'02'}>>\n"),
    (["-p", "payload", "-x", "18([h'', {}, h'a20a814101190109617a', h''])"],
     "<<{/nonce/ 10: [h'01'], /eat_profile/ 265: \"z\"}>>\n"),
    (["-p", "payload", "-x", "18([h'', {}, h'a219095a0119095b193000', h''])"],
     "<<{/psa-client-id/ 2394: 1, /psa-security-lifecycle/ 2395: 12288}>>\n"),
    (["-p", "payload", "-x", "18([h'', {}, h'a219095c410119095f81a1016142', h''])"],
     "<<{\n"
     "    /psa-implementation-id/ 2396: h'01',\n"
     "    /psa-software-components/ 2399: [{/measurement-type/ 1: \"B\"}],\n"
     "}>>\n"),
    (["-p", "payload", "-x", "18([h'', {}, h'a20301016161', h''])"], "h'a20301016161'\n"),
    (["-p", "payload", "-x", "18([h'', {}, h'a10a4101', h''])"], "h'a10a4101'\n"),
    # A payload with the tag of a type.
    (["-p", "payload", "-x", "18([h'', {}, h'd83da1016161', h''])"], "<</CWT/ 61({/iss/ 1: \"a\"})>>\n"),
    (["-p", "payload", "-x", "18([h'', {}, h'd28440a04040ff', h''])"], "h'd28440a04040ff'\n"),
    # Headers: countersignatures (RFC 9052 and 9338), one or several; keys of key agreement (RFC 9053), hashes of
    # certificates (RFC 9360), claims (RFC 9528).
    (["-p", "1", "-x", "18([h'', {7: [h'', {4: '1'}, h'']}, h'', h''])"],
     "{\n"
     "    /counter signature/ 7: [\n"
     "        /protected/ h'',\n"
     "        /unprotected/ {/kid/ 4: h'31' /'1'/},\n"
     "        /signature/ h'',\n"
     "    ],\n"
     "}\n"),
    (["-p", "1/11/0/1", "-x", "18([h'', {11: [[h'', {4: '1'}, h'']]}, h'', h''])"], "{/kid/ 4: h'31' /'1'/}\n"),
    (["-p", "1/11/1", "-x", "18([h'', {11: [h'', {4: '1'}, h'']}, h'', h''])"], "{/kid/ 4: h'31' /'1'/}\n"),
    (["-x", "19([h'', {}, h''])"], "/COSE_Countersignature/ 19([/protected/ h'', /unprotected/ {}, /signature/ h''])\n"),
    (["-p", "3/0/1", "-x", "96([h'', {}, h'', [[h'', {-1: {1: 2, -1: 1}, -20: h'', -23: h''}, h'']]])"],
     "{\n"
     "    /ephemeral key/ -1: {/kty/ 1: 2 /EC2/, /crv/ -1: 1 /P-256/},\n"
     "    /salt/ -20: h'',\n"
     "    /PartyU other/ -23: h'',\n"
     "}\n"),
    (["-p", "1", "-x", "18([h'', {14: {2: \"a\"}, 34: [-15, h'']}, h'', h''])"],
     "{\n"
     "    /kccs/ 14: {/sub/ 2: \"a\"},\n"
     "    /x5t/ 34: [/hashAlg/ -15 /SHA-256-64/, /hashValue/ h''],\n"
     "}\n"),
    (["-p", "1", "-x", "18([h'', {258: -16, 260: \"u\", 395: 1, 396: {-1: []}}, h'', h''])"],
     "{\n"
     "    /payload-hash-alg/ 258: -16 /SHA-256/,\n"
     "    /payload-location/ 260: \"u\",\n"
     "    /vds/ 395: 1 /RFC9162_SHA256/,\n"
     "    /vdp/ 396: {/inclusion proofs/ -1: []},\n"
     "}\n"),
    # The type that is given is that of the part.
    (["--as=COSE_Key", "-p", "1", "-x", "18([h'', {1: 4}, h'', h''])"], "/COSE_Key/ {/kty/ 1: 4 /Symmetric/}\n"),
    (["--no-names", "-p", "0", "-x", MESSAGE], "h'a10126'\n"),
    (["-t", "diag", "-p", "0", "-x", MESSAGE], "h'a10126'\n"),
    (["-t", "json", "--names-as-keys", "-p", "payload/@", "-x", MESSAGE], '{"exp": 1444064944, "iss": "a"}\n'),
]

# A dump with names: each line as it is without them, but for its comment. The items in byte strings have lines with -e.
DUMP = """\
d2               # /COSE_Sign1/ tag(18)
   84            #   array(4)
      43         #     /protected/ bytes(3)
         a10126  #       "\\xa1\\x01&"
      a1         #     /unprotected/ map(1)
         04      #       /kid/ unsigned(4)
         42      #       bytes(2)
            3131 #         "11"
      40         #     /payload/ bytes(0)
                 #       ""
      40         #     /signature/ bytes(0)
                 #       ""
"""

INNER = """\
         a1      #       map(1)
            01   #         /alg/ unsigned(1)
            26   #         negative(-7) /ES256/
"""

FRAME = """\
[Frame]
tag = 1000
array = ["version", { name = "place", is = "Place" }]
[Place]
values = { 1 = "hall" }
"""

READING = """\
[Reading]
tag = 1001
map.7 = "sensor"
"""

# Files of names, and what standard error has of them.
FAULTS = [
    ("[T]\ntag = 1\narray = ['a/b']\n", "line 3: a name is printable ASCII without `/` that does not begin with `*`"),
    ("[T]\narray = [\"a\\nb\"]\n", "line 2: a name is printable ASCII without `/` that does not begin with `*`"),
    ("[T]\narray = ['\u202e']\n", "line 2: a name is printable ASCII without `/` that does not begin with `*`"),
    ("[T]\narray = ['*a']\n", "line 2: a name is printable ASCII without `/` that does not begin with `*`"),
    ("[T]\n\narray = [{ is = 'Q' }]\n", "line 3: no type has this name"),
    ("[A]\ntag = 7\n[B]\ntag = 7\n", "line 4: another type of the file has this tag"),
]


def examples(run, same, folder):
    """The messages of examples/, and the same bytes from what is shown."""
    for name, wanted in (("cwt-signed.hex", TOKEN), ("cose-sign1.hex", SIGNED)):
        same(f"names in {name}", run(f"{folder}/{name}"), (wanted.encode(), "", 0))
        item = run("-t", "bytes", f"{folder}/{name}")[0]
        same(f"{name} is read back", run("-t", "bytes", "-f", "diag", data=wanted.encode()), (item, "", 0))
        same(f"{name} without names", b"/alg/" in run("--no-names", f"{folder}/{name}")[0], False)
    same("the payload of the token", run("-p", "payload", f"{folder}/cwt-signed.hex"), (PAYLOAD.encode(), "", 0))
    part = run("-p", "authData", f"{folder}/webauthn.hex")[0].decode()
    same("the parts of authenticator data that is a part", part.count(f"'{PARTS}\n"), 1)
    item = run("-t", "bytes", f"{folder}/webauthn.hex")[0]
    for given in ([], ["--as=WebAuthn_Attestation"]):
        shown = run(*given, f"{folder}/webauthn.hex")[0].decode()
        same(f"the parts of authenticator data {given}", shown.count(f"'{PARTS},\n"), 1)
    same("the key of the attestation object", run("--as=COSE_Key", f"--offset={len(item) - 77}", data=item),
         (KEY.encode(), "", 0))


def dumps(run, same, folder):
    """Names in the comments of dumps. A dump is the same without its comments, and is read back as the same bytes."""
    item = ("-x", "18([h'a10126', {4: '11'}, h'', h''])")
    outside = DUMP.splitlines(keepends=True)
    inside = "".join(outside[:3]) + INNER + "".join(outside[4:])
    same("a dump with names", run("-t", "hex", *item)[0].decode(), DUMP)
    same("with items in byte strings", run("-e", "-t", "hex", *item)[0].decode(), inside)
    bare = "".join(re.sub(r"/[^/]*/ ", "", line) for line in outside)
    for words in (["--no-names"], ["--no-notes"]):
        same(f"a dump with {words}", run(*words, "-t", "hex", *item)[0].decode(), bare)
    same("a type", run("--as=CWT", "-t", "hex", "-x", "{4: 0}")[0].decode(),
         "a1    # /CWT/ map(1)\n   04 #   /exp/ unsigned(4)\n   00 #   unsigned(0) /1970-01-01T00:00:00Z/\n")
    same("of a part with its names", run("-p", "1", "-t", "hex", "-x", MESSAGE)[0].decode(),
         "a1         # map(1)\n   04      #   /kid/ unsigned(4)\n   42      #   bytes(2)\n      3131 #     \"11\"\n")
    same("of a part", run("--as=CWT", "-p", "*", "-t", "hex", "-x", "[{}, {}]")[0].decode(), "a0 # /CWT/ map(0)\n" * 2)
    same("in colours", run("--as=CWT", "--color=always", "-t", "hex", "-x", "{}")[0],
         b"\x1b[33ma0 \x1b[0m\x1b[90m# /CWT/ map(0)\x1b[0m\n")
    for name in sorted(os.listdir(folder)):
        if name.endswith((".hex", ".cbor")):
            for words in ([], ["-e"]):
                dump = run(*words, "-t", "hex", f"{folder}/{name}")[0]
                plain = run(*words, "--no-names", "-t", "hex", f"{folder}/{name}")[0]
                same(f"{name} {words} without comments", re.sub(rb"#.*", b"", dump), re.sub(rb"#.*", b"", plain))
                same(f"{name} {words} is read back", run("-t", "bytes", "-f", "hex", data=dump),
                     run("-t", "bytes", f"{folder}/{name}"))


def words(run, same):
    """The options of names, and what is wrong with them."""
    for given, wanted in SHOWN:
        same(f"names {given}", run(*given), (wanted.encode(), "", 0))
    out, error, status = run("--as=COSE_Kex", "-x", "1")
    same("no such type", (out, status, error.startswith("cborcat: there is no type COSE_Kex; the types are COSE_Sign1, ")),
         (b"", 2, True))
    same("types are listed", all(name in error for name in ("COSE_Key", "CWT", "SenML", "CTAP2_GetInfo")), True)
    for given in (["--no-names", "--as=CWT"], ["--as=CWT", "-t", "diag"], ["--as=CWT", "--no-notes"], ["--as=CWT", "-c"],
                  ["--no-names", "--names=x"]):
        out, _, status = run(*given, "-x", "1")
        same(f"refused {given}", (out, status), (b"", 2))


# Words of --as where nothing has the shape of the type, what is written, and what the line calls the input.
OTHER_SHAPES = [
    (["--as=COSE_Sign1", "-x", "[1, 2, 3]"], "[/protected/ 1, /unprotected/ 2, /payload/ 3]\n", "COSE_Sign1"),
    (["--as=cose-key", "-x", "1 [2]"], "1\n[2]\n", "cose-key"),
    (["--as=CWT", "-p", "0", "-x", "[1]"], "1\n", "CWT"),
    (["--as=CWT", "-t", "hex", "-x", "1"], "01 # unsigned(1)\n", "CWT"),
]


def other_shapes(run, same):
    """A line says that the type of --as fits nothing. One item that fits is enough."""
    for given, wanted, word in OTHER_SHAPES:
        line = f"cborcat: -x: nothing that is shown has the shape of {word} (--as)\n"
        same(f"no shape {given}", run(*given), (wanted.encode(), line, 0))
    same("a shape among others", run("--as=CWT", "-x", "1 {} 2"), (b"1\n/CWT/ {}\n2\n", "", 0))
    same("a shape among parts", run("--as=CWT", "-p", "*", "-x", "[1, {}]"), (b"1\n/CWT/ {}\n", "", 0))
    same("no items", run("--as=CWT", data=b"")[::2], (b"", 0))


# Files of names that define a known type again, or take its tag, and what is written.
AGAIN = [
    ("[COSE_Key]\nmap = { 3 = 'algorithm', 99 = 'mine' }\n", ["--as=COSE_Key", "-x", "{1: 4, 3: 5, -1: h'', 99: 1}"],
     "/COSE_Key/ {\n"
     "    /kty/ 1: 4 /Symmetric/,\n"
     "    /algorithm/ 3: 5 /HMAC 256-256/,\n"
     "    /k/ -1: h'',\n"
     "    /mine/ 99: 1,\n"
     "}\n"),
    ("[COSE_Algorithm]\nvalues = { -7 = 'ours' }\n", ["-x", "18([<<{1: -7}>>, {1: -8}, h'', h''])"],
     "/COSE_Sign1/ 18([\n"
     "    /protected/ <<{/alg/ 1: -7 /ours/}>>,\n"
     "    /unprotected/ {/alg/ 1: -8 /EdDSA/},\n"
     "    /payload/ h'',\n"
     "    /signature/ h'',\n"
     "])\n"),
    ("[Ticket]\ntag = 18\narray = ['head', {}, 'content', {}]\n", ["-x", "18([<<{1: -7}>>, {4: '1'}, h'', h''])"],
     "/Ticket/ 18([\n"
     "    /head/ <<{/alg/ 1: -7 /ES256/}>>,\n"
     "    /unprotected/ {/kid/ 4: h'31' /'1'/},\n"
     "    /content/ h'',\n"
     "    /signature/ h'',\n"
     "])\n"),
    # Another shape takes the place of the known one.
    ("[Pair]\ntag = 18\narray = ['one', 'two']\n", ["-x", "18([1, 2])"], "/Pair/ 18([/one/ 1, /two/ 2])\n"),
    ("[CWT_Confirmation]\narray = ['key']\n", ["--as=CWT", "-x", "{8: {1: 2}}"], "/CWT/ {/cnf/ 8: {1: 2}}\n"),
]

# The same with CDDL. A map that says nothing is still that of the known type.
AGAIN_BY_RULES = [
    ("COSE_Key = { 3 => int, 99 => int }", ["--as=COSE_Key", "-x", "{3: 5, 99: 1}"],
     "/COSE_Key/ {/alg/ 3: 5 /HMAC 256-256/, 99: 1}\n"),
    ("m = #6.18([protected: bstr, unprotected: h, payload: bstr .cbor p, signature: bstr])\n"
     "h = { * any => any }\np = { a => int }\na = 1\n", ["-x", "18([<<{1: -7}>>, {4: '1'}, <<{1: 2, 3: 4}>>, h''])"],
     "/m/ 18([\n"
     "    /protected/ <<{/alg/ 1: -7 /ES256/}>>,\n"
     "    /unprotected/ {/kid/ 4: h'31' /'1'/},\n"
     "    /payload/ <<{/a/ 1: 2, 3: 4}>>,\n"
     "    /signature/ h'',\n"
     "])\n"),
    ("m = #6.1000({ 1 => e / [2* e], 2 => #6.24(bstr .cbor e), 3 => [* e], 4 => t })\n"
     "e = { b => int }\nb = 7\nt = #6.1001(bstr .cbor e)\n",
     ["-x", "1000({1: [{7: 1}, {7: 2}], 2: 24(h'a10703'), 3: 258([{7: 4}]), 4: 1001(h'a10705')}) 1000({1: {7: 6}})"],
     "/m/ 1000({\n"
     "    1: [{/b/ 7: 1}, {/b/ 7: 2}],\n"
     "    2: 24(<<{/b/ 7: 3}>>),\n"
     "    3: 258([{/b/ 7: 4}]),\n"
     "    4: /t/ 1001(<<{/b/ 7: 5}>>),\n"
     "})\n"
     "/m/ 1000({1: {/b/ 7: 6}})\n"),
]

# The names that come with the program, by the documents that each file names. Types are found by --as alone, too.
KEPT = [
    ("suit", ["--as=SUIT_Manifest", "-x", "{1: 1, 2: 0, 7: h'82030f'}"],
     "/SUIT_Manifest/ {\n"
     "    /suit-manifest-version/ 1: 1,\n"
     "    /suit-manifest-sequence-number/ 2: 0,\n"
     "    /suit-validate/ 7: <<[\n"
     "        /command/ 3 /suit-condition-image-match/,\n"
     "        /argument/ 15,\n"
     "    ]>>,\n"
     "}\n"),
    ("corim", ["--as=environment-map", "-x", "{0: {1: \"ACME\", 2: \"R\"}}"],
     "/environment-map/ {/class/ 0: {/vendor/ 1: \"ACME\", /model/ 2: \"R\"}}\n"),
    ("coswid", ["--as=concise-swid-tag", "-x", "{0: \"a\", 12: 0, 2: [{31: \"b\", 33: 1}]}"],
     "/concise-swid-tag/ {\n"
     "    /tag-id/ 0: \"a\",\n"
     "    /tag-version/ 12: 0,\n"
     "    /entity/ 2: [{/entity-name/ 31: \"b\", /role/ 33: 1 /tag-creator/}],\n"
     "}\n"),
    ("coswid", ["--as=entity-entry", "-x", "{33: [2, 6]}"],
     "/entity-entry/ {/role/ 33: [2 /software-creator/, 6 /maintainer/]}\n"),
    ("c509", ["--as=C509Certificate", "-x", "[2, h'01', 0, \"CA\", 0, 1, h'', 1, h'', 1, h'']"],
     "/C509Certificate/ [\n"
     "    /c509CertificateType/ 2,\n"
     "    /certificateSerialNumber/ h'01',\n"
     "    /issuerSignatureAlgorithm/ 0,\n"
     "    /issuer/ \"CA\",\n"
     "    /validityNotBefore/ 0 /1970-01-01T00:00:00Z/,\n"
     "    /validityNotAfter/ 1 /1970-01-01T00:00:01Z/,\n"
     "    /subject/ h'',\n"
     "    /subjectPublicKeyAlgorithm/ 1,\n"
     "    /subjectPublicKey/ h'',\n"
     "    /extensions/ 1,\n"
     "    /issuerSignatureValue/ h'',\n"
     "]\n"),
    ("cardano", ["--as=transaction_body", "-x", "{0: 258([[h'aa', 0]]), 1: [{0: h'01', 1: 5}], 2: 170000}"],
     "/transaction_body/ {\n"
     "    /inputs/ 0: 258([[/transaction_id/ h'aa', /index/ 0]]),\n"
     "    /outputs/ 1: [{/address/ 0: h'01', /value/ 1: 5}],\n"
     "    /fee/ 2: 170000,\n"
     "}\n"),
]

# Types that their tags say, with --names alone.
KEPT_TAGS = [
    (["--names=suit", "-x", "107({3: h'a10101'})"],
     "/SUIT_Envelope_Tagged/ 107({\n    /suit-manifest/ 3: <<{/suit-manifest-version/ 1: 1}>>,\n})\n"),
    (["--names=coswid", "-x", "1398229316({1: \"a\", 14: 16384})"],
     "/tagged-coswid/ 1398229316({\n    /software-name/ 1: \"a\",\n    /version-scheme/ 14: 16384 /semver/,\n})\n"),
    (["--names=corim", "-x", "501({0: \"a\", 1: [506(h'a101a1006162')]})"],
     "/tagged-unsigned-corim-map/ 501({\n"
     "    /id/ 0: \"a\",\n"
     "    /tags/ 1: [\n"
     "        /tagged-concise-mid-tag/ 506(<<{/tag-identity/ 1: {/tag-id/ 0: \"b\"}}>>),\n"
     "    ],\n"
     "})\n"),
    (["--names=corim", "-p", "payload", "-x", "18([h'', {}, h'd901f5a1006161', h''])"],
     "<</tagged-unsigned-corim-map/ 501({/id/ 0: \"a\"})>>\n"),
]


def again(run, same, folder):
    """A file of names takes no known name away."""
    for rows, name in ((AGAIN, "again.toml"), (AGAIN_BY_RULES, "again.cddl")):
        path = os.path.join(folder, name)
        for text, given, wanted in rows:
            with open(path, "w", encoding="utf-8") as file:
                file.write(text)
            same(f"a known type again {text!r}", run(f"--names={path}", *given), (wanted.encode(), "", 0))


# Changes that take away what an item is known by: a claim of the two, and WebAuthn's. It keeps its names.
CHANGED = [
    (["--delete=payload/exp", "-p", "payload", "-x", MESSAGE], "<<{/iss/ 1: \"a\"}>>\n"),
    (["--delete=payload/exp", "--delete=payload/iss", "-p", "payload", "-x", MESSAGE], "<<{}>>\n"),
    (["--delete=payload/exp", "--set=payload/iss=\"b\"", "-t", "diag", "-p", "payload/iss", "-x", MESSAGE], "\"b\"\n"),
    (["--delete=payload/exp", "-x", f"18([h'', {{}}, h'a10a4101', h'']) {MESSAGE}"],
     "/COSE_Sign1/ 18([\n"
     "    /protected/ h'',\n"
     "    /unprotected/ {},\n"
     "    /payload/ h'a10a4101',\n"
     "    /signature/ h'',\n"
     "])\n"
     "/COSE_Sign1/ 18([\n"
     "    /protected/ <<{/alg/ 1: -7 /ES256/}>>,\n"
     "    /unprotected/ {/kid/ 4: h'3131' /'11'/},\n"
     "    /payload/ <<{/iss/ 1: \"a\"}>>,\n"
     "    /signature/ h'',\n"
     "])\n"),
    (["--delete=0/payload/exp", "-p", "0", "-x", f"[{MESSAGE}]"],
     "/COSE_Sign1/ 18([\n"
     "    /protected/ <<{/alg/ 1: -7 /ES256/}>>,\n"
     "    /unprotected/ {/kid/ 4: h'3131' /'11'/},\n"
     "    /payload/ <<{/iss/ 1: \"a\"}>>,\n"
     "    /signature/ h'',\n"
     "])\n"),
    (["--delete=fmt", "-x", "{\"fmt\": \"none\", \"attStmt\": {\"alg\": -7}, \"authData\": h''}"],
     "{\"attStmt\": {\"alg\": -7 /ES256/}, \"authData\": h''}\n"),
]


def changed(run, same):
    """The type that was read stays after a change."""
    for given, wanted in CHANGED:
        out, _, status = run(*given)
        same(f"names after {given}", (out.decode(), status), (wanted, 0 if "h'a10a4101'" not in wanted else status))


def kept(run, same, folder):
    """The names that come with the program."""
    for name, given, wanted in KEPT:
        same(f"names of {name}", run(f"--names={name}", *given), (wanted.encode(), "", 0))
        same(f"names of {name} by --as", run(*given), (wanted.encode(), "", 0))
    for given, wanted in KEPT_TAGS:
        same(f"names by a tag {given}", run(*given), (wanted.encode(), "", 0))
    auth = "{\"issuerAuth\": [<<{1: -7}>>, {}, <<24(<<{\"deviceKeyInfo\": {\"deviceKey\": {1: 1}}}>>)>>, h'']}"
    same("names of mdoc", run("--names=mdoc", "--as=IssuerSigned", "-x", auth), (
        b'/IssuerSigned/ {\n'
        b'    "issuerAuth": [\n'
        b'        /protected/ <<{/alg/ 1: -7 /ES256/}>>,\n'
        b'        /unprotected/ {},\n'
        b'        /payload/ <<24(<<{\n'
        b'            "deviceKeyInfo": {"deviceKey": {/kty/ 1: 1 /OKP/}},\n'
        b'        }>>)>>,\n'
        b'        /signature/ h\'\',\n'
        b'    ],\n'
        b'}\n', "", 0))
    # A file of that name is read if its path says so.
    with open(os.path.join(folder, "suit"), "w", encoding="utf-8") as file:
        file.write("[Frame]\ntag = 1000\narray = ['version']\n")
    same("a file with the name of names", run("--names=./suit", "-x", "1000([1])", cwd=folder),
         (b"/Frame/ 1000([/version/ 1])\n", "", 0))
    same("names beside such a file", run("--names=suit", "-x", "107({})", cwd=folder),
         (b"/SUIT_Envelope_Tagged/ 107({})\n", "", 0))


def files(run, same, folder):
    """Files of names."""
    path = os.path.join(folder, "names.toml")
    with open(path, "w", encoding="utf-8") as file:
        file.write(FRAME)
    same("names of a file", run(f"--names={path}", "-x", "1000([7, 1])"),
         (b"/Frame/ 1000([/version/ 7, /place/ 1 /hall/])\n", "", 0))
    same("a type of a file", run(f"--names={path}", "--as=Place", "-x", "1"), (b"/Place/ 1 /hall/\n", "", 0))
    with open(path, "a", encoding="utf-8") as file:
        file.write(READING)
    same("names of a file as keys", run(f"--names={path}", "-t", "json", "--names-as-keys", "-x", "1001({7: 1, 8: 2})"),
         (b'{"sensor": 1, "8": 2}\n', "", 0))
    same("known names beside a file", run(f"--names={path}", "-x", "16([h'', {}, h''])"),
         (b"/COSE_Encrypt0/ 16([/protected/ h'', /unprotected/ {}, /ciphertext/ h''])\n", "", 0))
    for text, wanted in FAULTS:
        with open(path, "w", encoding="utf-8") as file:
            file.write(text)
        same(f"a file {text!r}", run(f"--names={path}", "-x", "1"), (b"", f"cborcat: {path}: {wanted}\n", 2))
    with open(path, "wb") as file:
        file.write(b"\xff")
    same("a file that is no text", run(f"--names={path}", "-x", "1")[::2], (b"", 2))
    same("no file", run("--names=/nowhere/names.toml", "-x", "1")[::2], (b"", 2))


# A file of CDDL, by docs/NAMES.md.
CDDL = """\
frame = #6.1000([version: uint, kind: &( open: 1, close: 2 ), ? held: bstr .cbor claims])
claims = { ? iss => tstr, ? exp => ~time }
iss = 1
exp = 4
"""

# Words, and what is written with the names of that file.
BY_RULES = [
    (["-x", "1000([7, 2])"], "/frame/ 1000([/version/ 7, /kind/ 2 /close/])\n"),
    (["-x", "1000([7, 1, h'a1016161'])"], "/frame/ 1000([/version/ 7, /kind/ 1 /open/, /held/ <<{/iss/ 1: \"a\"}>>])\n"),
    (["-p", "held/exp", "-x", "1000([7, 1, h'a10400'])"], "0 /1970-01-01T00:00:00Z/\n"),
    (["--as=claims", "-x", "{1: \"a\", 4: 0}"], "/claims/ {/iss/ 1: \"a\", /exp/ 4: 0 /1970-01-01T00:00:00Z/}\n"),
    (["-t", "json", "--names-as-keys", "--as=claims", "-x", "{1: \"a\", 8: 2}"], '{"iss": "a", "8": 2}\n'),
    (["-x", "16([h'', {}, h''])"], "/COSE_Encrypt0/ 16([/protected/ h'', /unprotected/ {}, /ciphertext/ h''])\n"),
]

# Files of CDDL, and what standard error has of them; nothing if they have no error.
RULES = [
    ("a = [tme]", "1:6: no rule tme is there; time is one"),
    ("a = {\n  b: }", "2:6: expected a type, found }"),
    ("a = b\nb = a", "1:1: the rule a is defined by itself: a -> b -> a"),
    ('a = tstr .regexp "(a"', "1:18: the pattern is no regular expression"),
    ("g = (a: int)", None),
    ("", None),
]


def by_rules(run, same, folder):
    """Files of CDDL."""
    path = os.path.join(folder, "names.cddl")

    def written(text):
        with open(path, "w", encoding="utf-8") as file:
            file.write(text)

    written(CDDL)
    for given, wanted in BY_RULES:
        same(f"names of CDDL {given}", run(f"--names={path}", *given), (wanted.encode(), "", 0))
    for text, fault in RULES:
        written(text)
        wanted = (b"", f"cborcat: {path}:{fault}\n", 2) if fault else (b"1\n", "", 0)
        same(f"names of the CDDL {text!r}", run(f"--names={path}", "-x", "1"), wanted)


def check(run, same, folder, scratch):
    """All of these; `scratch` is a folder to write in."""
    examples(run, same, folder)
    words(run, same)
    dumps(run, same, folder)
    other_shapes(run, same)
    files(run, same, scratch)
    by_rules(run, same, scratch)
    again(run, same, scratch)
    changed(run, same)
    kept(run, same, scratch)
