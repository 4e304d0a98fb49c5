"""Examples worked out by hand that are no rows of the vectors: hostile ones, and items one after the other.

Bytes are written in hex. An error is its name. The other examples are in crates/vectors/data.
"""


def nested(count):
    """Bytes under tag 24 that hold such an item in turn, a number of times, around the number 1."""
    content = b"\x01"
    for _ in range(count):
        length = len(content)
        head = b"\x59" + length.to_bytes(2, "big")
        if length < 256:
            head = bytes([0x40 + length]) if length < 24 else bytes([0x58, length])
        content = b"\xd8\x18" + head + content
    return content.hex()


# bytes, and their error
BYTES = [("81" * 200_000, "TooDeep"), ("9f" * 200_000, "TooDeep")]

# items one after the other: bytes, where they lead to, their outputs joined, and why the rest is no item
SEQUENCES = [
    ("0120f6", "diag", "1\n-1\nnull\n", None),
    ("", "diag", "", None),
    ("0162c3", "diag", "1\n", "CutShort"),
    ("01ff02", "diag", "1\n", "Head"),
    ("0101", "bytes", "\x01\x01", None),
    ("0120", "hex", "01 # unsigned(1)\n20 # negative(-1)\n", None),
]

# notation, and the bytes of the item that it is, or the error
NOTATION = [
    ("24(<<" * 64 + "1" + ">>)" * 64, "TooDeep"),
    ("[" * 127 + "(_<<1>>)" + "]" * 127, "TooDeep"),
    ("[" * 128 + "]" * 128, "81" * 127 + "80"),
    ("[" * 128 + "1" + "]" * 128, "TooDeep"),
    ("[" * 200_000 + "]" * 200_000, "TooDeep"),
]
