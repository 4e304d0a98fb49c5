"""Makes a picture of a page small: a PNG of 256 colours, which shows text as well as one of all colours does."""
import collections
import struct
import zlib

# How many colours are kept as they are: those of areas. The others are rounded, so that each hue has some.
KEPT, ROUNDED = 96, 160


def chunks(png):
    """The parts of a PNG: name and data."""
    at = 8
    while at < len(png):
        (size,) = struct.unpack(">I", png[at:at + 4])
        yield png[at + 4:at + 8], png[at + 8:at + 8 + size]
        at += size + 12


def paeth(left, above, corner):
    guess = left + above - corner
    return min((left, above, corner), key=lambda one: abs(guess - one))


def rows_of(data, width, height, step):
    """The rows of a picture, without the filters of PNG."""
    stride, before = width * step, bytes(width * step)
    for number in range(height):
        kind, row = data[number * (stride + 1)], bytearray(data[number * (stride + 1) + 1:(number + 1) * (stride + 1)])
        for at in range(stride):
            left, corner = (row[at - step], before[at - step]) if at >= step else (0, 0)
            above = before[at]
            row[at] = row[at] + [0, left, above, (left + above) // 2, paeth(left, above, corner)][kind] & 255
        before = bytes(row)
        yield before


def nearest(colour, palette):
    return min(range(len(palette)), key=lambda place: sum((a - b) ** 2 for a, b in zip(colour, palette[place])))


def chunk(name, data):
    return struct.pack(">I", len(data)) + name + data + struct.pack(">I", zlib.crc32(name + data))


def small(png):
    """The picture with the colours that it has most."""
    parts = list(chunks(png))
    width, height, depth, kind = struct.unpack(">IIBB", parts[0][1][:10])
    assert depth == 8 and kind in (2, 6), "a PNG of another form"
    step = 3 if kind == 2 else 4
    data = zlib.decompress(b"".join(part for name, part in parts if name == b"IDAT"))
    rows = [[row[at:at + 3] for at in range(0, len(row), step)] for row in rows_of(data, width, height, step)]
    counted = collections.Counter(colour for row in rows for colour in row)
    palette = [colour for colour, _ in counted.most_common(KEPT)]
    rounded = collections.Counter(bytes(byte // 16 * 17 for byte in colour) for colour in set(counted) - set(palette))
    palette += [colour for colour, _ in rounded.most_common(ROUNDED)]
    places = {colour: nearest(colour, palette) for colour in counted}
    packed = zlib.compress(b"".join(b"\0" + bytes(places[colour] for colour in row) for row in rows), 9)
    head = struct.pack(">IIBBBBB", width, height, 8, 3, 0, 0, 0)
    return png[:8] + b"".join([chunk(b"IHDR", head), chunk(b"PLTE", b"".join(palette)), chunk(b"IDAT", packed),
                               chunk(b"IEND", b"")])
