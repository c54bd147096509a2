"""Makes pictures small."""

import collections
import struct
import zlib

COLOURS = 256


def shrink(png):
    """A picture with its 256 commonest colours alone: each other one is the nearest of these. It is
    one without transparence, of three octets a dot, as a browser makes it."""
    width, height, rows = read_rows(png)
    dots = [[tuple(row[at : at + 3]) for at in range(0, len(row), 3)] for row in rows]
    counts = collections.Counter(dot for row in dots for dot in row)
    colours = [colour for colour, _ in counts.most_common(COLOURS)]
    places = {colour: colours.index(find_nearest(colour, colours)) for colour in counts}
    lines = b"".join(b"\0" + bytes(places[dot] for dot in row) for row in dots)
    head = struct.pack(">IIBBBBB", width, height, 8, 3, 0, 0, 0)
    palette = b"".join(map(bytes, colours))
    parts = {b"IHDR": head, b"PLTE": palette, b"IDAT": zlib.compress(lines, 9), b"IEND": b""}
    return png[:8] + b"".join(write_part(name, content) for name, content in parts.items())


def find_nearest(colour, colours):
    return min(colours, key=lambda other: sum((a - b) ** 2 for a, b in zip(colour, other)))


def write_part(name, content):
    size, check = struct.pack(">I", len(content)), struct.pack(">I", zlib.crc32(name + content))
    return size + name + content + check


def read_rows(png):
    """The width and the height of a picture, and the octets of its rows."""
    at, packed = 8, b""
    while at < len(png):
        length, name = struct.unpack(">I4s", png[at : at + 8])
        content = png[at + 8 : at + 8 + length]
        if name == b"IHDR":
            width, height, depth, kind = struct.unpack(">IIBB", content[:10])
            assert (depth, kind) == (8, 2)
        packed += content if name == b"IDAT" else b""
        at += 12 + length
    octets, size, above = zlib.decompress(packed), 3 * width, bytes(3 * width)
    rows = []
    for begin in range(0, len(octets), size + 1):
        row = bytearray(octets[begin + 1 : begin + 1 + size])
        undo_filter(octets[begin], row, above)
        rows.append(row)
        above = row
    return width, height, rows


def undo_filter(filter, row, above):
    """A row tells its octets by what differs from those to the left and above."""
    for at in range(len(row) if filter else 0):
        left, corner = (row[at - 3], above[at - 3]) if at >= 3 else (0, 0)
        up = above[at]
        near = min((left, up, corner), key=lambda x: abs(left + up - corner - x))
        row[at] = (row[at] + (0, left, up, (left + up) // 2, near)[filter]) & 255
