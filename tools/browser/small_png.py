#!/usr/bin/env python3
"""Makes a picture of a page small enough for a document: of its colours 256 stay, those that it has most of.

  tools/browser/small_png.py PICTURE SMALLER"""

import collections
import pathlib
import struct
import sys
import zlib

BEGIN, MOST_COLOURS = b"\x89PNG\r\n\x1a\n", 256


def chunks(data):
    at = len(BEGIN)
    while at < len(data):
        length, kind = struct.unpack(">I4s", data[at:at + 8])
        yield kind, data[at + 8:at + 8 + length]
        at += 12 + length


def nearest(left, up, corner):
    """The filter of Paeth."""
    guess = left + up - corner
    return min((left, up, corner), key=lambda it: abs(guess - it))


def lines_of(data):
    """Width, height, bytes of a pixel and the lines of a PNG, as Chromium writes it: 8 bits of each colour."""
    parts = list(chunks(data))
    width, height, _, kind = struct.unpack(">IIBB", parts[0][1][:10])
    size = {2: 3, 6: 4}[kind]
    length = width * size
    raw = zlib.decompress(b"".join(part for name, part in parts if name == b"IDAT"))
    above, lines = bytearray(length), []
    for begin in range(0, len(raw), length + 1):
        how, line = raw[begin], bytearray(raw[begin + 1:begin + 1 + length])
        for at in range(length) if how else ():
            left, corner = (line[at - size], above[at - size]) if at >= size else (0, 0)
            guess = {1: left, 2: above[at], 3: (left + above[at]) // 2}.get(how)
            line[at] = (line[at] + (nearest(left, above[at], corner) if guess is None else guess)) % 256
        lines.append(bytes(line))
        above = line
    return width, height, size, lines


def smaller(data):
    width, height, size, lines = lines_of(data)
    lines = [[line[at:at + 3] for at in range(0, len(line), size)] for line in lines]
    counts = collections.Counter(colour for line in lines for colour in line)
    kept = [colour for colour, _ in counts.most_common(MOST_COLOURS)]

    def far(at, colour):
        return sum((one - other) ** 2 for one, other in zip(kept[at], colour))

    place = {colour: min(range(len(kept)), key=lambda at: far(at, colour)) for colour in counts}

    def chunk(name, text):
        return struct.pack(">I", len(text)) + name + text + struct.pack(">I", zlib.crc32(name + text))

    body = b"".join(b"\0" + bytes(place[colour] for colour in line) for line in lines)
    head = struct.pack(">IIBBBBB", width, height, 8, 3, 0, 0, 0)
    return BEGIN + b"".join(chunk(*it) for it in (
        (b"IHDR", head), (b"PLTE", b"".join(kept)), (b"IDAT", zlib.compress(body, 9)), (b"IEND", b"")))


if __name__ == "__main__":
    if len(sys.argv) != 3:
        sys.exit(__doc__)
    pathlib.Path(sys.argv[2]).write_bytes(smaller(pathlib.Path(sys.argv[1]).read_bytes()))
