#!/usr/bin/env python3
"""Makes a PNG of a frame and its Y, U and V planes side by side, each plane in grey and as large as the frame.

    tools/planes.py FRAME.ppm PLANES.yuv OUT.png [420 or 422] [SCALE]

PLANES.yuv has Y, U and V without padding, one after another, as examples/c/ppm2yuv and the program write them. Plain Python, no packages.
"""

import struct
import sys
import zlib

GAP = 4  # white pixels between the pictures, before scaling


def read_ppm(path):
    """Width, height and pixel bytes of a P6 picture of 255 levels."""
    with open(path, "rb") as f:
        data = f.read()
    words, at = [], 0
    while len(words) < 4:
        while data[at : at + 1].isspace():
            at += 1
        if data[at : at + 1] == b"#":
            at = data.index(b"\n", at)
            continue
        end = at
        while not data[end : end + 1].isspace():
            end += 1
        words.append(data[at:end])
        at = end
    if words[0] != b"P6" or words[3] != b"255":
        sys.exit(path + " is not a P6 picture of 255 levels")
    return int(words[1]), int(words[2]), data[at + 1 :]


def write_png(path, width, height, rows):
    """Rows of RGB bytes."""

    def chunk(kind, body):
        return struct.pack(">I", len(body)) + kind + body + struct.pack(">I", zlib.crc32(kind + body))

    raw = b"".join(b"\0" + row for row in rows)
    with open(path, "wb") as f:
        f.write(b"\x89PNG\r\n\x1a\n")
        f.write(chunk(b"IHDR", struct.pack(">IIBBBBB", width, height, 8, 2, 0, 0, 0)))
        f.write(chunk(b"IDAT", zlib.compress(raw, 9)))
        f.write(chunk(b"IEND", b""))


def read_png(path):
    """Size and bytes of a picture, as write_png puts them."""
    with open(path, "rb") as f:
        data = f.read()
    at, body, size = 8, b"", b""
    while at < len(data):
        (length,) = struct.unpack(">I", data[at : at + 4])
        kind, part = data[at + 4 : at + 8], data[at + 8 : at + 8 + length]
        size, body = part[:8] if kind == b"IHDR" else size, body + part if kind == b"IDAT" else body
        at += 12 + length
    return struct.unpack(">II", size), zlib.decompress(body)


def main():
    if not 4 <= len(sys.argv) <= 6:
        sys.exit(__doc__)
    width, height, pixels = read_ppm(sys.argv[1])
    sampling = sys.argv[4] if len(sys.argv) > 4 else "420"
    scale = int(sys.argv[5]) if len(sys.argv) > 5 else 4
    chroma_width = (width + 1) // 2
    tall = 2 if sampling == "420" else 1
    chroma = chroma_width * ((height + tall - 1) // tall)
    with open(sys.argv[2], "rb") as f:
        planes = f.read()
    if len(planes) != width * height + 2 * chroma or len(pixels) != 3 * width * height:
        sys.exit("the planes are not those of this frame")
    rows = []
    for y in range(height):
        line = [pixels[3 * (y * width + x) :][:3] for x in range(width)]
        for plane in range(3):
            line += [b"\xff\xff\xff"] * GAP
            for x in range(width):
                at = y * width + x if plane == 0 else width * height + (plane - 1) * chroma + y // tall * chroma_width + x // 2
                line.append(planes[at : at + 1] * 3)
        rows += [b"".join(p * scale for p in line)] * scale
    write_png(sys.argv[3], scale * (4 * width + 3 * GAP), scale * height, rows)


if __name__ == "__main__":
    main()
