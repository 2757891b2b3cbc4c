#!/usr/bin/env python3
"""Makes docs/y4m.png: the sample frame, and what a player shows of it from the Y4M files of examples/c/y4m.c, in 4:2:0 and in 4:2:2.

    tools/y4m_picture.py FRAME.ppm IN_420.y4m IN_422.y4m [OUT.png]     docs/y4m.png by default
    tools/y4m_picture.py --check FRAME.ppm IN_420.y4m IN_422.y4m       say whether docs/y4m.png has other pixels

As a player does, it takes the planes for BT.601 in limited range, and each U and V for the pixels that share it. Plain Python, no packages.
"""

import os
import sys

sys.dont_write_bytecode = True
from planes import GAP, read_png, read_ppm, write_png

PICTURE = os.path.join(os.path.dirname(os.path.abspath(__file__)), "..", "docs", "y4m.png")
SCALE = 4


def read_y4m(path):
    """Width, height, rows that share a chroma row, and the planes of the first picture."""
    with open(path, "rb") as f:
        line, rest = f.read().split(b"\n", 1)
    tags = {tag[:1]: tag[1:] for tag in line.split(b" ")[1:]}
    if not line.startswith(b"YUV4MPEG2 ") or not rest.startswith(b"FRAME\n"):
        sys.exit(path + " is not a Y4M file with a picture")
    return int(tags[b"W"]), int(tags[b"H"]), {b"420jpeg": 2, b"422": 1}[tags[b"C"]], rest[6:]


def shown(path):
    """The rows that a player shows, of red, green and blue: BT.601, limited range, in 65,536ths."""
    width, height, tall, planes = read_y4m(path)
    chroma_width = (width + 1) // 2
    chroma = chroma_width * ((height + tall - 1) // tall)
    rows = []
    for y in range(height):
        row = []
        for x in range(width):
            at = width * height + y // tall * chroma_width + x // 2
            luma, u, v = 76309 * (planes[y * width + x] - 16), planes[at] - 128, planes[at + chroma] - 128
            sums = (luma + 104597 * v, luma - 25675 * u - 53279 * v, luma + 132201 * u)
            row.append(bytes(min(255, max(0, (s + 32768) >> 16)) for s in sums))
        rows.append(row)
    return rows


def main():
    words = [word for word in sys.argv[1:] if word != "--check"]
    checking = len(words) < len(sys.argv) - 1
    if len(words) not in ((3,) if checking else (3, 4)):
        sys.exit(__doc__)
    width, height, pixels = read_ppm(words[0])
    pictures = [[[pixels[3 * (y * width + x) :][:3] for x in range(width)] for y in range(height)]] + [shown(path) for path in words[1:3]]
    gap = [b"\xff\xff\xff"] * GAP
    rows = []
    for lines in zip(*pictures):
        line = lines[0] + gap + lines[1] + gap + lines[2]
        rows += [b"".join(pixel * SCALE for pixel in line)] * SCALE
    size = SCALE * (3 * width + 2 * GAP), SCALE * height
    if not checking:
        write_png(words[3] if len(words) == 4 else PICTURE, *size, rows)
    elif read_png(PICTURE) != (size, b"".join(b"\0" + row for row in rows)):
        sys.exit("docs/y4m.png is not what tools/y4m_picture.py makes of these files")


main()
