#!/usr/bin/env python3
"""Makes docs/desk.png: a shift at the desk, as examples/c/desk.c drives it, a line for each camera number and a column for each step.

    tools/desk_picture.py TIMELINE [OUT.png]     docs/desk.png by default
    tools/desk_picture.py --check TIMELINE       say whether docs/desk.png has other pixels

TIMELINE is what `desk timeline` prints. Plain Python, no packages.
"""

import os
import sys

sys.dont_write_bytecode = True
from planes import read_png, write_png

PICTURE = os.path.join(os.path.dirname(os.path.abspath(__file__)), "..", "docs", "desk.png")

# The characters of the timeline: no frame, a frame is open, its band waits, served, served to its last row, refused at its step, a call refused.
COLOURS = {" ": "ffffff", ".": "e3e7ea", "w": "f3c65f", "s": "2f86c1", "f": "0b3c5d", "r": "d7301f", "x": "8e44ad"}
INK = "555555"

WIDE, HIGH = 3, 9  # of a step and of a camera, a pixel of the second white
LEFT, TOP, BELOW = 18, 4, 14
EVERY = 50  # steps between two numbers below

# Digits, three by five.
DIGITS = ["75557", "26227", "71747", "71717", "55711", "74717", "74757", "71244", "75757", "75717"]


def put_number(rows, x, y, number):
    """The number's digits, from this corner on."""
    for place, digit in enumerate(str(number)):
        for down, bits in enumerate(DIGITS[int(digit)]):
            for across in range(3):
                if int(bits) >> (2 - across) & 1:
                    rows[y + down][x + 4 * place + across] = bytes.fromhex(INK)


def drawn(lines):
    """The rows of the picture."""
    steps = len(lines[0])
    width = LEFT + WIDE * steps + 12
    white = bytes.fromhex(COLOURS[" "])
    rows = [[white] * width for _ in range(TOP + HIGH * len(lines) + BELOW)]
    for camera, line in enumerate(lines):
        top = TOP + HIGH * camera
        put_number(rows, 4 if camera > 9 else 8, top + 1, camera)
        for step, mark in enumerate(line):
            for y in range(top, top + HIGH - 1):
                rows[y][LEFT + WIDE * step : LEFT + WIDE * (step + 1)] = [bytes.fromhex(COLOURS[mark])] * WIDE
    for step in range(0, steps + 1, EVERY):
        bottom = TOP + HIGH * len(lines)
        rows[bottom][LEFT + WIDE * step] = rows[bottom + 1][LEFT + WIDE * step] = bytes.fromhex(INK)
        put_number(rows, LEFT + WIDE * step - 2 * len(str(step)) + 1, bottom + 4, step)
    return rows


def main():
    words = [word for word in sys.argv[1:] if word != "--check"]
    checking = len(words) < len(sys.argv) - 1
    if len(words) not in ((1,) if checking else (1, 2)):
        sys.exit(__doc__)
    with open(words[0]) as f:
        lines = f.read().split("\n")[:-1]
    if len(lines) != 32 or len({len(line) for line in lines}) != 1 or not set("".join(lines)) <= COLOURS.keys():
        sys.exit(words[0] + " is no timeline of 32 cameras")
    rows = [b"".join(row) for row in drawn(lines)]
    size = len(rows[0]) // 3, len(rows)
    if not checking:
        write_png(words[1] if len(words) == 2 else PICTURE, *size, rows)
    elif read_png(PICTURE) != (size, b"".join(b"\0" + row for row in rows)):
        sys.exit("docs/desk.png is not what tools/desk_picture.py makes of this timeline")


main()
