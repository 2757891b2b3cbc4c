#!/usr/bin/env python3
"""Makes the sample frame, examples/sample.ppm: a haul truck on a weighbridge, 64 by 48 pixels, drawn from whole numbers only."""

import os
import sys

WIDTH, HEIGHT = 64, 48


def pixel(x, y):
    """Red, green and blue of one pixel."""
    for wheel in (16, 30, 48):
        square = (x - wheel) ** 2 + (y - 37) ** 2
        if square <= 6:
            return (150, 150, 155)
        if square <= 30:
            return (25, 25, 28)
    if 10 <= x < 42 and 20 + max(0, 16 - x) // 2 <= y < 33:
        return (235, 165 + (x + y) % 4 * 4, 20)  # the body
    if 14 <= x < 40 and 20 - (13 - abs(x - 27)) // 2 <= y < 20:
        return (120 + (x * 7 + y * 13) % 40, 105 + (x * 5 + y * 3) % 30, 95)  # the load
    if 43 <= x < 54 and 18 <= y < 34:
        if 46 <= x < 52 and 20 <= y < 26:
            return (120, 190, 230)  # the window
        return (235, 150, 10)
    if 54 <= x < 57 and 28 <= y < 34:
        return (200, 30, 30)  # the lamp
    if 33 <= y < 35 and 9 <= x < 56:
        return (60, 60, 65)
    if y >= 42:
        return (90, 90, 95) if x // 4 % 2 == 0 or y > 43 else (240, 240, 60)  # the bridge
    if y >= 36:
        return (150 - y, 120 - y + x % 3, 80)  # the ground
    return (90 + 2 * y, 140 + 2 * y, 200 + y)  # the sky


def main():
    path = os.path.join(os.path.dirname(os.path.abspath(__file__)), "..", "examples", "sample.ppm")
    data = b"P6\n%d %d\n255\n" % (WIDTH, HEIGHT) + bytes(c for y in range(HEIGHT) for x in range(WIDTH) for c in pixel(x, y))
    if "--check" in sys.argv:
        with open(path, "rb") as f:
            sys.exit(0 if f.read() == data else "examples/sample.ppm is not what tools/sample.py makes")
    with open(path, "wb") as f:
        f.write(data)


if __name__ == "__main__":
    main()
