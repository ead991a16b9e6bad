#!/usr/bin/env python3
"""Draws the example images, as raw PGM files beside this script.

sky.pgm is an evening sky over water; ink.pgm is a drawing on white paper: hills, a house and a
tree; fade.pgm grows brighter from left to right. All have 160 by 120 pixels of 8 bits. The darker
of the first two at each pixel is the drawing before the sky.
"""

import math
import pathlib

WIDTH = 160
HEIGHT = 120
HORIZON = 84
SUN = (112, 66)
PAPER = 255
INK = 24


def clamp(value):
    return max(0, min(255, round(value)))


def sky_pixel(x, y):
    """An evening sky, brightest at the sun, and its mirror image in the water."""
    mirrored = y if y < HORIZON else 2 * HORIZON - y
    distance = math.hypot(x - SUN[0], mirrored - SUN[1])
    glow = 150 * math.exp(-distance / 42)
    height = 150 - 0.9 * (HORIZON - mirrored)
    cloud = 14 * math.sin(x / 9 + 2 * math.sin(mirrored / 7)) * math.sin(mirrored / 5)
    if y < HORIZON:
        return clamp(255 if distance < 9 else height + glow + cloud)
    ripple = 12 * math.sin(1.7 * y + math.sin(x / 5))
    return clamp(0.7 * (height + glow) + ripple)


def is_hill(x, y):
    far = HORIZON - 10 - 8 * math.sin(x / 23) - 4 * math.sin(x / 7)
    return far < y < HORIZON and x < 96 - (y - far)


def is_house(x, y):
    wall = 28 <= x <= 52 and 72 <= y <= 92
    roof = 58 <= y < 72 and abs(x - 40) <= (y - 56)
    window = (32 <= x <= 36 or 44 <= x <= 48) and 77 <= y <= 82
    return (wall or roof) and not window


def is_shore(x, y):
    return y > 92 + 6 * math.sin(x / 31) + (0.22 * x if x > 70 else 0) and x < 136


def is_tree(x, y):
    trunk = abs(x - 132 - 2 * math.sin(y / 9)) < 2.5 and 50 < y < 112
    crown = any(
        math.hypot(x - 132 - dx, y - 44 - dy) < radius
        for dx, dy, radius in ((0, -8, 13), (-11, 2, 10), (11, 3, 10), (0, 8, 9))
    )
    leaf = (x * 7 + y * 13) % 11 < 8
    return trunk or (crown and leaf)


def ink_pixel(x, y):
    if is_house(x, y) or is_tree(x, y):
        return INK
    if is_shore(x, y):
        return INK + 20
    return 110 if is_hill(x, y) else PAPER


def fade_pixel(x, y):
    return clamp(255 * x / (WIDTH - 1))


def write_pgm(path, pixel):
    samples = bytes(pixel(x, y) for y in range(HEIGHT) for x in range(WIDTH))
    path.write_bytes(b"P5\n%d %d\n255\n" % (WIDTH, HEIGHT) + samples)


if __name__ == "__main__":
    folder = pathlib.Path(__file__).resolve().parent
    write_pgm(folder / "sky.pgm", sky_pixel)
    write_pgm(folder / "ink.pgm", ink_pixel)
    write_pgm(folder / "fade.pgm", fade_pixel)
