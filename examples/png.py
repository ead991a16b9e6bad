#!/usr/bin/env python3
"""Turns a raw PGM file into a PNG file: png.py IN.pgm OUT.png"""

import pathlib
import struct
import sys
import zlib


def read_pgm(data):
    """Width, height, bytes of a sample, and samples of a file without comments."""
    magic, width, height, most = data.split(maxsplit=4)[:4]
    if magic != b"P5":
        raise SystemExit("not a raw PGM file")
    size = 1 if int(most) < 256 else 2
    samples = data[-int(width) * int(height) * size :]
    return int(width), int(height), size, samples


def chunk(name, body):
    return struct.pack(">I", len(body)) + name + body + struct.pack(">I", zlib.crc32(name + body))


def png(width, height, size, samples):
    row = width * size
    lines = b"".join(b"\0" + samples[n * row : (n + 1) * row] for n in range(height))
    header = struct.pack(">IIBBBBB", width, height, 8 * size, 0, 0, 0, 0)
    parts = (chunk(b"IHDR", header), chunk(b"IDAT", zlib.compress(lines, 9)), chunk(b"IEND", b""))
    return b"\x89PNG\r\n\x1a\n" + b"".join(parts)


if __name__ == "__main__":
    source, target = map(pathlib.Path, sys.argv[1:])
    target.write_bytes(png(*read_pgm(source.read_bytes())))
