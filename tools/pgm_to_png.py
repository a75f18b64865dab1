#!/usr/bin/env python3
"""Turns a binary PGM image into a PNG: pgm_to_png.py IN.pgm OUT.png [SCALE]."""
import re
import sys

from png import read_file, widened, write_png


def read_pgm(path):
    data = read_file(path)
    head = re.match(rb"P5\s+(\d+)\s+(\d+)\s+255\s", data)
    if not head:
        sys.exit(f"{path} is not a binary PGM image of 255 grey values")
    width, height = int(head[1]), int(head[2])
    pixels = data[head.end():]
    if len(pixels) != width * height:
        sys.exit(f"{path} is not whole")
    return width, [pixels[y * width:(y + 1) * width] for y in range(height)]


def main():
    if len(sys.argv) not in (3, 4):
        sys.exit(__doc__)
    scale = int(sys.argv[3]) if len(sys.argv) == 4 else 1
    width, rows = read_pgm(sys.argv[1])
    write_png(sys.argv[2], width * scale, [wide for row in rows for wide in [widened(row, scale)] * scale])


main()
