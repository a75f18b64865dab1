"""Writes PNG images of 8 bits a pixel, with Python's own library alone."""
import struct
import sys
import zlib


def read_file(path):
    try:
        with open(path, "rb") as file:
            return file.read()
    except OSError:
        sys.exit(f"{path} cannot be read")


def chunk(kind, data):
    return struct.pack(">I", len(data)) + kind + data + struct.pack(">I", zlib.crc32(kind + data))


def widened(row, scale):
    """A row of bytes with each of them `scale` times."""
    out = bytearray(len(row) * scale)
    for k in range(scale):
        out[k::scale] = row
    return bytes(out)


def write_png(path, width, rows, palette=None):
    """Rows are bytes: grey values, or numbers of the palette's colours (red, green, blue)."""
    head = struct.pack(">IIBBBBB", width, len(rows), 8, 0 if palette is None else 3, 0, 0, 0)
    parts = [chunk(b"IHDR", head)]
    if palette is not None:
        parts.append(chunk(b"PLTE", b"".join(bytes(colour) for colour in palette)))
    parts += [chunk(b"IDAT", zlib.compress(b"".join(b"\0" + row for row in rows), 9)), chunk(b"IEND", b"")]
    try:
        with open(path, "wb") as file:
            file.write(b"\x89PNG\r\n\x1a\n" + b"".join(parts))
    except OSError:
        sys.exit(f"{path} cannot be written: the disk is full, or its folder is read-only")
