#!/usr/bin/env python3
"""Makes docs/mandelbrot.png from the picture that the program mandelbrot prints.

Usage: crates/mandelbrot/out/mandelbrot 480 320 | docs/mandelbrot.py. It writes a PNG with what python
has of itself; each colour is one of a palette if there are at most 256.
"""
import pathlib
import struct
import sys
import zlib

TARGET = pathlib.Path(__file__).resolve().with_name("mandelbrot.png")
SIGNATURE = b"\x89PNG\r\n\x1a\n"


def chunk(kind, data):
    """A part of a PNG, with its length and its checksum."""
    return struct.pack(">I", len(data)) + kind + data + struct.pack(">I", zlib.crc32(kind + data))


def png(width, height, pixels):
    """The picture as a PNG, of so many bytes of red, green and blue."""
    colours = [pixels[at:at + 3] for at in range(0, len(pixels), 3)]
    palette = {colour: place for place, colour in enumerate(dict.fromkeys(colours))}
    if len(palette) <= 256:
        kind, row = 3, lambda part: bytes(palette[colour] for colour in part)
        parts = [(b"PLTE", b"".join(palette))]
    else:
        kind, row, parts = 2, b"".join, []
    rows = b"".join(b"\0" + row(colours[at * width:(at + 1) * width]) for at in range(height))
    head = struct.pack(">IIBBBBB", width, height, 8, kind, 0, 0, 0)
    parts = [(b"IHDR", head), *parts, (b"IDAT", zlib.compress(rows, 9)), (b"IEND", b"")]
    return SIGNATURE + b"".join(chunk(*part) for part in parts)


def main():
    """Reads a binary PPM with 255 as its largest value, and writes the PNG."""
    kind, size, largest, pixels = sys.stdin.buffer.read().split(b"\n", 3)
    width, height = map(int, size.split())
    if (kind, largest, len(pixels)) != (b"P6", b"255", 3 * width * height):
        sys.exit("standard input is no such picture")
    TARGET.write_bytes(png(width, height, pixels))


if __name__ == "__main__":
    main()
