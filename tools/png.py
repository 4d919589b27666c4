"""Pictures of the program's two kinds as PNG files."""

from __future__ import annotations

import struct
import zlib

SIGNATURE = b"\x89PNG\r\n\x1a\n"
# Bits of a channel and PNG's colour type, by the bytes of a pixel: red, green and blue, or a depth of 16 bits.
KINDS = {3: (8, 2), 2: (16, 0)}


def chunk(kind: bytes, data: bytes) -> bytes:
    return struct.pack(">I", len(data)) + kind + data + struct.pack(">I", zlib.crc32(kind + data))


def differences(row: bytes, pixel_bytes: int) -> bytes:
    """Each byte less that of the pixel before: PNG's filter 1."""
    return bytes((here - before) & 255 for here, before in zip(row, bytes(pixel_bytes) + row))


def encode(width: int, height: int, pixel_bytes: int, pixels: bytes, is_smooth: bool = False) -> bytes:
    """The PNG file of pixels that stand row by row, as they do in a PPM file or in a PGM file of 16 bits. A smooth
    picture has fewer bytes by differences."""
    bits, colour_type = KINDS[pixel_bytes]
    header = struct.pack(">IIBBBBB", width, height, bits, colour_type, 0, 0, 0)
    row = width * pixel_bytes
    lines = [pixels[first : first + row] for first in range(0, len(pixels), row)]
    rows = b"".join(b"\1" + differences(line, pixel_bytes) if is_smooth else b"\0" + line for line in lines)
    return SIGNATURE + chunk(b"IHDR", header) + chunk(b"IDAT", zlib.compress(rows)) + chunk(b"IEND", b"")
