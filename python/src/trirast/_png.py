"""PNG (W3C, Portable Network Graphics, second edition): 8-bit RGB and RGBA, and 16-bit grey of depths."""

import struct
import zlib
from typing import Any, Iterator, Optional, Tuple

from ._arguments import real, shown

# How a name ends that is of a PNG file, in small or capital letters.
PNG = ".png"
SIGNATURE = b"\x89PNG\r\n\x1a\n"
# Bits of a channel and colour type, by the bytes of a pixel.
KINDS = {3: (8, 2), 4: (8, 6), 2: (16, 0)}
NO_FILTER = b"\0"
# How well rows are deflated: as zlib does it by default.
LEVEL = 6
# In metres. A chunk pHYs has dots per metre, 1 to 2**31 - 1, and the unit 1 for metres.
INCH = 0.0254
LEAST_DPI, GREATEST_DPI = INCH, 54546084


def chunk(kind: bytes, data: bytes) -> bytes:
    """A chunk: length, type, data and their CRC."""
    return struct.pack(">I", len(data)) + kind + data + struct.pack(">I", zlib.crc32(data, zlib.crc32(kind)))


def checked_dpi(dpi: Optional[Any], path: Optional[str], ends: Tuple[str, ...] = (PNG,)) -> Optional[float]:
    """The dots per inch for a file, or `None` if none are given. `path` is `None` for tiles.

    Raises ValueError if they are out of range, or the file's name has none of the ends, with which it is of
    a kind that has them.
    """
    if dpi is None:
        return None
    if path is None or not path.lower().endswith(ends):
        raise ValueError(
            f"dpi: expected a file whose name ends in {' or '.join(ends)}, got "
            f"{'tiles' if path is None else shown(path)}; leave dpi out"
        )
    given = real("dpi", dpi)
    if not LEAST_DPI <= given <= GREATEST_DPI:
        raise ValueError(f"dpi: expected {LEAST_DPI} to {GREATEST_DPI}, got {shown(dpi)}")
    return given


def head_of(width: int, height: int, pixel_bytes: int, dpi: Optional[float] = None) -> bytes:
    """What stands before a file's pixels: the signature, the chunk IHDR, and with dots per inch the chunk pHYs."""
    bits, colour_type = KINDS[pixel_bytes]
    head = SIGNATURE + chunk(b"IHDR", struct.pack(">IIBBBBB", width, height, bits, colour_type, 0, 0, 0))
    if dpi is None:
        return head
    per_metre = round(dpi / INCH)
    return head + chunk(b"pHYs", struct.pack(">IIB", per_metre, per_metre, 1))


def png_chunks(pixels: memoryview, dpi: Optional[float] = None) -> Iterator[bytes]:
    """Returns the pieces of a file, of pixels of the shape (height, width, 3), with alpha (height, width, 4), or of
    depths with the high byte first (height, width, 2)."""
    height, width, pixel_bytes = pixels.shape or (0, 0, 0)
    flat, row = pixels.cast("B"), width * pixel_bytes
    rows = b"".join(NO_FILTER + flat[first : first + row] for first in range(0, len(flat), row))
    return chunks_of(width, height, pixel_bytes, rows, dpi)


def chunks_of(width: int, height: int, pixel_bytes: int, rows: Any, dpi: Optional[float] = None) -> Iterator[bytes]:
    """Returns the pieces of a file, of rows that are filtered."""
    yield head_of(width, height, pixel_bytes, dpi)
    yield chunk(b"IDAT", zlib.compress(rows, LEVEL))
    yield chunk(b"IEND", b"")
