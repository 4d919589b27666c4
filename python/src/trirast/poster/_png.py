"""PNG (W3C, Portable Network Graphics, second edition): 8-bit RGB, and 16-bit grey for depths. The
filter of each row is Sub.

What is read back here are files of this module alone, of a run that was stopped.
"""

from __future__ import annotations

import struct
import zlib
from typing import Any

import numpy as np
from numpy.typing import NDArray

from .._png import LEVEL, chunk, chunks_of, head_of
from ._scene import Pixels, Sheet

# The zlib header of deflate at the default level (RFC 1950), and the filter type Sub.
ZLIB_HEADER = b"\x78\x9c"
SUB = 1
# What a flush ends in (RFC 1951, 3.2.4): the length of a stored block of no bytes.
FLUSHED = b"\0\0\xff\xff"
# The greatest prime below 65,536, of which Adler-32 takes its sums.
ADLER_BASE = 65521


def row_bytes(pixels: Pixels) -> NDArray[np.uint8]:
    """The bytes of pixels, a row for each row of them."""
    return np.ascontiguousarray(pixels).view(np.uint8).reshape(len(pixels), -1)


def filtered(pixels: Pixels) -> NDArray[np.uint8]:
    """Rows as they are deflated: the filter's type, then the difference of each byte to that of the
    pixel on the left."""
    step = pixel_bytes(pixels)
    given = row_bytes(pixels)
    rows = np.empty((len(given), 1 + given.shape[1]), np.uint8)
    rows[:, 0] = SUB
    rows[:, 1 : 1 + step] = given[:, :step]
    np.subtract(given[:, step:], given[:, :-step], out=rows[:, 1 + step :])
    return rows


def unfiltered(rows: NDArray[np.uint8], sheet: Sheet) -> Pixels:
    """Pixels from rows as they are deflated. Raises ValueError if one has another filter."""
    if (rows[:, 0] != SUB).any():
        raise ValueError("another filter")
    step = sheet.pixel_bytes
    pixels = sheet.blank(len(rows), (rows.shape[1] - 1) // step)
    sums = rows[:, 1:].reshape(len(rows), -1, step).cumsum(1, dtype=np.uint8)
    pixels.view(np.uint8).reshape(sums.shape)[:] = sums
    return pixels


def pixel_bytes(pixels: Pixels) -> int:
    return 3 if pixels.ndim == 3 else 2


def png_of(pixels: Pixels, sheet: Sheet) -> bytes:
    """Returns a whole file."""
    return b"".join(chunks_of(pixels.shape[1], pixels.shape[0], sheet.pixel_bytes, filtered(pixels).data))


def pixels_of(file: bytes, sheet: Sheet, height: int, width: int) -> Pixels:
    """The pixels of a file of this size that `png_of` made. Raises ValueError or an error of zlib or struct at any
    other, also one with these pixels that is damaged elsewhere."""
    head, end = head_of(width, height, sheet.pixel_bytes), chunk(b"IEND", b"")
    data = file[len(head) + 8 : -len(end) - 4]
    if file != head + chunk(b"IDAT", data) + end:
        raise ValueError("no PNG file of a tile")
    rows = inflated(data, height * (1 + sheet.pixel_bytes * width), zlib.MAX_WBITS)
    return unfiltered(rows.reshape(height, -1), sheet)


def adler_of_both(first: int, second: int, length: int) -> int:
    """The Adler-32 (RFC 1950) of two texts one after the other, of theirs and of the length of the second."""
    low, high = first & 0xFFFF, first >> 16
    other_low, other_high = second & 0xFFFF, second >> 16
    sum_low = (low + other_low - 1) % ADLER_BASE
    sum_high = (high + other_high + (length % ADLER_BASE) * (low - 1)) % ADLER_BASE
    return sum_high << 16 | sum_low


def deflated(pixels: Pixels) -> tuple[bytes, int, int]:
    """Rows deflated by themselves, to stand in one stream with others: the bytes, the Adler-32 of the
    rows and their length.

    The piece has no header and ends in a full flush (RFC 1951, a stored block of no bytes), so the next begins anew.
    """
    rows = filtered(pixels)
    packing = zlib.compressobj(LEVEL, zlib.DEFLATED, -zlib.MAX_WBITS)
    data = packing.compress(rows.data) + packing.flush(zlib.Z_FULL_FLUSH)
    return data, zlib.adler32(rows.data), rows.nbytes


def inflated(data: bytes, size: int, window: int = -zlib.MAX_WBITS) -> NDArray[np.uint8]:
    """The rows of a piece, or by the window of zlib those of a whole stream. Raises zlib.error or ValueError if it is
    none of this size, of which it inflates no more."""
    packing = zlib.decompressobj(window)
    rows = packing.decompress(data, size + 1)
    is_ended = packing.eof if window > 0 else data.endswith(FLUSHED) and not packing.eof
    if len(rows) != size or not is_ended:
        raise ValueError("another number of bytes")
    return np.frombuffer(rows, np.uint8)


def most_deflated(size: int) -> int:
    """More bytes than deflate makes of as many."""
    return size + (size >> 3) + 64


def stream_end(adler: int) -> bytes:
    """What ends a stream of pieces: an empty last block, and the Adler-32 of all."""
    packing: Any = zlib.compressobj(LEVEL, zlib.DEFLATED, -zlib.MAX_WBITS)
    return bytes(packing.flush(zlib.Z_FINISH)) + struct.pack(">I", adler)
