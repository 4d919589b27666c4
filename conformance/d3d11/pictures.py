"""A picture as runs: words of red, green, blue and one less than the number of pixels that have them, at
most 256 in a word."""

from __future__ import annotations

from conformance.d3d11.streams import Malformed

MAX_RUN = 256


def decode(runs: bytes, pixels: int) -> bytes:
    """Red, green and blue of this number of pixels. Raises `Malformed` if the runs have another number."""
    picture = b"".join(runs[k : k + 3] * (runs[k + 3] + 1) for k in range(0, len(runs) // 4 * 4, 4))
    if len(picture) != 3 * pixels or len(runs) % 4:
        raise Malformed(f"a picture of {len(picture) // 3} pixels, and not of {pixels}")
    return picture


def encode(picture: bytes) -> bytes:
    runs = bytearray()
    for first in range(0, len(picture), 3):
        colour = picture[first : first + 3]
        if runs[-4:-1] == colour and runs[-1] < MAX_RUN - 1:
            runs[-1] += 1
        else:
            runs += colour + b"\0"
    return bytes(runs)
