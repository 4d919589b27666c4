"""The two kinds of picture files that the program writes: PPM of colours, and PGM of depths in 16 bits.

    python3 -m tools.picture_file one.ppm other.ppm

Says whether two files have the same bytes, and if not, at which pixel they first differ. Exit status 1 if they differ.
"""

from __future__ import annotations

import argparse
import sys
from dataclasses import dataclass

# Bytes of a pixel, by the magic number and the greatest value of a file.
PIXEL_BYTES = {(b"P6", b"255"): 3, (b"P5", b"65535"): 2}
SPELLINGS = {size: spelling for spelling, size in PIXEL_BYTES.items()}


class NotAPicture(ValueError):
    """Bytes that are no picture file of the two kinds."""


@dataclass(frozen=True)
class PictureFile:
    """A picture: `pixel_data` has its rows from top to bottom, with 3 bytes of colour or 2 of depth for a pixel."""

    width: int
    height: int
    pixel_bytes: int
    pixel_data: bytes

    @property
    def shape(self) -> str:
        return f"{self.width} by {self.height} with {self.pixel_bytes} bytes a pixel"

    def pixels(self) -> list[bytes]:
        return [self.pixel_data[k : k + self.pixel_bytes] for k in range(0, len(self.pixel_data), self.pixel_bytes)]

    def encode(self) -> bytes:
        """The file's bytes."""
        magic, greatest = SPELLINGS[self.pixel_bytes]
        return b"%s\n%d %d\n%s\n" % (magic, self.width, self.height, greatest) + self.pixel_data


def decode(data: bytes) -> PictureFile:
    """The picture of a file. Raises `NotAPicture` if the bytes are no such file."""
    try:
        magic, size, greatest, pixel_data = data.split(b"\n", 3)
        width, height = (int(number) for number in size.split(b" "))
    except ValueError:
        raise NotAPicture("no header of a picture file") from None
    pixel_bytes = PIXEL_BYTES.get((magic, greatest))
    if pixel_bytes is None or len(pixel_data) != pixel_bytes * width * height:
        raise NotAPicture("no picture file of the two kinds")
    return PictureFile(width, height, pixel_bytes, pixel_data)


def first_byte_that_differs(one: bytes, other: bytes) -> int:
    return next((k for k, pair in enumerate(zip(one, other)) if pair[0] != pair[1]), min(len(one), len(other)))


def difference(one: bytes, other: bytes) -> str | None:
    """Returns `None` if two files have the same bytes, else a line that says where they first differ."""
    if one == other:
        return None
    try:
        ours, theirs = decode(one), decode(other)
    except NotAPicture:
        first = first_byte_that_differs(one, other)
        return f"the files have {len(one)} and {len(other)} bytes and differ from byte {first}"
    if ours.shape != theirs.shape:
        return f"the pictures are {ours.shape} and {theirs.shape}"
    pairs = enumerate(zip(ours.pixels(), theirs.pixels()))
    unlike = [(index, pair) for index, pair in pairs if pair[0] != pair[1]]
    index, (mine, yours) = unlike[0]
    row, column = divmod(index, ours.width)
    return f"{len(unlike)} pixels differ, first ({column}, {row}): {mine.hex(' ')} and {yours.hex(' ')}"


def main() -> int:
    parser = argparse.ArgumentParser(description="Compares two picture files.")
    parser.add_argument("files", nargs=2, metavar="FILE")
    contents = []
    for path in parser.parse_args().files:
        with open(path, "rb") as file:
            contents.append(file.read())
    found = difference(*contents)
    print("the same bytes" if found is None else found)
    return 0 if found is None else 1


if __name__ == "__main__":
    sys.exit(main())
