"""Pictures, and their sizes."""

import os
from typing import Any, Dict, Iterable, NamedTuple, Optional, SupportsFloat, Tuple, Union

from ._arguments import integer, shown
from ._buffers import HIGH_FIRST, Form, check_writable
from ._png import PNG, checked_dpi, png_chunks

Path = Union[str, "os.PathLike[str]"]


class ImageInfo(NamedTuple):
    """The size of a picture and of its file: `file_bytes` is `header_bytes` + `width` * `height` * `pixel_bytes`."""

    width: int
    height: int
    pixel_bytes: int
    header_bytes: int
    file_bytes: int

    @property
    def is_depth(self) -> bool:
        """Whether the picture shows depths."""
        return self.pixel_bytes == 2


def header_of(width: int, height: int, is_depth: bool) -> bytes:
    """The header of a picture's file."""
    magic, greatest = (b"P5", 65535) if is_depth else (b"P6", 255)
    return b"%s\n%d %d\n%d\n" % (magic, width, height, greatest)


class Picture:
    """A picture: `width` and `height` in pixels, and `pixels`, row after row from the top.

    A pixel is three bytes, red, green and blue; or, if the picture shows depths (`is_depth`), two, the high one first.
    numpy.asarray(picture) shares the bytes, with the shape (height, width, 3) of 8 bits, or (height, width) of 16. A
    copy, by copy or pickle, has bytes of its own.
    """

    def __init__(self, width: int, height: int, is_depth: bool, memory: memoryview) -> None:
        shape = [height, width, 2 if is_depth else 3]
        if memory.nbytes != height * width * shape[2]:
            raise ValueError(f"memory: expected {height * width * shape[2]} bytes, got {memory.nbytes}")
        # All that is said of the picture's size is the shape of the bytes that are there.
        self._pixels = memory.cast("B", shape=shape)

    @property
    def width(self) -> int:
        """The width in pixels."""
        return self._shape[1]

    @property
    def height(self) -> int:
        """The height in pixels."""
        return self._shape[0]

    @property
    def is_depth(self) -> bool:
        """Whether the picture shows depths."""
        return self._shape[2] == 2

    @property
    def _shape(self) -> Tuple[int, ...]:
        return self._pixels.shape or (0, 0, 0)

    @property
    def pixels(self) -> memoryview:
        """The picture's own bytes, of the shape (height, width, 3), or (height, width, 2) of depths."""
        return memoryview(self._pixels)

    @property
    def header(self) -> bytes:
        """The header of the picture's file."""
        return header_of(self.width, self.height, self.is_depth)

    def pixel(self, column: int, row: int) -> Tuple[int, int, int]:
        """Red, green and blue of a pixel. Columns and rows are counted from 0 at the upper left corner. Raises
        ValueError at a picture of depths."""
        if self.is_depth:
            raise ValueError("pixel: expected a picture of colours, got one of depths; use depth")
        red, green, blue = self._at(column, row)
        return red, green, blue

    def depth(self, column: int, row: int) -> int:
        """The depth of a pixel's sample 0. Raises ValueError at a picture of colours."""
        if not self.is_depth:
            raise ValueError("depth: expected a picture of depths, got one of colours; use pixel")
        return int.from_bytes(self._at(column, row), "big")

    def _at(self, column: int, row: int) -> bytes:
        i, j = integer("column", column), integer("row", row)
        if not (0 <= i < self.width and 0 <= j < self.height):
            wanted = f"column 0 to {self.width - 1} and row 0 to {self.height - 1}"
            raise IndexError(f"pixel: expected {wanted}, got {shown(i)} and {shown(j)}")
        length = self._shape[2]
        first = length * (j * self.width + i)
        return bytes(self._pixels.cast("B")[first : first + length])

    def save(self, path: Path, *, dpi: Optional[SupportsFloat] = None) -> None:
        """Writes the picture's file. By the end of the path it is a PNG file (.png), or the file that the program
        writes: PPM (.ppm) of colours, PGM (.pgm) of depths. `dpi` is the number of pixels per inch, which a PNG file
        alone has. Raises ValueError at any other end, and at `dpi` for another file."""
        name, ends = os.fsdecode(path), (PNG, ".pgm" if self.is_depth else ".ppm")
        end = os.path.splitext(name)[1].lower()
        if end not in ends:
            shows = "depths" if self.is_depth else "colours"
            raise ValueError(f"path: expected a name that ends in {' or '.join(ends)}, for {shows}, got {shown(name)}")
        dots = checked_dpi(dpi, name)
        write(path, png_chunks(self._pixels, dots) if end == PNG else self._netpbm())

    def save_ppm(self, path: Path) -> None:
        """Writes a picture of colours as a PPM file, whatever its name. Raises ValueError at one of depths, which only
        a PGM file can hold."""
        if self.is_depth:
            raise ValueError("ppm: expected a picture of colours, got one of depths; use save, which writes PGM")
        write(path, self._netpbm())

    def _netpbm(self) -> "list[Any]":
        return [self.header, self._pixels]

    def _repr_png_(self) -> bytes:
        """The picture as a PNG file, by which notebooks show it."""
        return b"".join(png_chunks(self._pixels))

    @property
    def __array_interface__(self) -> Dict[str, Any]:
        """numpy's array protocol, version 3, over the picture's own bytes."""
        shape, kind = (self._shape[:2], ">u2") if self.is_depth else (self._shape, "|u1")
        return {"version": 3, "shape": shape, "typestr": kind, "data": self._pixels}

    def __reduce__(self) -> Tuple[Any, ...]:
        return picture_of, (self.width, self.height, self.is_depth, self.bytes)

    def __repr__(self) -> str:
        return f"<Picture {self.width} by {self.height}, {'depths' if self.is_depth else 'colours'}>"

    @property
    def bytes(self) -> bytes:
        """The bytes of all pixels, as a copy."""
        return bytes(self._pixels)


def save_png(path: Path, pixels: memoryview, dpi: Optional[SupportsFloat]) -> None:
    """Writes pixels with alpha, which a PNG file alone has. Raises ValueError at any other end of the path."""
    name = os.fsdecode(path)
    if os.path.splitext(name)[1].lower() != PNG:
        raise ValueError(f"path: expected a name that ends in {PNG}, for a picture with alpha, got {shown(name)}")
    write(path, png_chunks(pixels, checked_dpi(dpi, name)))


def write(path: Path, parts: Iterable[Any]) -> None:
    """Writes a file of several parts."""
    whole = list(parts)
    with open(path, "wb") as file:
        file.writelines(whole)


def picture_of(width: int, height: int, is_depth: bool, pixels: bytes) -> Picture:
    """A picture with memory of its own."""
    return Picture(width, height, is_depth, memoryview(bytearray(pixels)))


def memory_for(info: ImageInfo, out: Optional[Any]) -> memoryview:
    """New memory for a picture, or the caller's own."""
    if out is None:
        return memoryview(bytearray(info.file_bytes - info.header_bytes))
    size = (info.height, info.width)
    forms = (
        [Form((HIGH_FIRST,), size), Form(("uint8",), (*size, 2))] if info.is_depth else [Form(("uint8",), (*size, 3))]
    )
    return check_writable("out", out, *forms).cast("B")
