"""Draw lists, which are JSON texts, and their pictures."""

import json
from time import perf_counter
from typing import Any, Callable, Dict, List, Optional, SupportsIndex, Tuple, Union

from ._arguments import integer, shown, thread_count
from ._buffers import Buffer, exact_bytes
from ._declarations import CError, CImageInfo
from ._errors import LimitError, TileSizeError
from ._ffi import library, memory_of
from ._numbers import MAX_LIST_BYTES
from ._picture import ImageInfo, Picture, memory_for
from ._threads import leave, share, with_stack

TILE_SIZES = (8, 16, 32, 64)
# A triangle takes at least two bytes of a list, as the index of a strip. Where triangles as large as the picture meet
# more pixels, it is looked how long one tile row takes: they may take some tenths of a second.
LONG_PIXELS = 1 << 29
TRIANGLE_BYTES, MAX_TRIANGLES = 2, 65536
# What takes longer is drawn in parts of so many seconds. Each reads the list, in a tenth of its time at most.
PART_SECONDS, READINGS = 0.5, 10
# Lists of as many bytes are read in some tenths of a second, also those with an error.
QUICK_BYTES = 1 << 20
DrawList = Union[bytes, bytearray, memoryview, str, Dict[str, Any], List[Any]]


@with_stack
def draw(
    draw_list: DrawList, tile_size: SupportsIndex = 32, threads: SupportsIndex = 1, out: Optional[Any] = None
) -> Picture:
    """Draws a draw list: a text or its bytes, or a value that json writes as one.

    `tile_size` is the width and height of a tile in pixels, 8, 16, 32 or 64. `threads` is how many threads draw, each
    its own part of the picture; it is what the program calls workers. Neither changes a byte. Each thread reads the
    whole list, so several pay if drawing takes longer than reading. `out` is a buffer for the pixels, as a numpy array
    or a bytearray, of exactly their size and shape. An interrupt is raised when the threads have ended. What takes more
    than half a second or so is drawn in parts, of which an interrupt leaves out those that have not begun. Raises an
    Error, and ValueError if `threads` is less than 1 or `out` does not fit.
    """
    count = thread_count(threads)
    size, data = tile_size_of(tile_size), as_bytes(draw_list)
    begun = perf_counter()
    info = read_image_info(data)
    reading = perf_counter() - begun
    rows, row_bytes = -(-info.height // size), info.width * info.pixel_bytes
    with memory_for(info, out) as pixels, Buffer(pixels) as memory:
        start = memory.address

        def draw_range(first: int, end: int) -> None:
            begin, stop = (min(row * size, info.height) * row_bytes for row in (first, end))
            library().trirast_list_draw_rows(data, len(data), size, first, end, start + begin, stop - begin, CError())

        triangles = min(len(data) // TRIANGLE_BYTES, MAX_TRIANGLES)
        is_long = triangles * info.width * info.height > LONG_PIXELS
        least = parts_of_long(draw_range, rows, reading) if is_long else 1
        share(draw_range, lambda parts: tile_row_ranges(rows, max(parts, least)), count, [memory])
        return Picture(info.width, info.height, info.is_depth, pixels)


def parts_of_long(draw_range: Callable[[int, int], None], rows: int, reading: float) -> int:
    """In how many parts to draw, so that none takes long: about, from one tile row in the middle. `reading` is the
    seconds in which the list is read."""
    begun = perf_counter()
    draw_range(rows // 2, rows // 2 + 1)
    drawing = rows * (perf_counter() - begun - reading)
    return int(drawing / max(PART_SECONDS, READINGS * reading))


@with_stack
def draw_file(draw_list: DrawList, tile_size: SupportsIndex = 32) -> bytes:
    """The whole file of a draw list's picture, PPM or PGM, header and pixels, drawn by one thread. An interrupt need
    not wait for it: drawing goes on alone, and the interpreter ends after it. Raises an Error."""
    size, data = tile_size_of(tile_size), as_bytes(draw_list)
    file = bytearray(read_image_info(data).file_bytes)
    memory = memory_of(memoryview(file))
    leave(lambda: library().trirast_list_draw(data, len(data), size, memory, len(file), CError()))
    return bytes(file)


@with_stack
def image_info(draw_list: DrawList) -> ImageInfo:
    """The size of a draw list's picture and of its file, without drawing it. Raises an Error."""
    return read_image_info(as_bytes(draw_list))


def tile_size_of(given: SupportsIndex) -> int:
    """A tile size. Raises TileSizeError at any other."""
    size = integer("tile_size", given)
    if size not in TILE_SIZES:
        raise TileSizeError.of_line(f"tile_size: expected 8, 16, 32 or 64 pixels, got {shown(size)}")
    return size


def as_bytes(draw_list: DrawList) -> bytes:
    """The text of a draw list. Raises LimitError if it is too long."""
    data = text_of(draw_list)
    if len(data) > MAX_LIST_BYTES:
        raise LimitError.of_line(f"draw_list: expected at most {MAX_LIST_BYTES} bytes, got {len(data)}")
    return data


def text_of(draw_list: DrawList) -> bytes:
    if isinstance(draw_list, str):
        # Half a pair of UTF-16 is no text: the library refuses its bytes.
        return str.encode(draw_list, errors="surrogatepass")
    if isinstance(draw_list, (bytes, bytearray, memoryview)):
        return exact_bytes(draw_list)
    return json.dumps(draw_list, separators=(",", ":")).encode()


def read_image_info(data: bytes) -> ImageInfo:
    info = CImageInfo()
    read(data, lambda: library().trirast_list_info(data, len(data), info, CError()))
    return ImageInfo(info.width, info.height, info.pixel_bytes, info.header_bytes, info.file_bytes)


def read(data: bytes, call: Callable[[], Any]) -> None:
    """Makes a call that reads a list. An interrupt need not wait for one that is long."""
    if len(data) > QUICK_BYTES:
        leave(call)
    else:
        call()


def tile_row_ranges(rows: int, threads: int) -> List[Tuple[int, int]]:
    """The tile rows as one range for each thread. None is empty, and their lengths differ by at most one."""
    parts = min(rows, threads)
    return [(rows * part // parts, rows * (part + 1) // parts) for part in range(parts)]
