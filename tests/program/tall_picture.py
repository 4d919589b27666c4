"""A picture of 24 tile rows, which several workers draw in eight batches of three: 64 by 192 pixels in tiles of 8.

Its triangle has the upper left half of the picture, and no two tile rows have the same bytes.
"""

from __future__ import annotations

from tools import draw_list

WIDTH, HEIGHT, TILE = 64, 192, 8
COLUMNS, ROWS = WIDTH // TILE, HEIGHT // TILE
# Batches have at most an eighth of a picture's tile rows, and at most 262,144 pixels.
TOGETHER = ROWS // 8
TILE_BYTES = 3 * TILE * TILE
ROW_BYTES = COLUMNS * TILE_BYTES

CORNERS = ((0, 0), (256 * WIDTH, 0), (0, 256 * HEIGHT))
DRAW = draw_list.draw([draw_list.vertex(x, y) for x, y in CORNERS])
LIST = draw_list.encode(draw_list.draw_list(WIDTH, HEIGHT, DRAW))

HEADER = b"P6\n64 192\n255\n"
# The slanted edge is 3 * x + y = 192. A pixel's centre is half a pixel to the right of and below its corner, and one
# that lies on this edge is not covered.
PIXELS = b"".join(
    b"\xff\xff\xff" if 3 * column + row + 2 < 192 else b"\0\0\0" for row in range(HEIGHT) for column in range(WIDTH)
)
PICTURE = HEADER + PIXELS


def with_rows(count: int) -> bytes:
    """The file up to the end of this many tile rows."""
    return PICTURE[: len(HEADER) + ROW_BYTES * count]


def arguments(workers: int) -> list[str]:
    """The program's arguments for this picture."""
    return ["--tile", str(TILE), "--workers", str(workers)]
