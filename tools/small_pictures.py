"""Draw lists of one triangle with their picture files, worked out by hand."""

from __future__ import annotations

from tools.draw_list import RED, WHITE, draw, draw_list, vertex

# Samples of a picture of 3 by 3 pixels lie on all corners. The triangle covers three of them, the square a fourth.
CORNERS = ((128, 128), (640, 128), (128, 640))
FIRST_VERTICES = [vertex(x, y) for x, y in CORNERS]
RED_VERTICES = [vertex(x, y, colour=RED) for x, y in CORNERS]
SQUARE_VERTICES = [*FIRST_VERTICES[:2], vertex(640, 640), FIRST_VERTICES[2]]
FIRST_DRAW, RED_DRAW = draw(FIRST_VERTICES), draw(RED_VERTICES)
FIRST = draw_list(3, 3, FIRST_DRAW)

HEADER_3_BY_3 = b"P6\n3 3\n255\n"
FIRST_PICTURE = HEADER_3_BY_3 + b"".join(bytes(WHITE) if k in (0, 1, 3) else bytes(3) for k in range(9))
RED_PICTURE = HEADER_3_BY_3 + b"".join(bytes(RED) if k in (0, 1, 3) else bytes(3) for k in range(9))
SQUARE_PICTURE = HEADER_3_BY_3 + b"".join(bytes(WHITE) if k in (0, 1, 3, 4) else bytes(3) for k in range(9))

# Three rows of tiles of 32 pixels. The pixels of the upper left half are white.
LARGE_SIZE = 65
LARGE = draw_list(LARGE_SIZE, LARGE_SIZE, draw([vertex(0, 0), vertex(16640, 0), vertex(0, 16640)]))
LARGE_HEADER = b"P6\n65 65\n255\n"
LARGE_PICTURE = LARGE_HEADER + b"".join(
    bytes(WHITE) if column + row <= 63 else bytes(3) for row in range(LARGE_SIZE) for column in range(LARGE_SIZE)
)
# The lengths of the file up to the header and up to each tile row, from nothing to the last but one.
LARGE_BEGINNINGS = (0, len(LARGE_HEADER), len(LARGE_HEADER) + 32 * 65 * 3, len(LARGE_HEADER) + 64 * 65 * 3)

OUT_OF_MEMORY = b"trirast: out of memory\n"
