"""Draw lists as texts, and the pictures that several tests expect."""

from __future__ import annotations

WHITE = "0,255,255,255,255"

# 3 by 3 pixels, and a triangle over the upper left half of them.
TRIANGLE = (
    '{"width":3,"height":3,"draws":[{"vertices":'
    '[[128,128,0,255,255,255,255],[640,128,0,255,255,255,255],[128,640,0,255,255,255,255]],"triangles":[[0,1,2]]}]}'
)

# Nothing but the clear colour, in 3 by 3 pixels.
BLACK = "000000 000000 000000  000000 000000 000000  000000 000000 000000"

# Pixels (0, 0), (1, 0) and (0, 1) in white: the other centres of the triangle over the upper left half lie on its
# hypotenuse, which is a right edge.
CORNER = "FFFFFF FFFFFF 000000  FFFFFF 000000 000000  000000 000000 000000"

# 65 by 65 pixels, and a triangle over the upper left half of 64 by 64 of them and a little more.
HALF = (
    '{"width":65,"height":65,"draws":[{"vertices":'
    '[[0,0,0,255,255,255,255],[16640,0,0,255,255,255,255],[0,16640,0,255,255,255,255]],"triangles":[[0,1,2]]}]}'
)


def draw(vertices: str, keys: str = "", triangles: str = "[0,1,2]") -> str:
    """A draw of triangles with these further keys, each behind a comma."""
    return f'{{"vertices":[{vertices}],"triangles":[{triangles}]{keys}}}'


def draw_list(width: int, height: int, *draws: str, keys: str = "") -> str:
    """A draw list with these further keys, each behind a comma."""
    return f'{{"width":{width},"height":{height}{keys},"draws":[{",".join(draws)}]}}'


def corner(colour: str) -> str:
    """The vertices of the triangle over the upper left half of 3 by 3 pixels, in one colour with its alpha."""
    return f"[128,128,0,{colour}],[640,128,0,{colour}],[128,640,0,{colour}]"


def white_before(width: int, height: int, first: int) -> bytes:
    """The file of a black picture with white pixels at the left: this many in row 0, and one less in each row below."""
    header = f"P6\n{width} {height}\n255\n".encode()
    whites = (max(first - row, 0) for row in range(height))
    return header + b"".join(b"\xff\xff\xff" * white + b"\0\0\0" * (width - white) for white in whites)
