"""Small pictures whose pixels were computed by hand."""

from __future__ import annotations

import pytest

from tests.program.lists import BLACK, CORNER, WHITE, corner, draw, draw_list
from tests.program.program import TILE_SIZES, check_written, colour_file

# The upper and the lower half of a square of 2 by 2 pixels, from centre to centre.
UPPER = f"[128,128,{WHITE}],[640,128,{WHITE}],[128,640,{WHITE}]"
LOWER = f"[640,128,{WHITE}],[640,640,{WHITE}],[128,640,{WHITE}]"
MIDDLE = "000000 000000 000000  000000 FFFFFF 000000  000000 000000 000000"
BOTH = "FFFFFF FFFFFF 000000  FFFFFF FFFFFF 000000  000000 000000 000000"


def check(text: str, pixels: str, size: tuple[int, int] = (3, 3)) -> None:
    """Checks that the program draws these pixels."""
    check_written(text, colour_file(*size, pixels))


def check_corner(colour: str, keys: str, pixels: str) -> None:
    """Checks the pixels of one draw of the corner triangle in this colour, with these further keys."""
    check(draw_list(3, 3, draw(corner(colour), keys)), pixels)


def test_draws_nothing() -> None:
    check('{"width":1,"height":1,"draws":[]}', "000000", (1, 1))


@pytest.mark.parametrize(
    ("drawn", "pixels"),
    [
        pytest.param(draw(UPPER), CORNER, id="the upper half"),
        pytest.param(draw(LOWER), MIDDLE, id="the lower half"),
        pytest.param(draw(f"{UPPER},{LOWER}", triangles="[0,1,2],[3,4,5]"), BOTH, id="both halves"),
    ],
)
def test_splits_a_square_by_the_top_left_rule(drawn: str, pixels: str) -> None:
    check(draw_list(3, 3, drawn), pixels)


@pytest.mark.parametrize(
    "drawn",
    [
        pytest.param(draw(f"[0,0,{WHITE}],[256,256,{WHITE}],[512,512,{WHITE}]"), id="a line"),
        pytest.param(draw(corner("255,255,255,255"), triangles="[0,0,1]"), id="a vertex twice"),
    ],
)
def test_draws_no_flat_triangle(drawn: str) -> None:
    check(draw_list(3, 3, drawn), BLACK)


@pytest.mark.parametrize(
    ("order", "mode", "pixels"),
    [
        ("[0,1,2]", "none", CORNER),
        ("[0,1,2]", "front", BLACK),
        ("[0,1,2]", "back", CORNER),
        ("[0,2,1]", "none", CORNER),
        ("[0,2,1]", "front", CORNER),
        ("[0,2,1]", "back", BLACK),
    ],
)
def test_culls_by_orientation(order: str, mode: str, pixels: str) -> None:
    check(draw_list(3, 3, draw(corner("255,255,255,255"), f',"cull":"{mode}"', order)), pixels)


def test_takes_values_at_the_samples() -> None:
    vertices = "[128,128,0,0,255,0,255],[640,128,0,3,0,0,255],[128,640,0,0,0,0,255]"
    # Floors of values: half of 255 is 127, and half of 3 is 1.
    pixels = "00FF00 017F00 000000  007F00 000000 000000  000000 000000 000000"
    check(draw_list(3, 3, draw(vertices)), pixels)


HALF_A_PIXEL = "[0,0,0,255,255,255,255],[256,0,0,255,255,255,255],[0,256,0,255,255,255,255]"
SLOPE_OF_RED = "[0,0,0,0,0,0,255],[256,0,0,255,0,0,255],[0,256,0,0,0,0,255]"
PIXEL_AND_HALF = "[0,0,0,255,255,255,255],[512,0,0,255,255,255,255],[0,512,0,255,255,255,255]"


@pytest.mark.parametrize(
    ("size", "drawn", "pixels"),
    [
        pytest.param((1, 1), draw(HALF_A_PIXEL), "808080", id="half a pixel"),
        pytest.param((1, 1), draw(SLOPE_OF_RED), "200000", id="a slope of red"),
        pytest.param((2, 1), draw(PIXEL_AND_HALF), "FFFFFF 808080", id="two pixels"),
        pytest.param((2, 1), draw(PIXEL_AND_HALF, ',"scissor":[1,0,2,1]'), "000000 808080", id="one of two pixels"),
        pytest.param((1, 1), draw(PIXEL_AND_HALF, ',"sample_mask":5'), "808080", id="samples 0 and 2"),
        pytest.param((1, 1), draw(PIXEL_AND_HALF, ',"sample_mask":0'), "000000", id="no sample"),
    ],
)
def test_averages_four_samples(size: tuple[int, int], drawn: str, pixels: str) -> None:
    check(draw_list(*size, drawn, keys=',"samples":4'), pixels, size)


def test_resolves_at_the_end() -> None:
    """The pixel is resolved once, after all triangles: sample 0 is red then, and sample 2 white."""
    red = draw("[0,0,0,255,0,0,255],[512,0,0,255,0,0,255],[0,512,0,255,0,0,255]", ',"sample_mask":1')
    check(draw_list(1, 1, draw(HALF_A_PIXEL), red, keys=',"samples":4'), "804040", (1, 1))


@pytest.mark.parametrize(
    ("third", "pixel", "last"),
    [
        pytest.param("[-100000,0,0,255,255,255,255]", "FFFFFF", "BFBFBF", id="a right edge"),
        pytest.param("[100000,0,0,255,255,255,255]", "000000", "404040", id="a left edge"),
    ],
)
def test_covers_a_sample_on_an_edge(third: str, pixel: str, last: str) -> None:
    """An edge runs through sample 1 of column 7 from above the picture to below it."""
    edge = "[2016,-100000,0,255,255,255,255],[2016,100000,0,255,255,255,255]"
    check(draw_list(8, 8, draw(f"{edge},{third}"), keys=',"samples":4'), (pixel * 7 + last) * 8, (8, 8))


def test_tests_depth_at_the_samples() -> None:
    """Depth 1 is equal at one pixel alone."""
    sloped = "[128,128,0,255,255,255,255],[640,128,3,255,255,255,255],[128,640,0,255,255,255,255]"
    red = "[128,128,1,255,0,0,255],[640,128,1,255,0,0,255],[128,640,1,255,0,0,255]"
    draws = draw(sloped, ',"depth_write":true'), draw(red, ',"depth_test":"equal"')
    check(draw_list(3, 3, *draws), "FFFFFF FF0000 000000  FFFFFF 000000 000000  000000 000000 000000")


@pytest.mark.parametrize(
    ("test", "pixels"),
    [("less", CORNER), ("less_equal", "FF0000 FF0000 000000  FF0000 000000 000000  000000 000000 000000")],
)
def test_compares_equal_depths(test: str, pixels: str) -> None:
    white = "[128,128,100,255,255,255,255],[640,128,100,255,255,255,255],[128,640,100,255,255,255,255]"
    red = "[128,128,100,255,0,0,255],[640,128,100,255,0,0,255],[128,640,100,255,0,0,255]"
    first = draw(white, ',"depth_test":"less","depth_write":true')
    check(draw_list(3, 3, first, draw(red, f',"depth_test":"{test}"')), pixels)


LARGE_WHITE = draw(corner("255,255,255,255"))
SMALL_RED = draw("[128,128,0,255,0,0,255],[384,128,0,255,0,0,255],[128,384,0,255,0,0,255]")


@pytest.mark.parametrize(
    ("draws", "pixels"),
    [
        pytest.param(
            (LARGE_WHITE, SMALL_RED),
            "FF0000 FFFFFF 000000  FFFFFF 000000 000000  000000 000000 000000",
            id="red over white",
        ),
        pytest.param((SMALL_RED, LARGE_WHITE), CORNER, id="white over red"),
    ],
)
def test_draws_in_list_order(draws: tuple[str, str], pixels: str) -> None:
    check(draw_list(3, 3, *draws), pixels)


@pytest.mark.parametrize(
    ("colour", "pixels"),
    [
        pytest.param(
            "255,255,255,128", "808080 808080 000000  808080 000000 000000  000000 000000 000000", id="half white"
        ),
        pytest.param("255,255,255,0", BLACK, id="no alpha"),
        pytest.param("255,255,255,255", CORNER, id="full alpha"),
    ],
)
def test_blends_over_what_is_stored(colour: str, pixels: str) -> None:
    check_corner(colour, ',"blend":"over"', pixels)


def test_blends_half_black_on_white() -> None:
    drawn = draw(corner("0,0,0,128"), ',"blend":"over"')
    pixels = "7F7F7F 7F7F7F FFFFFF  7F7F7F FFFFFF FFFFFF  FFFFFF FFFFFF FFFFFF"
    check(draw_list(3, 3, drawn, keys=',"clear":[255,255,255]'), pixels)


def test_draws_a_repeated_triangle_again() -> None:
    """Half white twice."""
    drawn = draw(corner("255,255,255,128"), ',"blend":"over"', "[0,1,2],[0,1,2]")
    check(draw_list(3, 3, drawn), "C0C0C0 C0C0C0 000000  C0C0C0 000000 000000  000000 000000 000000")


@pytest.mark.parametrize(
    ("keys", "pixels"),
    [
        pytest.param(
            ',"scissor":[1,0,2,1]', "000000 FFFFFF 000000  000000 000000 000000  000000 000000 000000", id="one pixel"
        ),
        pytest.param(',"scissor":[1,1,1,1]', BLACK, id="empty"),
        pytest.param(',"scissor":[3,0,0,3]', BLACK, id="inverted"),
        pytest.param(',"scissor":[0,0,4096,4096]', CORNER, id="past the picture"),
        pytest.param(
            ',"write":[true,false,false]',
            "FF0000 FF0000 000000  FF0000 000000 000000  000000 000000 000000",
            id="red alone",
        ),
    ],
)
def test_keeps_to_the_scissor_and_the_write_mask(keys: str, pixels: str) -> None:
    check_corner("255,255,255,255", keys, pixels)


def test_blends_the_channels_of_the_write_mask() -> None:
    """Red and blue."""
    drawn = draw(corner("200,100,50,64"), ',"blend":"over","write":[true,false,true]')
    pixels = "3A1423 3A1423 0A141E  3A1423 0A141E 0A141E  0A141E 0A141E 0A141E"
    check(draw_list(3, 3, drawn, keys=',"clear":[10,20,30]'), pixels)


@pytest.mark.parametrize(
    ("depth", "keys"),
    [pytest.param(0, "", id="no test"), pytest.param(65_535, ',"depth_test":"equal"', id="equal depths")],
)
@pytest.mark.parametrize(
    ("low", "high"),
    [
        pytest.param(-4194304, 4194303, id="half the band"),
        pytest.param(-4194305, 4194304, id="past half the band"),
        pytest.param(-8388608, 8388607, id="the whole band"),
    ],
)
def test_reaches_the_ends_of_the_guard_band(low: int, high: int, depth: int, keys: str) -> None:
    rest = f"{depth},255,255,255,255"
    vertices = f"[{high},{high},{rest}],[{low},{high},{rest}],[{high},{low},{rest}]"
    check(draw_list(2, 2, draw(vertices, keys)), "FFFFFF FFFFFF  FFFFFF FFFFFF", (2, 2))


FOUR_WHITE = "FFFFFF FFFFFF FFFFFF FFFFFF"
FOUR_BLACK = "000000 000000 000000 000000"


@pytest.mark.parametrize(
    ("x", "y", "pixels"),
    [
        pytest.param(4_194_303, 129, FOUR_WHITE, id="below the centres"),
        pytest.param(4_194_303, 127, FOUR_BLACK, id="above the centres"),
        pytest.param(8_388_607, 129, FOUR_WHITE, id="below the centres, to the end"),
        pytest.param(8_388_607, 127, FOUR_BLACK, id="above the centres, to the end"),
    ],
)
def test_draws_slivers(x: int, y: int, pixels: str) -> None:
    """The centres lie on the upper edge, which is a top edge of one triangle and a bottom edge of the other."""
    vertices = f"[0,128,0,255,255,255,255],[{x},128,0,255,255,255,255],[{x},{y},0,255,255,255,255]"
    check(draw_list(4, 1, draw(vertices)), pixels, (4, 1))


@pytest.mark.parametrize("tile", TILE_SIZES)
@pytest.mark.parametrize(
    ("corners", "column"),
    [
        pytest.param(((1920, 128), (2000, 128), (1920, 200)), 7, id="in the tile"),
        pytest.param(((1920, 128), (2176, 128), (1920, 384)), 7, id="into the next"),
        pytest.param(((2176, 128), (2300, 128), (2176, 200)), 8, id="in the next"),
    ],
)
def test_draws_in_the_last_column_of_a_tile(corners: tuple[tuple[int, int], ...], column: int, tile: int) -> None:
    """The pixel stands in the last column of the first tile of 8 pixels.

    The box of the second triangle reaches into the second tile, where it covers no centre, and the third covers the
    centre of a pixel there.
    """
    vertices = ",".join(f"[{x},{y},{WHITE}]" for x, y in corners)
    pixels = "".join("FFFFFF" if place == column else "000000" for place in range(128))
    check_written(draw_list(16, 8, draw(vertices)), colour_file(16, 8, pixels), "--tile", str(tile))
