"""Lists that are no draw lists, and lists at their limits."""

from __future__ import annotations

import pytest

from tests.program.lists import CORNER, TRIANGLE, corner, draw, draw_list
from tests.program.program import call, check_refused, check_written, colour_file

# The most bytes that the input may have.
MOST_BYTES = 67_108_864


@pytest.mark.parametrize(
    ("text", "fault"),
    [
        (b"", "1 NotJson"),
        (b"\xff", "1 NotJson"),
        (b'{"width":1', "1 NotJson"),
        (b"[]", "4 WrongKind"),
        (b'{"width":1,"height":1}', "3 MissingKey"),
        (b'{"width":1,"height":1,"draws":[],"fog":1}', "2 UnknownKey"),
        (b'{"width":1.0,"height":1,"draws":[]}', "4 WrongKind"),
        (b'{"width":0,"height":1,"draws":[]}', "5 OutOfRange"),
        (b'{"width":4097,"height":1,"draws":[]}', "5 OutOfRange"),
        (b'{"width":1,"height":1,"samples":2,"draws":[]}', "5 OutOfRange"),
        (b'{"width":0,"fog":1,"draws":[]}', "2 UnknownKey"),
        (b'{"width":0,"draws":[]}', "3 MissingKey"),
        (b'{"width":0,"height":"x","draws":[]}', "5 OutOfRange"),
        (b'{"width":1,"height":"x","draws":7}', "4 WrongKind"),
        (b'{"width":1,"height":1,"clear":[0,0],"draws":[]}', "4 WrongKind"),
        (
            b'{"width":1,"height":1,"draws":[{"vertices":[],"triangles":[]},{"vertices":[],"triangles":[[0,0,0]]}]}',
            "6 BadIndex in draw 1",
        ),
        (b'{"width":1,"height":1,"draws":[{"vertices":[[0,0,0,0,0,0]],"triangles":[]}]}', "4 WrongKind in draw 0"),
        (b'{"width":1,"height":1,"draws":[{"vertices":[],"triangles":[],"cull":"Back"}]}', "5 OutOfRange in draw 0"),
        (
            b'{"width":1,"height":1,"draws":[{"vertices":[[0,0,65536,0,0,0,0]],"triangles":[[0,0,1]]}]}',
            "5 OutOfRange in draw 0",
        ),
        (
            b'{"width":1,"height":1,"draws":[{"vertices":[[8388608,0,0,0,0,0,0]],"triangles":[]}]}',
            "5 OutOfRange in draw 0",
        ),
        (
            b'{"width":1,"height":1,"draws":[{"vertices":[[0,-8388609,0,0,0,0,0]],"triangles":[]}]}',
            "5 OutOfRange in draw 0",
        ),
        (
            b'{"width":1,"height":1,"draws":[{"vertices":[[0,0,0,0,0,0,0]],"triangles":[[0,0,1]]}]}',
            "6 BadIndex in draw 0",
        ),
    ],
)
def test_reports_the_first_fault_of_a_list(text: bytes, fault: str) -> None:
    check_refused(text, f"list fault {fault}")


def test_refuses_a_triangle_with_an_index_past_the_last_vertex() -> None:
    text = draw_list(3, 3, draw(corner("255,255,255,255"), triangles="[0,1,3]"))
    check_refused(text, "list fault 6 BadIndex in draw 0")


def test_refuses_each_beginning() -> None:
    for end in range(len(TRIANGLE)):
        check_refused(TRIANGLE[:end], "list fault 1 NotJson")


@pytest.mark.parametrize(
    ("count", "fault"), [(100, "4 WrongKind"), (127, "4 WrongKind"), (128, "1 NotJson"), (200, "1 NotJson")]
)
def test_refuses_brackets(count: int, fault: str) -> None:
    """`serde_json` nests at most 127 deep."""
    check_refused("[" * count + "]" * count, f"list fault {fault}")


def crowded(*counts: tuple[int, int]) -> str:
    """A list of 3 by 3 pixels. Each draw has these numbers of vertices and triangles; its last vertex is repeated."""

    def crowded_draw(vertices: int, triangles: int) -> str:
        first = "[128,128,0,255,255,255,255],[640,128,0,255,255,255,255]"
        more = ",".join(["[128,640,0,255,255,255,255]"] * (vertices - 2))
        return draw(f"{first},{more}", triangles=",".join(["[0,1,2]"] * triangles))

    return draw_list(3, 3, *(crowded_draw(*count) for count in counts))


@pytest.mark.parametrize(
    "counts", [pytest.param((65_536, 1), id="65,536 vertices"), pytest.param((3, 65_536), id="65,536 triangles")]
)
def test_takes_lists_at_their_limits(counts: tuple[int, int]) -> None:
    check_written(crowded(counts), colour_file(3, 3, CORNER))


@pytest.mark.parametrize(
    ("counts", "fault"),
    [
        (((65_537, 1), (3, 1)), "7 TooMany in draw 0"),
        (((3, 65_537), (3, 1)), "7 TooMany in draw 0"),
        (((3, 40_000), (3, 25_537)), "7 TooMany in draw 1"),
    ],
)
def test_refuses_lists_past_their_limits(counts: tuple[tuple[int, int], ...], fault: str) -> None:
    check_refused(crowded(*counts), f"list fault {fault}")


def test_refuses_more_than_32768_quads() -> None:
    vertices = (
        "[128,128,0,255,255,255,255],[640,128,0,255,255,255,255],"
        "[640,640,0,255,255,255,255],[128,640,0,255,255,255,255]"
    )
    quads = ",".join(["[0,1,2,3]"] * 32_769)
    text = f'{{"width":3,"height":3,"draws":[{{"vertices":[{vertices}],"quads":[{quads}]}}]}}'
    check_refused(text, "list fault 7 TooMany in draw 0")


def test_counts_draws() -> None:
    empty = draw("", triangles="")
    check_written(draw_list(1, 1, *[empty] * 1024), colour_file(1, 1, "000000"))
    check_refused(draw_list(1, 1, *[empty] * 1025), "list fault 7 TooMany")


def test_draws_an_empty_picture_of_the_greatest_size() -> None:
    answer = call('{"width":4096,"height":4096,"draws":[]}', "--tile", "64")
    assert answer.status == 0
    assert len(answer.output) == 50_331_665
    assert answer.output.startswith(b"P6\n4096 4096\n255\n")
    assert answer.output.count(0, 17) == 50_331_648


def test_takes_an_input_of_the_greatest_length() -> None:
    check_written(TRIANGLE + " " * (MOST_BYTES - len(TRIANGLE)), colour_file(3, 3, CORNER))


@pytest.mark.parametrize("beginning", [pytest.param(TRIANGLE, id="a list"), pytest.param("{]", id="no list")])
def test_takes_no_input_of_a_byte_more(beginning: str) -> None:
    """It is not reported that the bytes denote no list."""
    check_refused(beginning + " " * (MOST_BYTES + 1 - len(beginning)), "input too long")
