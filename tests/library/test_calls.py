"""Calls of include/trirast.h by ctypes: the numbers that they write, each found by hand from the header and the rules.

A call is given what the header allows and what it refuses. What it may not change holds 7 in each byte
or 77 in each number.
"""

from __future__ import annotations

import ctypes
from typing import Any, Sequence, Tuple, Union

import pytest

from tests.program.lists import CORNER, TRIANGLE
from tests.program.program import TILE_SIZES, check_written, colour_file
from tools import places
from tests.library.c_types import address, library, number, struct

# An error's status, its cause, the draw in which it is, the element and its value, of which each may be none.
Error = Tuple[int, int, Union[int, None], Union[int, None], Union[int, None]]
Numbers = Tuple[int, ...]

FILE = colour_file(3, 3, CORNER)

# 2 by 9 pixels of depth 258, and in the last row of depth 772: bytes 1, 2 and 3, 4.
LAST_ROW = (
    '{"width":2,"height":9,"output":"depth","clear_depth":258,"draws":[{"vertices":'
    '[[0,0,772,0,0,0,0],[8000,0,772,0,0,0,0],[0,8000,772,0,0,0,0]],'
    '"triangles":[[0,1,2]],"depth_write":true,"scissor":[0,8,2,9]}]}'
)


def alone(status: int) -> Error:
    """The error that this status describes completely; no error with status 0."""
    return (status, 0, None, None, None)


def in_list(cause: int, draw: int | None = None) -> Error:
    """An error of a list with this cause, in this draw or outside of its draws."""
    return (1, cause, draw, None, None)


def in_batch(cause: int, draw: int | None = None, element: int | None = None, value: int | None = None) -> Error:
    """An error of a batch with this cause, in this draw, at this one of its indices, vertices or quads, and the
    index if it is one."""
    return (15, cause, draw, element, value)


DONE = alone(0)
NONE = 2**64 - 1


def error_of(error: Any) -> Error:
    if error.status == 0:
        return DONE
    draw, element, value = (None if place == NONE else place for place in (error.draw, error.element, error.value))
    return (error.status, error.cause, draw, element, value)


def ended(name: str, *arguments: Any) -> Error:
    """The error that a call writes behind these arguments. Its status is the one that is returned; a call that is
    refused is refused too if nobody wants the error."""
    error = struct("trirast_error")(77, 77, 77, 77, 77)
    given = [address(argument) for argument in arguments]
    status = getattr(library(), name)(*given, ctypes.addressof(error))
    assert status == error.status, name
    assert status == 0 or getattr(library(), name)(*given, None) == status, name
    return error_of(error)


def buffer_of(size: int) -> Any:
    return (ctypes.c_ubyte * size)(*[7] * size)


def text_and_length(text: Union[str, bytes]) -> Tuple[bytes, int]:
    data = text if isinstance(text, bytes) else text.encode()
    return data, len(data)


def drawn(text: Union[str, bytes], tile_size: int, size: int) -> Tuple[Error, bytes]:
    """How `trirast_list_draw` ends, and what its buffer of this size then holds."""
    buffer = buffer_of(size)
    return ended("trirast_list_draw", *text_and_length(text), tile_size, buffer, size), bytes(buffer)


def drawn_rows(text: str, tile_size: int, first: int, end: int, size: int) -> Tuple[Error, bytes]:
    """The same of `trirast_list_draw_rows`."""
    buffer = buffer_of(size)
    return ended("trirast_list_draw_rows", *text_and_length(text), tile_size, first, end, buffer, size), bytes(buffer)


def fields(struct: Any) -> Tuple[int, ...]:
    """The numbers of a struct and of those inside of it, in their order."""
    found: list[int] = []
    for name, *_type in struct._fields_:
        value = getattr(struct, name)
        found.extend(fields(value) if isinstance(value, ctypes.Structure) else (value,))
    return tuple(found)


# ---- Lists


def test_has_the_release_and_the_interface_of_the_header() -> None:
    assert library().trirast_interface() == number("TRIRAST_INTERFACE") == 2
    assert library().trirast_version_string().decode() == places.text_of("VERSION").strip()


@pytest.mark.parametrize(("text", "info"), [(TRIANGLE, (3, 3, 3, 11, 38)), (LAST_ROW, (2, 9, 2, 13, 49))])
def test_reads_the_info_of_pictures_of_colours_and_of_depths(text: str, info: Sequence[int]) -> None:
    found = struct("trirast_image_info")(0, 0, 0, 0, 0)
    assert ended("trirast_list_info", *text_and_length(text), found) == DONE
    assert fields(found) == info


def test_keeps_the_info_of_a_list_that_is_refused() -> None:
    found = struct("trirast_image_info")(7, 7, 7, 7, 7)
    assert ended("trirast_list_info", b"{}", 2, found) == in_list(3)
    assert fields(found) == (7, 7, 7, 7, 7)


@pytest.mark.parametrize("tile_size", TILE_SIZES)
def test_draws_a_file_into_the_beginning_of_a_buffer(tile_size: int) -> None:
    assert drawn(TRIANGLE, tile_size, 40) == (DONE, FILE + b"\7\7")


@pytest.mark.parametrize(
    ("first", "end", "size", "wanted"),
    [(1, 2, 6, b"\3\4" * 2 + b"\7\7"), (0, 2, 36, b"\1\2" * 16 + b"\3\4" * 2)],
)
def test_draws_rows_without_a_header(first: int, end: int, size: int, wanted: bytes) -> None:
    assert drawn_rows(LAST_ROW, 8, first, end, size) == (DONE, wanted)


# 65 by 65 pixels, and a triangle over the upper left half of 64 by 64 of them and a little more.
COLOURS = (
    '{"width":65,"height":65,"clear":[1,2,3],"draws":[{"vertices":'
    '[[0,0,0,255,255,255,255],[16640,0,0,255,255,0,255],[0,16640,0,255,0,255,255]],"triangles":[[0,1,2]]}]}'
)
# The depths of 40 by 70 pixels with four samples each.
DEPTHS = (
    '{"width":40,"height":70,"samples":4,"output":"depth","draws":[{"vertices":[[0,0,0,255,255,255,255],'
    '[10240,0,65535,255,255,0,255],[0,17920,300,0,255,255,255]],'
    '"triangles":[[0,1,2]],"depth_test":"less","depth_write":true}]}'
)


@pytest.mark.parametrize(("text", "length"), [(COLOURS, 12_688), (DEPTHS, 5_615)])
def test_draws_the_bytes_of_the_workers(text: str, length: int) -> None:
    error, file = drawn(text, 8, length)
    assert error == DONE
    for tile_size in TILE_SIZES:
        assert drawn(text, tile_size, length) == (DONE, file)
    check_written(text, file, "--workers", "4")


@pytest.mark.parametrize(("text", "length", "header", "rows"), [(COLOURS, 12_688, 13, 9), (DEPTHS, 5_615, 15, 9)])
def test_rows_make_the_picture_wherever_it_is_split(text: str, length: int, header: int, rows: int) -> None:
    _error, file = drawn(text, 8, length)
    row_bytes = {COLOURS: 65 * 3, DEPTHS: 40 * 2}[text]
    for split in range(1, rows):
        middle = 8 * split * row_bytes
        above = drawn_rows(text, 8, 0, split, middle)
        below = drawn_rows(text, 8, split, rows, length - header - middle)
        assert (above[0], below[0]) == (DONE, DONE)
        assert above[1] + below[1] == file[header:]


@pytest.mark.parametrize(
    ("text", "error"),
    [
        ("", in_list(1)),
        ('{"width":1,"height":1,"draws":[],"fog":1}', in_list(2)),
        ("{}", in_list(3)),
        ("[]", in_list(4)),
        ('{"width":0,"height":1,"draws":[]}', in_list(5)),
        ('{"width":1,"height":1,"draws":[{"vertices":[],"strip":[]},{"vertices":[],"strip":[0]}]}', in_list(6, 1)),
        ('{"width":1,"height":1,"draws":[{"vertices":[],"strip":[],"quads":[]}]}', in_list(9, 0)),
        ('{"width":1,"height":1,"draws":[{"vertices":[[0,0,0,0,0,0,0]],"quads":[[0,0,0,0]]}]}', in_list(10, 0)),
    ],
)
def test_numbers_the_errors_of_lists_as_the_header(text: str, error: Error) -> None:
    assert drawn(text, 8, 0) == (error, b"")


@pytest.mark.parametrize(
    ("text", "tile_size", "first", "end", "error"),
    [
        ("[]", 12, 1, 1, alone(5)),
        ("[]", 8, 1, 1, in_list(4)),
        (TRIANGLE, 8, 1, 1, alone(6)),
        (TRIANGLE, 8, 0, 2, alone(6)),
        (TRIANGLE, 8, 0, 1, alone(4)),
    ],
)
def test_reports_the_first_error(text: str, tile_size: int, first: int, end: int, error: Error) -> None:
    """Of the tile size, the list, the rows and the buffer."""
    assert drawn_rows(text, tile_size, first, end, 26) == (error, b"\7" * 26)


def test_numbers_the_errors_of_calls_as_the_header() -> None:
    assert drawn(TRIANGLE, 0, 0) == (alone(5), b"")
    assert drawn(TRIANGLE, 8, 37) == (alone(4), b"\7" * 37)
    assert drawn(b" " * 67_108_865, 8, 0) == (alone(2), b"")


# ---- Batches

WHITE: Numbers = (0, 255, 255, 255, 255)
VERTICES: Sequence[Numbers] = ((128, 128, *WHITE), (640, 128, *WHITE), (128, 640, *WHITE))
SQUARE: Sequence[Numbers] = (*VERTICES[:2], (640, 640, *WHITE), VERTICES[2])
FAR: Numbers = (8_388_608, 0, *WHITE)
OVER: Numbers = (5, 6, 1, 2, 6, 1)
# The picture of the triangle: its first two pixels, and the first one of the second row.
WHITE_CORNER = FILE[11:]


def array_of(kind: Any, elements: Sequence[Any]) -> Any:
    """The address of an array, and the array, which has to stay. One of no elements is NULL."""
    array = (kind * len(elements))(*elements)
    return (ctypes.addressof(array) if elements else None, array)


def vertices_of(rows: Sequence[Numbers], stride: int) -> Any:
    """The address of vertices that lie one every so many bytes, and their memory. Behind the last one
    there is nothing."""
    if not rows:
        return None, None
    data = (
        (b"\xff" * (stride - 16)).join(bytes(struct("trirast_vertex")(*row)) for row in rows)
        if stride >= 16 else bytes(16 * len(rows))
    )
    memory = (ctypes.c_uint32 * (len(data) // 4)).from_buffer_copy(data)
    return ctypes.addressof(memory), memory


def draw_of(
    vertex_count: int = 3, index_count: int = 3, blend: Numbers = (), constant: Numbers = (), **members: int
) -> Any:
    """A draw of {0} but for these members."""
    draw = struct("trirast_draw")(vertex_count=vertex_count, index_count=index_count, **members)
    draw.blend = struct("trirast_blend")(*blend)
    for channel, value in enumerate(constant):
        draw.blend.constant[channel] = value
    return draw


def canvas_of(width: int = 3, height: int = 3, **members: int) -> Any:
    """A canvas, and its memory, each byte of which is 7."""
    canvas = struct("trirast_canvas")(width=width, height=height, **members)
    size = library().trirast_canvas_size(ctypes.addressof(canvas))
    memory = ctypes.create_string_buffer(b"\7" * size, size)
    assert library().trirast_canvas_init(ctypes.addressof(canvas), ctypes.addressof(memory), size) == 0
    return canvas, memory


def drawn_batch(
    draws: Sequence[Any], vertices: Sequence[Numbers] = VERTICES, indices: Sequence[int] = (0, 1, 2),
    canvas: Any = None, first_id: int | None = None, clear: Numbers = (0, 0, 0, 0, 65_535), is_null: bool = True,
    **members: int,
) -> Tuple[Error, bytes]:
    """How a batch is drawn on a canvas that is cleared, and the colours of its pixels. Without indices their address is
    NULL, if so wanted."""
    whole, memory = canvas or canvas_of()
    stride = members.get("vertex_stride") or 16
    index = ctypes.c_uint16 if members.get("index_size") == 2 else ctypes.c_uint32
    kept = [
        array_of(struct("trirast_draw"), draws),
        vertices_of(vertices, stride if stride % 4 == 0 and stride < 4_096 else 16),
    ]
    kept.append(array_of(index, indices) if is_null or indices else (ctypes.addressof(whole), None))
    batch = struct("trirast_batch")(**members)
    batch.draws, batch.vertices, batch.indices = (found for found, _ in kept)
    batch.draw_count, batch.vertex_count, batch.index_count = len(draws), len(vertices), len(indices)
    place = ctypes.addressof(whole)
    assert library().trirast_canvas_clear(place, ctypes.addressof(struct("trirast_clear")(*clear))) == 0
    before = bytes(memory)
    if first_id is None:
        error = ended("trirast_canvas_draw", whole, batch)
    else:
        error = ended("trirast_canvas_draw_ids", whole, batch, first_id)
    assert error == DONE or bytes(memory) == before
    size = 3 * whole.width * whole.height
    pixels = buffer_of(size)
    assert library().trirast_canvas_resolve(place, 0, ctypes.addressof(pixels), size, 0) == 0
    return error, bytes(pixels)


def test_draws_a_batch_as_its_list() -> None:
    assert drawn_batch([draw_of()]) == (DONE, WHITE_CORNER)
    assert drawn_batch([]) == (DONE, WHITE_CORNER)


def test_takes_a_batch_of_nothing() -> None:
    assert drawn_batch([], (), ()) == (DONE, bytes(27))
    assert drawn_batch([draw_of(0, 0), draw_of(0, 0)], (), ()) == (DONE, bytes(27))


def test_draws_vertices_in_their_order() -> None:
    assert drawn_batch([draw_of(3, 0)], indices=()) == (DONE, WHITE_CORNER)
    assert drawn_batch([], indices=()) == drawn_batch([], indices=(), index_size=2) == (DONE, WHITE_CORNER)
    assert drawn_batch([draw_of(0, 0), draw_of(3, 0)], indices=()) == (DONE, WHITE_CORNER)
    for topology, vertices in (
        (0, (*VERTICES, *VERTICES[1:], SQUARE[2])), (1, (*VERTICES[:2], VERTICES[2], SQUARE[2])), (2, SQUARE)
    ):
        assert drawn_batch([draw_of(len(vertices), 0, topology=topology)], vertices, ()) == drawn_batch(
            [draw_of(4, 4, topology=2)], SQUARE, (0, 1, 2, 3)
        )
    found, pixels = drawn_batch([draw_of(6, 0)], (*VERTICES, *VERTICES), (), first_id=6)
    assert (found, pixels[:3]) == (DONE, b"\7\0\0")


def test_draws_nothing_of_an_empty_array_of_indices() -> None:
    assert drawn_batch([draw_of(3, 0)], indices=(), is_null=False) == (DONE, bytes(27))
    assert drawn_batch([], indices=(), is_null=False) == (DONE, bytes(27))
    # Nor does a draw of none in a batch of some.
    assert drawn_batch([draw_of(3, 0), draw_of(3, 3)], (*SQUARE[1:], *VERTICES), (0, 1, 2)) == (DONE, WHITE_CORNER)


def test_draws_indices_of_16_bits() -> None:
    assert drawn_batch([draw_of()], index_size=2) == (DONE, WHITE_CORNER)
    many = (*VERTICES[:2], *[FAR] * 65_533, VERTICES[2])
    assert drawn_batch([draw_of(65_536)], many, (0, 1, 65_535), index_size=2) == (DONE, WHITE_CORNER)
    assert (
        drawn_batch([draw_of(), draw_of()], (*VERTICES, *VERTICES), (0, 1, 2, 2, 0, 1), index_size=2, first_id=1)[1][:3]
        == b"\2\0\0"
    )


@pytest.mark.parametrize(
    ("draws", "vertices", "indices", "members", "error"),
    [
        ([draw_of(3, 1)], VERTICES, (), {}, in_batch(2, 0)),
        ([draw_of(4, 0)], VERTICES, (), {}, in_batch(1, 0)),
        ([draw_of(2, 0)], VERTICES[:2], (), {}, in_batch(4, 0)),
        ([draw_of(3, 0, topology=2)], VERTICES, (), {}, in_batch(4, 0)),
        ([draw_of(3, 0)], (*VERTICES, FAR), (), {}, in_batch(9)),
        ([draw_of(3, 0), draw_of(3, 0)], (*VERTICES, *VERTICES[:2], FAR), (), {}, in_batch(7, 1, 2)),
        ([draw_of(8, 0, topology=2)], (*SQUARE, *VERTICES, VERTICES[0]), (), {}, in_batch(8, 0, 1)),
        ([draw_of(3, 0)], VERTICES, (), {"index_size": 3}, alone(18)),
        ([draw_of()], VERTICES, (0, 1, 65_535), {"index_size": 2}, in_batch(6, 0, 2, 65_535)),
        ([draw_of(3, 4)], VERTICES, (0, 1, 2), {"index_size": 2}, in_batch(2, 0)),
        ([draw_of()], VERTICES, (0, 1, 2, 0), {"index_size": 2}, in_batch(9)),
        ([draw_of(4, 8, topology=2)], SQUARE, (0, 1, 2, 3, 0, 2, 1, 3), {"index_size": 2}, in_batch(8, 0, 1)),
    ],
)
def test_refuses_draws_without_indices_and_of_16_bits(
    draws: Any, vertices: Any, indices: Any, members: Any, error: Error
) -> None:
    assert drawn_batch(draws, vertices, indices, **members) == (error, bytes(27))


def test_refuses_structs_of_other_releases_and_strides() -> None:
    sizes: dict[str, Any] = {"struct_size": ctypes.sizeof(struct("trirast_batch"))}
    assert drawn_batch([draw_of()], **sizes, vertex_stride=16, index_size=4) == (DONE, WHITE_CORNER)
    for size in (1, 8, sizes["struct_size"] - 8, sizes["struct_size"] + 8, 2**32 - 1):
        assert drawn_batch([draw_of()], struct_size=size, vertex_stride=15) == (alone(7), bytes(27))
    for stride in (1, 4, 8, 12, 15, 17, 18, 2_047, 2_052, 2**31, 2**32 - 4, 2**32 - 1):
        assert drawn_batch([draw_of()], vertex_stride=stride) == (alone(16), bytes(27))
    for size in (1, 3, 5, 8, 2**32 - 1):
        assert drawn_batch([draw_of()], index_size=size) == (alone(18), bytes(27))
        # The stride is looked at first.
        assert drawn_batch([draw_of()], index_size=size, vertex_stride=18) == (alone(16), bytes(27))


@pytest.mark.parametrize(("members", "cause"), [
    ({"topology": 3}, 15), ({"topology": 255}, 15), ({"cull": 3}, 16), ({"depth_test": 8}, 17),
    ({"depth_write": 2}, 18), ({"keep": 16}, 19), ({"keep": 255}, 19), ({"scissor_enable": 2}, 20),
    ({"blend": (12,)}, 21), ({"blend": (13,)}, 21), ({"blend": (16,)}, 21), ({"blend": (0, 12)}, 21),
    ({"blend": (0, 0, 0, 13)}, 21), ({"blend": (0, 0, 0, 0, 255)}, 21), ({"blend": (0, 0, 6)}, 22),
    ({"blend": (0, 0, 0, 0, 0, 6)}, 22),
    # Of several the first is named.
    ({"topology": 3, "cull": 3}, 15), ({"cull": 3, "keep": 255, "blend": (12,)}, 16),
    ({"depth_test": 8, "depth_write": 2}, 17), ({"scissor_enable": 2, "blend": (12,)}, 20),
    ({"blend": (0, 0, 6, 0, 12)}, 21),
])
def test_names_the_number_of_a_draw_that_is_out_of_range(members: Any, cause: int) -> None:
    assert drawn_batch([draw_of(0, 0), draw_of(**members)]) == (in_batch(cause, 1), bytes(27))


# 16, 20, 24 .. bytes, with 255 in each that is not a vertex's, and nothing behind the last vertex.
@pytest.mark.parametrize("stride", [16, 20, 28, 64, 2_044, 2_048])
@pytest.mark.parametrize("index_size", [2, 4])
def test_draws_vertices_with_a_stride(stride: int, index_size: int) -> None:
    for draws, vertices, indices in (
        ([draw_of()], VERTICES, (0, 1, 2)),
        ([draw_of(3, 0)], VERTICES, ()),
        ([draw_of(4, 4, topology=2), draw_of(3, 3, topology=1)], (*SQUARE, *VERTICES), (3, 2, 1, 0, 0, 1, 2)),
        ([draw_of()], VERTICES[:2], (0, 1, 1)),
        ([draw_of(2)], VERTICES[:2], (0, 1, 2)),
        ([draw_of(1, 0), draw_of(3)], (VERTICES[0], *VERTICES[:2], FAR), (0, 1, 2)),
        ([draw_of()], (*VERTICES, FAR), (0, 1, 2)),
    ):
        packed = drawn_batch(draws, vertices, indices, index_size=index_size)
        assert drawn_batch(draws, vertices, indices, index_size=index_size, vertex_stride=stride) == packed
        by_ids = drawn_batch(draws, vertices, indices, index_size=index_size, first_id=258)
        assert (
            drawn_batch(draws, vertices, indices, index_size=index_size, vertex_stride=stride, first_id=258) == by_ids
        )


@pytest.mark.parametrize(
    ("draws", "vertices", "indices", "error"),
    [
        ([draw_of(4)], VERTICES, (0, 1, 2), in_batch(1, 0)),
        ([draw_of(2**64 - 1)], VERTICES, (0, 1, 2), in_batch(1, 0)),
        ([draw_of(), draw_of(0, 1)], VERTICES, (0, 1, 2), in_batch(2, 1)),
        ([draw_of(3, 2)], VERTICES, (0, 1, 2), in_batch(4, 0)),
        ([draw_of(3, 3, topology=2)], VERTICES, (0, 1, 2), in_batch(4, 0)),
        ([draw_of(0, 0), draw_of(2)], VERTICES[:2], (0, 1, 2), in_batch(6, 1, 2, 2)),
        ([draw_of()], VERTICES, (0, 1, 2**32 - 1), in_batch(6, 0, 2, 2**32 - 1)),
        ([draw_of()], (*VERTICES[:2], (8_388_608, 0, *WHITE)), (0, 1, 2), in_batch(7, 0, 2)),
        ([draw_of()], ((0, -8_388_609, *WHITE), *VERTICES[1:]), (2, 1, 0), in_batch(7, 0, 0)),
        ([draw_of(3, 4, topology=2)], VERTICES, (0, 1, 2, 0), in_batch(8, 0, 0)),
        ([draw_of()], (*VERTICES, VERTICES[0]), (0, 1, 2), in_batch(9)),
        ([draw_of()], VERTICES, (0, 1, 2, 0), in_batch(9)),
        ([], VERTICES, (0, 1, 2, 0), in_batch(4, 0)),
        # Of several elements the first is named: an index before a vertex, and a vertex before a quad.
        ([draw_of()], VERTICES, (0, 9, 8), in_batch(6, 0, 1, 9)),
        ([draw_of()], (FAR, *VERTICES[1:]), (0, 1, 3), in_batch(6, 0, 2, 3)),
        ([draw_of()], (FAR, FAR, VERTICES[2]), (2, 1, 0), in_batch(7, 0, 1)),
        ([draw_of(4, 8, topology=2)], (*SQUARE[:3], FAR), (0, 2, 1, 1, 0, 1, 2, 3), in_batch(7, 0, 3)),
        ([draw_of(4, 12, topology=2)], SQUARE, (0, 1, 2, 3, 0, 2, 1, 3, 0, 1, 2, 0), in_batch(8, 0, 1)),
        ([draw_of(), draw_of(4, 4, topology=2)], (*VERTICES, *SQUARE), (0, 1, 2, 0, 1, 2, 4), in_batch(6, 1, 3, 4)),
    ],
)
def test_reports_the_errors_of_batches(draws: Any, vertices: Any, indices: Any, error: Error) -> None:
    assert drawn_batch(draws, vertices, indices) == (error, bytes(27))


def test_looks_only_at_vertices_that_an_index_names() -> None:
    assert drawn_batch([draw_of(4)], (*VERTICES, (2**31 - 1, 0, *WHITE))) == (DONE, WHITE_CORNER)


@pytest.mark.parametrize(
    ("first_id", "error"),
    [(16_777_215, DONE), (16_777_216, in_batch(5, 0)), (2**32 - 1, in_batch(5, 0)), (0x010203, DONE)],
)
def test_draws_ids_up_to_the_greatest(first_id: int, error: Error) -> None:
    found, pixels = drawn_batch([draw_of()], first_id=first_id)
    assert (found, pixels[:3]) == (error, b"\0\0\0" if error != DONE else first_id.to_bytes(3, "little"))


# A white or grey corner over a blue picture.
@pytest.mark.parametrize(
    ("blend", "constant", "wanted"),
    [
        ((), (), (200, 40, 90)),
        (OVER, (), (108, 25, 146)),
        # 255 q <= 255 s +- 255 d + 127: sums, clamped; d - s; s - d.
        ((2, 2, 1), (), (220, 50, 255)),
        ((2, 2, 3), (), (0, 0, 110)),
        ((2, 2, 2), (), (180, 30, 0)),
        ((0, 0, 4), (), (20, 10, 90)),
        ((0, 0, 5), (), (200, 40, 200)),
        # The constant times the new colour, and the rest of it times the stored one.
        ((14, 15, 1), (255, 0, 51, 0), (200, 10, 178)),
        # The alpha of a canvas without alpha is 255, so that nothing is left of it to saturate.
        ((11, 2, 1), (), (20, 10, 200)),
        ((7, 8, 1), (), (200, 40, 90)),
        ((9, 1, 1), (), (16, 2, 71)),
        ((1, 3, 1), (), (16, 2, 71)),
        ((1, 4, 1), (), (4, 8, 129)),
        ((10, 0, 1), (), (184, 38, 19)),
    ],
)
def test_blends_by_the_equation(blend: Numbers, constant: Numbers, wanted: Numbers) -> None:
    vertices = [(x, y, 0, 200, 40, 90, 125) for x, y in ((0, 0), (2048, 0), (0, 2048))]
    error, pixels = drawn_batch([draw_of(blend=blend, constant=constant)], vertices, clear=(20, 10, 200, 0, 9))
    assert (error, tuple(pixels[:3])) == (DONE, wanted)


def test_keeps_channels_and_skips_samples() -> None:
    for keep in range(16):
        wanted = bytes(0 if keep >> channel & 1 else 255 for channel in range(3))
        assert drawn_batch([draw_of(keep=keep)])[1][:3] == wanted
    assert drawn_batch([draw_of(skip_samples=1)]) == (DONE, bytes(27))
    assert drawn_batch([draw_of(skip_samples=0xFFFE)]) == (DONE, WHITE_CORNER)


def test_cuts_at_the_scissor_if_it_is_enabled() -> None:
    edges: dict[str, Any] = {
        "scissor_left": -5, "scissor_top": -(2**31), "scissor_right": 1, "scissor_bottom": 2**31 - 1
    }
    assert drawn_batch([draw_of(**edges)]) == (DONE, WHITE_CORNER)
    assert (
        drawn_batch([draw_of(scissor_enable=1, **edges)])[1] == b"\xff\xff\xff" + bytes(6) + b"\xff\xff\xff" + bytes(15)
    )


@pytest.mark.parametrize(
    ("test", "passes"), [(0, "lem"), (1, ""), (2, "l"), (3, "e"), (4, "le"), (5, "m"), (6, "lm"), (7, "em")]
)
def test_tests_depths(test: int, passes: str) -> None:
    """Of a triangle of depth 0 that is less, of one that is equal and of one that is more than what is stored."""
    for name, depth in (("l", 99), ("e", 100), ("m", 101)):
        vertices = [(x, y, depth, 255, 255, 255, 255) for x, y, *_ in VERTICES]
        error, pixels = drawn_batch([draw_of(depth_test=test)], vertices, clear=(0, 0, 0, 0, 100))
        assert (error, pixels[0]) == (DONE, 255 if name in passes else 0), (test, name)


# ---- Messages


@pytest.mark.parametrize(
    ("error", "message"),
    [
        (in_list(1), "list fault 1 NotJson"),
        (in_list(5), "list fault 5 OutOfRange"),
        (in_list(6, 1), "list fault 6 BadIndex in draw 1"),
        (in_list(7, 0), "list fault 7 TooMany in draw 0"),
        (in_list(10, 1023), "list fault 10 NotConvex in draw 1023"),
        (in_batch(6, 3, 17), "draw 3: index 17 is not less than the number of vertices"),
        (in_batch(6, 3, 17, 9), "draw 3: index 17 is 9, which is not less than the number of vertices"),
        (in_batch(4, 0), "draw 0: the indices make no whole triangles or quads"),
        (in_batch(15, 2), "draw 2: no such topology"),
        (in_batch(16, 0), "draw 0: no such culling"),
        (in_batch(17, 0), "draw 0: no such depth test"),
        (in_batch(18, 0), "draw 0: depth_write is neither 0 nor 1"),
        (in_batch(19, 0), "draw 0: keep has a bit of no channel"),
        (in_batch(20, 0), "draw 0: scissor_enable is neither 0 nor 1"),
        (in_batch(21, 0), "draw 0: no such blend factor"),
        (in_batch(22, 0), "draw 0: no such blend operation"),
        (in_batch(23), "no such fill rule"),
        (in_batch(24), "there are fewer boxes than polygons"),
        (in_batch(9), "a vertex or an index is in no draw, or a corner or a ring in no polygon"),
        (alone(2), "input too long"),
        (alone(3), "out of memory"),
        (alone(4), "buffer too small"),
        (alone(7), "wrong struct size"),
        (alone(16), "wrong stride"),
        (alone(18), "no such index size"),
    ],
)
def test_has_the_message_of_each_error(error: Error, message: str) -> None:
    made = struct("trirast_error")(*(NONE if member is None else member for member in error))
    for size in (0, 1, 9, len(message), len(message) + 1, 128):
        buffer = buffer_of(size)
        assert library().trirast_error_message(ctypes.addressof(made), ctypes.addressof(buffer), size) == len(message)
        written = message.encode()[: size - 1] + b"\0" if size else b""
        assert bytes(buffer) == written + b"\7" * (size - len(written))


# ---- Histories

# A stored sample: red, green, blue and depth.
CLEAR = (0, 0, 0, 65_535)
LIT = (255, 255, 255, 65_535)
# The event of the triangle at pixel (1, 1), whose centre lies on the hypotenuse, a right edge: doubled area, edges
# ab, bc and ca; number, draw and triangle; what fails at each edge; result, reasons, writes and covered; no
# fragment; before and after.
MISSED = (262_144, 131_072, 0, 131_072, 0, 0, 0, 0, 2, 0, 0, 4, 7, 0, *[0] * 5, *CLEAR, *CLEAR)
# At pixel (2, 2), whose centre lies on the other side of the hypotenuse.
OUTSIDE = (262_144, 262_144, -262_144, 262_144, 0, 0, 0, 0, 1, 0, 0, 4, 7, 0, *[0] * 5, *CLEAR, *CLEAR)
# At pixel (1, 0), whose centre lies on the top edge.
DRAWN = (262_144, 0, 131_072, 131_072, 0, 0, 0, 0, 0, 0, 2, 0, 7, 1, 255, 255, 255, 255, 0, *CLEAR, *LIT)
UNSET_EVENT = (77,) * 27
UNSET_INFO = (77,) * 13
EVENT_SIZE = 136


def history(text: str, place: Numbers, capacity: int, event_size: int = EVENT_SIZE) -> Tuple[Error, Any, Numbers]:
    """How `trirast_list_history` ends for this column, row and sample, and whether all events are asked for; the
    events and the info."""
    events = (struct("trirast_event") * capacity)()
    for event in events:
        fill(event)
    info = struct("trirast_sample_info")()
    fill(info)
    request = struct("trirast_history_request")(28, event_size, 0, *place)
    error = ended("trirast_list_history", *text_and_length(text), request, events, capacity, info)
    return error, [fields(event) for event in events], fields(info)


def fill(struct: Any) -> None:
    """Makes each number of a struct 77."""
    for name, *_type in struct._fields_:
        value = getattr(struct, name)
        if isinstance(value, ctypes.Structure):
            fill(value)
        else:
            setattr(struct, name, 77)


def info_of(count: int, place: Numbers, begin: Numbers, end: Numbers) -> Numbers:
    """The info of a sample of a picture of colours with one sample a pixel."""
    return (count, 1, 0, *place, *begin, *end)


def test_writes_the_event_of_a_triangle_that_misses() -> None:
    info = info_of(1, (384, 384), CLEAR, CLEAR)
    assert history(TRIANGLE, (1, 1, 0, 1), 2) == (DONE, [MISSED, UNSET_EVENT], info)
    info = info_of(1, (640, 640), CLEAR, CLEAR)
    assert history(TRIANGLE, (2, 2, 0, 1), 1) == (DONE, [OUTSIDE], info)


def test_writes_the_event_of_a_triangle_that_is_drawn() -> None:
    info = info_of(1, (384, 128), CLEAR, LIT)
    assert history(TRIANGLE, (1, 0, 0, 0), 1) == (DONE, [DRAWN], info)
    assert history(TRIANGLE, (1, 0, 0, 0), 0) == (DONE, [], info)


def test_leaves_out_triangles_that_do_not_cover_the_sample() -> None:
    assert history(TRIANGLE, (1, 1, 0, 0), 1) == (DONE, [UNSET_EVENT], info_of(0, (384, 384), CLEAR, CLEAR))


@pytest.mark.parametrize(
    ("text", "place", "event_size", "error"),
    [
        ("{}", (3, 0, 1, 0), 128, alone(7)),
        ("{}", (3, 0, 1, 0), EVENT_SIZE, in_list(3)),
        (TRIANGLE, (3, 0, 1, 0), EVENT_SIZE, alone(13)),
        (TRIANGLE, (0, 3, 1, 0), EVENT_SIZE, alone(13)),
        (TRIANGLE, (2, 2, 1, 0), EVENT_SIZE, alone(11)),
    ],
)
def test_reports_the_first_error_of_a_history(text: str, place: Numbers, event_size: int, error: Error) -> None:
    """Of the sizes, the list, the pixel and the sample."""
    assert history(text, place, 2, event_size) == (error, [UNSET_EVENT] * 2, UNSET_INFO)


@pytest.mark.parametrize(
    ("text", "triangle", "error", "counts"),
    [
        (TRIANGLE, 1, alone(14), (77, 77, 77)),
        ("{}", 0, in_list(3), (77, 77, 77)),
        (TRIANGLE, 0, DONE, (3, 3, 3)),
    ],
)
def test_counts_the_samples_of_a_triangle(text: str, triangle: int, error: Error, counts: Numbers) -> None:
    found = struct("trirast_sample_counts")(77, 77, 77)
    assert ended("trirast_list_triangle_samples", *text_and_length(text), 0, triangle, found) == error
    assert fields(found) == counts
