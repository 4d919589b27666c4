"""A small, slow reference renderer for trirast draw lists, and for what is drawn on a canvas.

It reads a draw list on standard input and writes the binary PPM picture, or the PGM picture of the depths, on standard
output, straight from the rules of docs/rules.md and docs/draw-list.md: exact integers, every sample by itself, all
triangles in draw order. It shares no code with the program, and is there to compare the program with.

    python3 -m tests.reference.renderer < list.json > picture.ppm

A refused list gives the program's line on standard error and status 1.
"""

from __future__ import annotations

import json
import math
import sys
from dataclasses import dataclass
from typing import Any, Callable, Container, Sequence

from tools.picture_file import PictureFile
from tests.reference import blending

# The number and the name of a kind of error.
Kind = tuple[int, str]
# x and y, and what may follow them.
Point = tuple[int, ...]
# x, y, z, red, green, blue and alpha.
Vertex = tuple[int, ...]
# Red, green, blue and depth, and behind them alpha where it is stored.
Sample = tuple[int, ...]
# Triangles by the indices of their vertices.
Faces = list[list[int]]

INPUT_LIMIT = 67_108_864
BAND = (-8_388_608, 8_388_607)

NOT_JSON = (1, "NotJson")
UNKNOWN_KEY = (2, "UnknownKey")
MISSING_KEY = (3, "MissingKey")
WRONG_KIND = (4, "WrongKind")
OUT_OF_RANGE = (5, "OutOfRange")
BAD_INDEX = (6, "BadIndex")
TOO_MANY = (7, "TooMany")
TWO_LISTS = (9, "TwoLists")
NOT_CONVEX = (10, "NotConvex")

TOP_KEYS = ("width", "height", "samples", "clear", "clear_depth", "output", "draws")
# A canvas has alpha if it is said to which it is cleared.
CANVAS_KEYS = TOP_KEYS + ("clear_alpha",)
STATE_KEYS = ("cull", "depth_test", "depth_write", "blend", "write", "sample_mask", "scissor")
FACE_KEYS = ("triangles", "strip", "quads")
DRAW_KEYS = STATE_KEYS + ("vertices",) + FACE_KEYS
MAX_TRIANGLES = 65536

DEPTH_TESTS: dict[str, Callable[[int, int], bool]] = {
    "never": lambda new, old: False,
    "less": lambda new, old: new < old,
    "equal": lambda new, old: new == old,
    "less_equal": lambda new, old: new <= old,
    "greater": lambda new, old: new > old,
    "not_equal": lambda new, old: new != old,
    "greater_equal": lambda new, old: new >= old,
    "always": lambda new, old: True,
}

# How far right of a pixel's centre and below it its samples lie, in 1/16 pixel: one in the centre, and else the
# standard patterns of Direct3D 11.
PATTERNS: dict[int, tuple[Point, ...]] = {
    1: ((0, 0),),
    2: ((4, 4), (-4, -4)),
    4: ((-2, -6), (6, -2), (-6, 2), (2, 6)),
    8: ((1, -3), (-1, 3), (5, 1), (-3, -5), (-5, 5), (-7, -1), (3, 7), (7, -7)),
    16: (
        (1, 1), (-1, -3), (-3, 2), (4, -1), (-5, -2), (2, 5), (5, 3), (3, -5),
        (-2, 6), (0, -7), (-4, -6), (-6, 4), (-8, 0), (7, -4), (6, 7), (-7, -8),
    ),
}
# Offsets of the samples from a pixel's upper left corner in 1/256 pixel.
SAMPLES: dict[int, tuple[Point, ...]] = {
    count: tuple((128 + 16 * x, 128 + 16 * y) for x, y in pattern) for count, pattern in PATTERNS.items()
}


class ListFault(Exception):
    """The first check that fails, with the draw in which it stands, if it stands in one."""

    def __init__(self, kind: Kind, draw: int | None = None) -> None:
        number, name = kind
        place = "" if draw is None else f" in draw {draw}"
        super().__init__(f"trirast: list fault {number} {name}{place}")


class InputTooLong(Exception):
    """The input has more bytes than a draw list may have."""

    def __init__(self) -> None:
        super().__init__("trirast: input too long")


@dataclass(frozen=True)
class Limits:
    """The numbers of samples that a pixel may have, the greatest sample mask, the least and the greatest edge of a
    scissor, the channels of a write mask, the keys beside draws, and whether there is blending by any equation."""

    counts: tuple[int, ...]
    mask: int
    edges: tuple[int, int]
    channels: int
    keys: tuple[str, ...]
    has_equations: bool


# Those of a draw list, and those of a canvas, which a list's value describes as well. A canvas may begin left of
# the screen or above it.
LIST = Limits((1, 4), 15, (0, 4096), 3, TOP_KEYS, False)
CANVAS = Limits(tuple(PATTERNS), 65535, (-(2**31), 2**31 - 1), 4, CANVAS_KEYS, True)


@dataclass(frozen=True)
class State:
    cull: str
    depth_test: str
    depth_write: bool
    blend: str | blending.Equation
    write: tuple[bool, ...]
    sample_mask: int
    scissor: tuple[int, ...]


@dataclass(frozen=True)
class Triangle:
    """A triangle with its three vertices (x, y, z, r, g, b, a) and the state of its draw."""

    vertices: tuple[Vertex, ...]
    state: State


@dataclass(frozen=True)
class Scene:
    """What is drawn. The picture begins at the pixel `origin` of the screen."""

    width: int
    height: int
    samples: int
    clear: Sample
    output: str
    triangles: tuple[Triangle, ...]
    origin: Point = (0, 0)


# ---- Reading -------------------------------------------------------------------------------------------------------


def parse(data: bytes) -> Any:
    """The JSON value of the bytes. A number is an int only if it is an integer of 64 bits. One beyond the floats of 64
    bits is refused."""

    def real(text: str) -> float:
        number = float(text)
        if math.isinf(number):
            raise ValueError("a number that no float has")
        return number

    def whole(text: str) -> float:
        if text == "-0" or len(text) > 20:
            return real(text)
        number = int(text)
        return number if -(2**63) <= number < 2**64 else real(text)

    def refuse(_constant: str) -> None:
        raise ValueError("no JSON number")

    try:
        return json.loads(data.decode("utf-8"), parse_float=real, parse_int=whole, parse_constant=refuse)
    except (ValueError, RecursionError):
        raise ListFault(NOT_JSON) from None


def check_whole(value: Any, low: int, high: int, draw: int | None, outside: Kind = OUT_OF_RANGE) -> int:
    if type(value) is not int:
        raise ListFault(WRONG_KIND, draw)
    if not low <= value <= high:
        raise ListFault(outside, draw)
    return value


def check_array(value: Any, length: int, draw: int | None) -> list[Any]:
    if type(value) is not list or len(value) != length:
        raise ListFault(WRONG_KIND, draw)
    return value


def check_wholes(value: Any, length: int, low: int, high: int, draw: int | None) -> tuple[int, ...]:
    return tuple(check_whole(element, low, high, draw) for element in check_array(value, length, draw))


def check_truth(value: Any, draw: int | None) -> bool:
    if type(value) is not bool:
        raise ListFault(WRONG_KIND, draw)
    return value


def check_word(value: Any, words: Container[str], draw: int | None) -> str:
    if type(value) is not str:
        raise ListFault(WRONG_KIND, draw)
    if value not in words:
        raise ListFault(OUT_OF_RANGE, draw)
    return value


def check_list(value: Any, most: int, draw: int | None) -> list[Any]:
    if type(value) is not list:
        raise ListFault(WRONG_KIND, draw)
    if len(value) > most:
        raise ListFault(TOO_MANY, draw)
    return value


def check_keys(value: Any, known: Sequence[str], required: Sequence[str], draw: int | None) -> None:
    if type(value) is not dict:
        raise ListFault(WRONG_KIND, draw)
    if any(key not in known for key in value):
        raise ListFault(UNKNOWN_KEY, draw)
    if any(key not in value for key in required):
        raise ListFault(MISSING_KEY, draw)


def read_vertex(value: Any, draw: int) -> Vertex:
    x, y, z, r, g, b, a = check_array(value, 7, draw)
    position = (check_whole(x, *BAND, draw), check_whole(y, *BAND, draw))
    depth = check_whole(z, 0, 65535, draw)
    return position + (depth,) + tuple(check_whole(channel, 0, 255, draw) for channel in (r, g, b, a))


def read_indices(value: Any, vertices: Sequence[Vertex], draw: int) -> list[int]:
    return [check_whole(index, 0, len(vertices) - 1, draw, BAD_INDEX) for index in value]


def check_count(count: int, before: int, draw: int) -> None:
    """The triangles of all draws so far are not too many."""
    if before + count > MAX_TRIANGLES:
        raise ListFault(TOO_MANY, draw)


def read_triangles(value: Any, vertices: Sequence[Vertex], before: int, draw: int) -> Faces:
    listed = check_list(value, MAX_TRIANGLES, draw)
    check_count(len(listed), before, draw)
    return [read_indices(check_array(triangle, 3, draw), vertices, draw) for triangle in listed]


def triangles_of_strip(indices: Sequence[int]) -> Faces:
    """Each index of a strip with the two after it; every second triangle is turned, so that all run the same way."""
    triples = zip(indices, indices[1:], indices[2:])
    return [[a, c, b] if number % 2 else [a, b, c] for number, (a, b, c) in enumerate(triples)]


def read_strip(value: Any, vertices: Sequence[Vertex], before: int, draw: int) -> Faces:
    listed = check_list(value, MAX_TRIANGLES + 2, draw)
    check_count(max(0, len(listed) - 2), before, draw)
    return triangles_of_strip(read_indices(listed, vertices, draw))


def triangles_of_quad(a: int, b: int, c: int, d: int) -> Faces:
    return [[a, b, c], [c, d, a]]


def is_strictly_convex(corners: Sequence[Sequence[int]]) -> bool:
    a, b, c, d = corners
    areas = [side(a, b, c), side(b, c, d), side(c, d, a), side(d, a, b)]
    return all(area > 0 for area in areas) or all(area < 0 for area in areas)


def read_quads(value: Any, vertices: Sequence[Vertex], before: int, draw: int) -> Faces:
    listed = check_list(value, MAX_TRIANGLES // 2, draw)
    check_count(2 * len(listed), before, draw)
    triangles: Faces = []
    for quad in listed:
        corners = read_indices(check_array(quad, 4, draw), vertices, draw)
        if not is_strictly_convex([vertices[corner] for corner in corners]):
            raise ListFault(NOT_CONVEX, draw)
        triangles += triangles_of_quad(*corners)
    return triangles


FACES: dict[str, Callable[[Any, Sequence[Vertex], int, int], Faces]] = {
    "triangles": read_triangles,
    "strip": read_strip,
    "quads": read_quads,
}


def check_draw_keys(value: Any, draw: int) -> str:
    """The one key of a draw that says what is drawn of its vertices."""
    check_keys(value, DRAW_KEYS, ("vertices",), draw)
    named = [key for key in FACE_KEYS if key in value]
    if not named:
        raise ListFault(MISSING_KEY, draw)
    if len(named) > 1:
        raise ListFault(TWO_LISTS, draw)
    return named[0]


def read_blend(value: Any, draw: int, limits: Limits) -> str | blending.Equation:
    """A name of a list, or on a canvas also another name or the members of an equation."""
    if limits.has_equations and type(value) is dict:
        return blending.Equation(**value)
    return check_word(value, blending.PRESETS if limits.has_equations else ("none", "over"), draw)


def read_write(value: Any, draw: int, limits: Limits) -> tuple[bool, ...]:
    """The write mask. On a canvas the flag of alpha may be left out: then it is set."""
    given = value.get("write", [True] * limits.channels)
    number = len(RGB) if isinstance(given, list) and len(given) == len(RGB) else limits.channels
    found = tuple(check_truth(channel, draw) for channel in check_array(given, number, draw))
    return found + (True,) * (limits.channels - number)


def read_state(value: Any, draw: int, limits: Limits) -> State:
    return State(
        cull=check_word(value.get("cull", "none"), ("none", "front", "back"), draw),
        depth_test=check_word(value.get("depth_test", "always"), DEPTH_TESTS, draw),
        depth_write=check_truth(value.get("depth_write", False), draw),
        blend=read_blend(value.get("blend", "none"), draw, limits),
        write=read_write(value, draw, limits),
        sample_mask=check_whole(value.get("sample_mask", limits.mask), 0, limits.mask, draw),
        scissor=(
            check_wholes(value["scissor"], 4, *limits.edges, draw)
            if "scissor" in value else 2 * limits.edges[:1] + 2 * limits.edges[1:]
        ),
    )


def read_draw(value: Any, draw: int, limits: Limits, triangles_before: int) -> list[Triangle]:
    key = check_draw_keys(value, draw)
    state = read_state(value, draw, limits)
    vertices = [read_vertex(vertex, draw) for vertex in check_list(value["vertices"], 65536, draw)]
    triangles = FACES[key](value[key], vertices, triangles_before, draw)
    return [Triangle(tuple(vertices[index] for index in triangle), state) for triangle in triangles]


def read(data: bytes, limits: Limits = LIST) -> Scene:
    """The scene that the bytes denote; ListFault at the first check that fails."""
    if len(data) > INPUT_LIMIT:
        raise InputTooLong
    value = parse(data)
    check_keys(value, limits.keys, ("width", "height", "draws"), None)
    width = check_whole(value["width"], 1, 4096, None)
    height = check_whole(value["height"], 1, 4096, None)
    samples = check_whole(value.get("samples", 1), -(2**63), 2**64, None)
    if samples not in limits.counts:
        raise ListFault(OUT_OF_RANGE)
    clear = check_wholes(value.get("clear", [0, 0, 0]), 3, 0, 255, None)
    clear += (check_whole(value.get("clear_depth", 65535), 0, 65535, None),)
    if "clear_alpha" in value:
        clear += (check_whole(value["clear_alpha"], 0, 255, None),)
    output = check_word(value.get("output", "color"), ("color", "depth"), None)
    triangles: list[Triangle] = []
    for draw, description in enumerate(check_list(value["draws"], 1024, None)):
        triangles += read_draw(description, draw, limits, len(triangles))
    return Scene(width, height, samples, clear, output, tuple(triangles))


# ---- Drawing -------------------------------------------------------------------------------------------------------


def side(a: Sequence[int], b: Sequence[int], p: Sequence[int]) -> int:
    """The edge function of the line ab at p."""
    return (b[0] - a[0]) * (p[1] - a[1]) - (b[1] - a[1]) * (p[0] - a[0])


class Edge:
    """The edge ab of a triangle with third vertex c."""

    def __init__(self, a: Point, b: Point, c: Point) -> None:
        self.a, self.b = a, b
        self.third = side(a, b, c)
        top = a[1] == b[1] and c[1] > a[1]
        rise = b[1] - a[1]
        left = rise != 0 and rise * (rise * (c[0] - a[0]) - (b[0] - a[0]) * (c[1] - a[1])) > 0
        self.owns_its_points = top or left

    def at(self, p: Point) -> int:
        return side(self.a, self.b, p)

    def passes(self, value: int) -> bool:
        """The top-left rule at one edge, for a point at which the edge function has this value."""
        return value * self.third > 0 or (value == 0 and self.owns_its_points)


def is_culled(cull: str, area: int) -> bool:
    return (cull == "front" and area > 0) or (cull == "back" and area < 0)


def over(source: int, alpha: int, stored: int) -> int:
    return (source * alpha + stored * (255 - alpha) + 127) // 255


# The places of the channels in a sample with alpha.
RGB = (0, 1, 2)
RGBA = (0, 1, 2, 4)
# The alpha of what stores none.
OPAQUE = 255


def shade(triangle: Triangle, weights: tuple[int, int, int], size: int, old: Sample) -> Sample:
    """What a covered sample, not masked away, takes from a triangle."""
    state = triangle.state

    def value(index: int) -> int:
        return sum(weight * vertex[index] for weight, vertex in zip(weights, triangle.vertices)) // size

    depth = value(2)
    if not DEPTH_TESTS[state.depth_test](depth, old[3]):
        return old
    new = list(old)
    stored_alpha = old[4] if len(old) > 4 else OPAQUE
    for channel in range(3):
        if state.write[channel]:
            source = value(3 + channel)
            if state.blend in ("none", "over"):
                new[channel] = over(source, value(6), old[channel]) if state.blend == "over" else source
            else:
                new[channel] = blending.blended(state.blend, channel, source, value(6), old[channel], stored_alpha)
    if len(old) > 4 and state.write[3]:
        new[4] = blending.blended(state.blend, blending.ALPHA, value(6), value(6), stored_alpha, stored_alpha)
    if state.depth_write:
        new[3] = depth
    return tuple(new)


def pixels_of(triangle: Triangle, scene: Scene) -> tuple[range, range]:
    """The columns and rows in which the triangle can cover a sample: its bounding box in scissor and picture."""
    left, top, right, bottom = triangle.state.scissor
    x, y = scene.origin
    xs = [vertex[0] // 256 for vertex in triangle.vertices]
    ys = [vertex[1] // 256 for vertex in triangle.vertices]
    columns = range(max(x, left, min(xs)), min(x + scene.width, right, max(xs) + 1))
    rows = range(max(y, top, min(ys)), min(y + scene.height, bottom, max(ys) + 1))
    return columns, rows


def draw(triangle: Triangle, scene: Scene, samples: list[Sample]) -> None:
    a, b, c = triangle.vertices
    area = side(a, b, c)
    if area == 0 or is_culled(triangle.state.cull, area):
        return
    opposite_a, opposite_b, opposite_c = Edge(b, c, a), Edge(c, a, b), Edge(a, b, c)
    offsets = [(s, o) for s, o in enumerate(SAMPLES[scene.samples]) if triangle.state.sample_mask >> s & 1]
    columns, rows = pixels_of(triangle, scene)
    for j in rows:
        for i in columns:
            for s, (ox, oy) in offsets:
                p = (256 * i + ox, 256 * j + oy)
                at_a = opposite_a.at(p)
                if not opposite_a.passes(at_a):
                    continue
                at_b = opposite_b.at(p)
                if not opposite_b.passes(at_b):
                    continue
                at_c = opposite_c.at(p)
                if not opposite_c.passes(at_c):
                    continue
                pixel = (j - scene.origin[1]) * scene.width + i - scene.origin[0]
                index = pixel * scene.samples + s
                weights = (abs(at_a), abs(at_b), abs(at_c))
                samples[index] = shade(triangle, weights, abs(area), samples[index])


def resolve(samples: list[Sample], count: int, channels: Sequence[int] = RGB) -> bytes:
    """The bytes of the picture from its samples: the means of each pixel's, halves rounded up."""
    if count == 1:
        return bytes(sample[channel] for sample in samples for channel in channels)
    out = bytearray()
    for first in range(0, len(samples), count):
        pixel = samples[first : first + count]
        for channel in channels:
            out.append((sum(sample[channel] for sample in pixel) + count // 2) // count)
    return bytes(out)


def pixels(samples: list[Sample], count: int, layout: str) -> bytes:
    """The bytes of the picture as a canvas writes them: the letters of the channels of a pixel in their order, and
    behind them "_straight" if colours are divided by alpha. Alpha is 255 where none is stored."""
    letters, _, kind = layout.partition("_")
    rgba = resolve([(*sample[:4], *(sample[4:] or (OPAQUE,))) for sample in samples], count, RGBA)
    out = bytearray()
    for first in range(0, len(rgba), 4):
        *colour, alpha = rgba[first : first + 4]
        if kind:
            colour = [blending.straight(channel, alpha) for channel in colour]
        out += bytes((*colour, alpha)["rgba".index(letter)] for letter in letters)
    return bytes(out)


def drawn(scene: Scene) -> list[Sample]:
    """All samples after all triangles: those of a pixel one after another, and the pixels row by row."""
    samples = [scene.clear] * (scene.width * scene.height * scene.samples)
    for triangle in scene.triangles:
        draw(triangle, scene, samples)
    return samples


def render(scene: Scene) -> bytes:
    """The picture's file."""
    samples = drawn(scene)
    if scene.output == "depth":
        depths = b"".join(sample[3].to_bytes(2, "big") for sample in samples[:: scene.samples])
        return PictureFile(scene.width, scene.height, 2, depths).encode()
    return PictureFile(scene.width, scene.height, 3, resolve(samples, scene.samples)).encode()


def main() -> int:
    try:
        picture = render(read(sys.stdin.buffer.read(INPUT_LIMIT + 1)))
    except (ListFault, InputTooLong) as fault:
        print(fault, file=sys.stderr)
        return 1
    sys.stdout.buffer.write(picture)
    return 0


if __name__ == "__main__":
    sys.exit(main())
