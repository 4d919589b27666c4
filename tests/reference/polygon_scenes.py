"""Generated calls on a canvas by which polygons are compared with their rule. A seed gives the same calls each time.

A scene has few colours and depths, and is drawn in these again and again, mostly as partitions of the canvas: so its
blocks of 8 by 8 pixels become pairs of two colours, stay so, get a third colour and go back to one. Between them come
whole blocks and tiles, small polygons of several tile rows in one call, crowds of them, by which blocks get more than
four samples, polygons of more than 1,024 corners between these, triangles, pictures, the pictures of one sample, and
clears.
"""

from __future__ import annotations

import math
import random
from dataclasses import dataclass, replace
from typing import Any, Callable, Sequence, Union

from python.tests.polygon_rule import Corner
from tools.draw_list import Draw
from tests.reference import generated_lists, renderer

RULES = ("even-odd", "nonzero")
# Red, green, blue and alpha.
Colour = tuple[int, ...]
Polygon = list[list[Corner]]
Size = tuple[int, int]

# The most samples of a canvas: few of most, so that many canvases are drawn.
MAX_SAMPLES = (50_000, 50_000, 100_000)
# A polygon of more corners is drawn by itself, and no others with it.
FEW_CORNERS = 1024
# How far beyond the canvas partitions go, in 1/256 pixel.
REACH = 256 * 70
# The state in which alpha stays.
ALPHA_KEPT: Draw = {"write": [True, True, True, False]}


@dataclass(frozen=True)
class Clear:
    colour: Colour
    depth: int


@dataclass(frozen=True)
class Picture:
    """Rows of pixels of 3 or 4 channels, which all samples of a pixel take, or those of one index."""

    pixels: list[list[Colour]]
    sample: int | None


@dataclass(frozen=True)
class Triangles:
    """Three vertices for each triangle, in one state. With a first id they are drawn by ids."""

    vertices: list[list[int]]
    state: Draw
    first_id: int | None


@dataclass(frozen=True)
class Polygons:
    """Polygons with a colour and a depth for each, in one state. With a first id they are drawn by ids."""

    polygons: list[Polygon]
    rule: str
    colours: list[Colour]
    depths: list[int]
    state: Draw
    first_id: int | None


Call = Union[Clear, Picture, Triangles, Polygons]


@dataclass(frozen=True)
class Scene:
    """Calls on a canvas, each of which so many threads share, by pieces of whole tile rows."""

    width: int
    height: int
    samples: int
    has_alpha: bool
    origin: Corner
    threads: int
    calls: list[Call]


@dataclass(frozen=True)
class Palette:
    """The few colours, depths and states of a scene."""

    colours: list[Colour]
    depths: list[int]
    states: list[Draw]


# ---- Polygons of a canvas that begins at (0, 0)


def moved_ring(ring: list[Corner], pixels: Corner) -> list[Corner]:
    """The ring, moved to the right and down by a number of pixels each."""
    return [(x + 256 * pixels[0], y + 256 * pixels[1]) for x, y in ring]


def box(left: int, top: int, right: int, bottom: int) -> list[Corner]:
    """The ring of a rectangle, in 1/256 pixel."""
    return [(left, top), (right, top), (right, bottom), (left, bottom)]


def on_sixteenths(pick: random.Random, low: int, high: int) -> int:
    """A coordinate between two, on 1/16 pixel if there is one, where samples are met often."""
    found = pick.randint(min(low, high), max(low, high))
    return found // 16 * 16 if pick.random() < 0.7 else found


def turned(polygon: Polygon) -> Polygon:
    """The polygon with x and y in each other's place."""
    return [[(y, x) for x, y in ring] for ring in polygon]


def bands(pick: random.Random, size: Size) -> list[Polygon]:
    """Two or three bands across the canvas, between lines of some corners that neighbours share."""
    (width, height), count = size, pick.choice((2, 2, 3))
    level = [256 * pick.randint(0, height) for _ in range(count - 1)]
    lines = []
    for middle in sorted(level):
        steps = pick.randint(1, 7)
        inner = [(256 * width * k // steps, middle + 16 * pick.randint(-160, 160)) for k in range(steps + 1)]
        lines.append([(-REACH, middle), *inner, (256 * width + REACH, middle)])
    lines = [[(-REACH, -REACH), (256 * width + REACH, -REACH)], *lines]
    lines.append([(-REACH, 256 * height + REACH), (256 * width + REACH, 256 * height + REACH)])
    return [[[*upper, *reversed(lower)]] for upper, lower in zip(lines, lines[1:])]


def sectors(pick: random.Random, size: Size) -> list[Polygon]:
    """Two to five sectors around a point of the canvas."""
    x, y = (256 * side for side in size)
    centre = on_sixteenths(pick, 0, x), on_sixteenths(pick, 0, y)
    corners = box(-REACH, -REACH, x + REACH, y + REACH)
    # A point of each edge of the outline, and the corner behind it.
    outline = []
    for (ax, ay), (bx, by) in zip(corners, (*corners[1:], corners[0])):
        outline += [(on_sixteenths(pick, ax, bx), on_sixteenths(pick, ay, by)), (bx, by)]
    cuts = sorted(pick.sample(range(8), pick.randint(2, 5)))
    ends = [*cuts[1:], cuts[0] + 8]
    return [[[centre, *(outline[k % 8] for k in range(cut, end + 1))]] for cut, end in zip(cuts, ends)]


def ring_and_hole(pick: random.Random, size: Size) -> list[Polygon]:
    """A ring of corners in the canvas, and all around it."""
    x, y = (256 * side for side in size)
    ring = [(on_sixteenths(pick, 0, x), on_sixteenths(pick, 0, y)) for _ in range(pick.randint(3, 6))]
    return [[ring], [box(-REACH, -REACH, x + REACH, y + REACH), ring[::-1]]]


def steps_of_blocks(pick: random.Random, size: Size) -> list[Polygon]:
    """Columns whose edges lie between blocks, between tiles or elsewhere."""
    width, height = size
    cuts = sorted({8 * pick.randint(0, width // 8), pick.choice((64, pick.randint(0, width)))})
    edges = [-REACH, *(256 * cut for cut in cuts), 256 * width + REACH]
    return [[box(left, -REACH, right, 256 * height + REACH)] for left, right in zip(edges, edges[1:])]


PARTITIONS: tuple[Callable[[random.Random, Size], list[Polygon]], ...] = (
    bands, bands, sectors, ring_and_hole, steps_of_blocks,
)


def a_partition(pick: random.Random, size: Size) -> list[Polygon]:
    """Polygons that share their edges and cover the canvas."""
    kind = pick.choice(PARTITIONS)
    if pick.random() < 0.5:  # columns for rows
        return [turned(polygon) for polygon in kind(pick, (size[1], size[0]))]
    return kind(pick, size)


def whole_blocks(pick: random.Random, size: Size) -> Polygon:
    """A rectangle of whole blocks or tiles."""
    unit = pick.choice((8, 8, 64))
    columns, rows = (sorted(pick.choices(range(side // unit + 2), k=2)) for side in size)
    return [box(*(256 * unit * place for place in (columns[0], rows[0], columns[1], rows[1])))]


def a_small_polygon(pick: random.Random, size: Size) -> Polygon:
    """One ring or two of some corners around a pixel of the canvas."""
    x, y, reach = 256 * pick.randint(0, size[0]), 256 * pick.randint(0, size[1]), 256 * pick.choice((3, 12, 40))

    def ring() -> list[Corner]:
        return [
            (on_sixteenths(pick, x - reach, x + reach), on_sixteenths(pick, y - reach, y + reach))
            for _ in range(pick.randint(3, 7))
        ]

    return [ring() for _ in range(pick.choice((1, 1, 2)))]


def a_star(pick: random.Random, size: Size) -> Polygon:
    """A ring of more corners than polygons have that are drawn together."""
    x, y, corners = 128 * size[0], 128 * size[1], pick.randint(FEW_CORNERS + 1, FEW_CORNERS + 99)
    radii, slope = (256 * pick.randint(8, 40), 256 * pick.randint(8, 40)), pick.choice((1, 1, 2, 7))
    ring = []
    for k in range(corners):
        angle, radius = 2 * math.pi * slope * k / corners, radii[k % 2 if k % 100 < 20 else 0]
        ring.append((x + round(radius * math.cos(angle)), y + round(radius * math.sin(angle))))
    return [ring]


def some_shapes(pick: random.Random, size: Size) -> list[Polygon]:
    """Small polygons and whole blocks."""
    kinds = (whole_blocks, a_small_polygon, a_small_polygon)
    return [pick.choice(kinds)(pick, size) for _ in range(pick.randint(1, 6))]


# ---- Calls


def a_palette(pick: random.Random, size: Size, has_alpha: bool) -> Palette:
    """Three colours or six, often all opaque, two depths, and states, the first of which replaces colours."""
    alphas = (255,) if pick.random() < 0.4 else (0, 90, 128, 255)
    colours = [(*(pick.randint(0, 255) for _ in "rgb"), pick.choice(alphas)) for _ in range(pick.choice((3, 6)))]
    depths = [pick.choice((0, 1000, 65535)), pick.randint(0, 65535)]
    states: list[Draw] = [{}, a_state(pick, size), a_state(pick, size)]
    if has_alpha and pick.random() < 0.5:
        states[2] = ALPHA_KEPT
    return Palette(colours, depths, states)


def a_state(pick: random.Random, size: Size) -> Draw:
    """A state: blended, with depths, with a mask or a scissor, or any."""
    columns, rows = (sorted(pick.choices((0, 64, 200, pick.randint(0, side)), k=2)) for side in size)
    states: list[Draw] = [
        {"blend": "over"}, {"blend": "over"}, {"depth_write": True}, {"depth_write": True},
        {"depth_test": pick.choice(list(renderer.DEPTH_TESTS)), "depth_write": pick.random() < 0.5},
        {"sample_mask": generated_lists.a_mask(pick, renderer.CANVAS)},
        {"sample_mask": generated_lists.a_mask(pick, renderer.CANVAS)},
        {"scissor": [columns[0], rows[0], columns[1], rows[1]]},
        generated_lists.a_state(pick, *size, renderer.CANVAS),
    ]
    return pick.choice(states)


def a_first_id(pick: random.Random) -> int | None:
    return pick.choice((0, 5, 70000)) if pick.random() < 0.12 else None


def a_polygons_call(pick: random.Random, palette: Palette, polygons: list[Polygon]) -> Polygons:
    """A call of these polygons, all of one depth or each of its own."""
    state = {key: value for key, value in pick.choice(palette.states).items() if key != "cull"}
    depths = [pick.choice(palette.depths) for _ in polygons]
    if pick.random() < 0.6:
        depths = depths[:1] * len(polygons)
    colours = [pick.choice(palette.colours) for _ in polygons]
    return Polygons(polygons, pick.choice(RULES), colours, depths, state, a_first_id(pick))


def a_partition_call(pick: random.Random, palette: Palette, partition: list[Polygon]) -> Polygons:
    """A partition, all of it in any order, twice or more often, or a part of it."""
    polygons = pick.sample(partition, len(partition))
    kind = pick.random()
    if kind < 0.3:
        polygons = pick.choices(partition, k=pick.randint(2, 9))
    elif kind < 0.5:
        polygons = polygons[: pick.randint(1, len(polygons))]
    return a_polygons_call(pick, palette, polygons)


def a_shapes_call(pick: random.Random, size: Size, palette: Palette) -> Polygons:
    """Small polygons, with a large one among them sometimes."""
    polygons = some_shapes(pick, size)
    if pick.random() < 0.2:
        polygons = [*polygons, a_star(pick, size), *some_shapes(pick, size)]
    return a_polygons_call(pick, palette, polygons)


def a_crowd_call(pick: random.Random, size: Size, palette: Palette) -> Polygons:
    """Small polygons around one place, where blocks get more samples than four."""
    polygons = [a_small_polygon(pick, (24, 24)) for _ in range(pick.randint(4, 12))]
    place = pick.randrange(size[0]), pick.randrange(size[1])
    return a_polygons_call(pick, palette, [[moved_ring(ring, place) for ring in polygon] for polygon in polygons])


def a_triangles_call(pick: random.Random, size: Size, palette: Palette) -> Triangles:
    """Triangles of one colour or of one for each vertex."""
    vertices = []
    for _ in range(pick.randint(1, 3)):
        ring, one = a_small_polygon(pick, size)[0][:3], pick.choice(palette.colours)
        for corner in ring:
            one = one if pick.random() < 0.8 else pick.choice(palette.colours)
            vertices.append([*corner, pick.choice(palette.depths), *one])
    return Triangles(vertices, pick.choice(palette.states), a_first_id(pick))


def a_picture(pick: random.Random, size: Size, palette: Palette, samples: int, whole: float = 0.4) -> Picture:
    """A picture of random colours of the scene. A third of the rows have one pixel of another colour. With probability
    `whole` it has a value for each pixel, else for one sample of each pixel."""
    channels = pick.choice((3, 4))
    colours = [colour[:channels] for colour in palette.colours]
    pixels = [[pick.choice(colours)] * size[0] for _ in range(size[1])]
    for row in pick.sample(pixels, size[1] // 3):
        row[pick.randrange(size[0])] = pick.choice(colours)
    return Picture(pixels, None if pick.random() < whole else pick.randrange(samples))


def a_call(
    pick: random.Random, size: Size, palette: Palette, partitions: Sequence[list[Polygon]], samples: int
) -> Call:
    kind = pick.random()
    if kind < 0.6:
        return a_partition_call(pick, palette, pick.choice(partitions))
    if kind < 0.8:
        return pick.choice((a_shapes_call, a_crowd_call))(pick, size, palette)
    if kind < 0.87:
        return a_triangles_call(pick, size, palette)
    if kind < 0.95:
        return a_picture(pick, size, palette, samples)
    return Clear(pick.choice(palette.colours), pick.choice((65535, *palette.depths)))


# ---- Scenes


def moved(call: Call, origin: Corner) -> Call:
    """The call with its positions and its scissor seen from the screen, on which the canvas begins there."""
    if isinstance(call, (Clear, Picture)):
        return call
    x, y = (256 * pixel for pixel in origin)
    state = dict(call.state)
    if "scissor" in state:
        low, high = renderer.CANVAS.edges
        state["scissor"] = [min(max(edge + origin[k % 2], low), high) for k, edge in enumerate(state["scissor"])]
    if isinstance(call, Triangles):
        return replace(call, vertices=[[v[0] + x, v[1] + y, *v[2:]] for v in call.vertices], state=state)
    polygons = [[moved_ring(ring, origin) for ring in polygon] for polygon in call.polygons]
    return replace(call, polygons=polygons, state=state)


def a_size(pick: random.Random, samples: int) -> Size:
    """Sides of 40 to 150 pixels, mostly with more than one tile row."""
    most = pick.choice(MAX_SAMPLES)
    while True:
        width, height = pick.randint(40, 150), pick.choice((pick.randint(40, 64), pick.randint(65, 150)))
        if width * height * samples <= most:
            return width, height


def a_scene(pick: random.Random, samples: int, size: Size | None = None) -> Scene:
    """A scene with so many samples a pixel, of a size that is given or not."""
    width, height = size or a_size(pick, samples)
    has_alpha = pick.random() < 0.6
    palette = a_palette(pick, (width, height), has_alpha)
    partitions = [a_partition(pick, (width, height)) for _ in range(pick.randint(1, 2))]
    origin = (0, 0) if pick.random() < 0.6 else (pick.randint(-99, 99), pick.randint(-99, 99))
    calls: list[Any] = [Clear(palette.colours[0], pick.choice((65535, *palette.depths)))]
    # Blocks of few samples and of more, and polygons over them.
    if pick.random() < 0.5:
        calls += [a_crowd_call(pick, (width, height), palette) for _ in range(4)]
    # Pictures of more colours than two, which are kept in planes, and polygons over them.
    if pick.random() < 0.5:
        calls.append(a_picture(pick, (width, height), palette, samples, whole=1))
        calls += [a_shapes_call(pick, (width, height), palette) for _ in range(3)]
    calls += [a_call(pick, (width, height), palette, partitions, samples) for _ in range(pick.randint(5, 12))]
    # One sample of blocks that are kept in any way.
    calls.append(a_picture(pick, (width, height), palette, samples, whole=0))
    return Scene(
        width, height, samples, has_alpha, origin, pick.randint(1, 3), [moved(it, origin) for it in calls]
    )
