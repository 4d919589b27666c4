"""Generated draw lists by which the program is compared with the reference renderer, and others for canvases, which may
have more samples. A seed gives the same lists each time.

The lists are small and look for trouble: triangles without area, slivers, edges and corners on sample positions, shared
edges, ends of the guard band, every state, both sample counts, scissors past the picture.
`tests/reference/test_compare.py` shows what they cover.
"""

from __future__ import annotations

import copy
import json
import random
from typing import Any, Iterable, Iterator, Sequence

from tests.reference import blending, renderer
from tools.draw_list import Draw, DrawList, Vertex

LOW, HIGH = renderer.BAND
MAX_PIXELS = 4500
MAX_SAMPLES = 4 * MAX_PIXELS


# ---- Lists that are accepted ---------------------------------------------------------------------------------------


def a_size(pick: random.Random, max_pixels: int = MAX_PIXELS) -> tuple[int, int]:
    """A width and a height: often a few pixels, sometimes past a tile's side or at the end, never many
    pixels together."""
    if pick.random() < 0.03:
        return pick.choice(((4096, 1), (1, 4096)))
    while True:
        width, height = (pick.choice((pick.randint(1, 12), pick.randint(13, 34), pick.randint(62, 131))) for _ in "wh")
        if width * height <= max_pixels:
            return width, height


def a_sample_coordinate(pick: random.Random, pixels: int, samples: int, axis: int) -> int:
    """A column or a row in which samples lie."""
    return 256 * pick.randint(-1, pixels) + pick.choice(renderer.SAMPLES[samples])[axis]


def a_coordinate(pick: random.Random, pixels: int, samples: int, axis: int) -> int:
    kind = pick.random()
    if kind < 0.40:
        return a_sample_coordinate(pick, pixels, samples, axis)
    if kind < 0.55:  # on the border of a pixel
        return 256 * pick.randint(-1, pixels + 1)
    if kind < 0.85:
        return pick.randint(-300, 256 * pixels + 300)
    if kind < 0.94:
        return pick.choice((LOW, LOW + 1, HIGH - 1, HIGH))
    return pick.randint(LOW, HIGH)


def some_values(pick: random.Random, depths: Sequence[int]) -> list[int]:
    """Depth, colour and alpha of a vertex."""
    return [pick.choice(depths)] + [pick.choice((0, 1, 127, 128, 254, 255, pick.randint(0, 255))) for _ in range(4)]


def some_depths(pick: random.Random) -> list[int]:
    """The depths of a list's vertices: often few, so that the tests for equal depths have something to find."""
    if pick.random() < 0.5:
        return [pick.choice((0, 1, 40000, 65535)) for _ in range(pick.randint(1, 2))]
    return [0, 1, 2, 3, 65534, 65535] + [pick.randint(0, 65535) for _ in range(3)]


def corners_of_the_band(pick: random.Random, depths: Sequence[int]) -> list[Vertex]:
    """Vertices at or near the corners of the guard band, whose triangles reach over the whole picture."""
    vertices = []
    for x in (LOW, HIGH):
        for y in (LOW, HIGH):
            inwards = pick.choice((0, 0, pick.randint(0, 5000)))
            corner = [x + inwards if x == LOW else x - inwards, y]
            vertices.append(corner + some_values(pick, depths))
    pick.shuffle(vertices)
    return vertices


def a_sliver(pick: random.Random, width: int, height: int, samples: int, depths: Sequence[int]) -> list[Vertex]:
    """Three or more vertices along a line through two samples, at most a pixel away from it."""
    ends = [(a_sample_coordinate(pick, width, samples, 0), a_sample_coordinate(pick, height, samples, 1)) for _ in "ab"]
    away = pick.choice((0, 1, 1, 2, pick.randint(3, 256)))
    vertices = [list(end) + some_values(pick, depths) for end in ends]
    for _ in range(pick.randint(1, 3)):
        x, y = pick.choice(ends)
        near = (x + away, y) if pick.random() < 0.5 else (x, y + away)
        vertices.append([*near] + some_values(pick, depths))
    return vertices


def some_vertices(pick: random.Random, width: int, height: int, samples: int, depths: Sequence[int]) -> list[Vertex]:
    kind = pick.random()
    if kind < 0.12:
        return corners_of_the_band(pick, depths)
    if kind < 0.22:
        return a_sliver(pick, width, height, samples, depths)
    if kind < 0.23:
        return []
    vertices: list[Vertex] = []
    for _ in range(pick.randint(3, 8)):
        x = a_coordinate(pick, width, samples, 0)
        y = a_coordinate(pick, height, samples, 1)
        kind = pick.random()
        if vertices and kind < 0.10:  # the same place again
            x, y = vertices[-1][:2]
        elif vertices and kind < 0.30:  # a horizontal or an upright edge
            x, y = (x, vertices[-1][1]) if kind < 0.20 else (vertices[-1][0], y)
        elif len(vertices) > 1 and kind < 0.40:  # on one line with two others
            (ax, ay), (bx, by) = vertices[-2][:2], vertices[-1][:2]
            line = (2 * bx - ax, 2 * by - ay)
            x, y = line if all(LOW <= z <= HIGH for z in line) else (x, y)
        vertices.append([x, y] + some_values(pick, depths))
    return vertices


def some_triangles(pick: random.Random, vertices: list[Vertex]) -> list[list[int]]:
    last = len(vertices) - 1
    if last < 0:
        return []
    triangles = [[pick.randint(0, last) for _ in range(3)] for _ in range(pick.randint(0, 3))]
    if pick.random() < 0.7:  # neighbours that share an edge
        triangles += [[k, k + 1, k + 2] for k in range(len(vertices) - 2)]
    if triangles and pick.random() < 0.5:  # one of them again, at once or later
        again = pick.randrange(len(triangles))
        triangles.insert(pick.choice((again, len(triangles))), list(triangles[again]))
    return triangles


def some_indices(pick: random.Random, vertices: list[Vertex]) -> list[int]:
    """The indices of a strip: often the vertices in their order, sometimes any, and some of them twice."""
    indices = list(range(len(vertices)))
    if indices and pick.random() < 0.3:
        indices = [pick.randrange(len(vertices)) for _ in range(pick.randint(0, 9))]
    if indices and pick.random() < 0.4:
        again = pick.randrange(len(indices))
        indices.insert(again, indices[again])
    return indices


def add_a_quad(pick: random.Random, vertices: list[Vertex]) -> None:
    """Appends the corners of a parallelogram, whose sides begin and end where the vertices do, if it is a
    quad in the band."""
    (ax, ay), (bx, by), (dx, dy) = (pick.choice(vertices)[:2] for _ in range(3))
    corners = [(ax, ay), (bx, by), (bx + dx - ax, by + dy - ay), (dx, dy)]
    if all(LOW <= z <= HIGH for corner in corners for z in corner) and renderer.is_strictly_convex(corners):
        vertices += [list(corner) + pick.choice(vertices)[2:] for corner in corners]


def some_quads(pick: random.Random, vertices: list[Vertex]) -> list[list[int]]:
    """Strictly convex quads over the vertices, in either direction and from any corner, to which some may be added."""
    if not vertices:
        return []
    for _ in range(pick.randint(0, 3)):
        add_a_quad(pick, vertices)
    last = len(vertices) - 1
    quads = [[k, k + 1, k + 2, k + 3] for k in range(last - 2)]
    quads += [[pick.randint(0, last) for _ in range(4)] for _ in range(30)]
    quads = [quad for quad in quads if renderer.is_strictly_convex([vertices[corner] for corner in quad])]
    turned = []
    for quad in quads[:5]:
        first = pick.randrange(4)
        quad = quad[first:] + quad[:first]
        turned.append(quad[::-1] if pick.random() < 0.5 else quad)
    return turned


def some_faces(pick: random.Random, vertices: list[Vertex]) -> Draw:
    """What a draw draws of its vertices, by the one key of three."""
    kind = pick.random()
    if kind < 0.6:
        return {"triangles": some_triangles(pick, vertices)}
    if kind < 0.8:
        return {"strip": some_indices(pick, vertices)}
    return {"quads": some_quads(pick, vertices)}


def a_mask(pick: random.Random, limits: renderer.Limits) -> int:
    """A sample mask: of a canvas often one that has the first samples, and bits of samples that its pixels lack."""
    mask = pick.randint(0, limits.mask)
    return mask if limits is renderer.LIST else mask | pick.choice((0, 0, 3, 15, 255, limits.mask))


def an_equation(pick: random.Random) -> Any:
    """A blend equation of a canvas, by its name or by its members. Those of draw lists have names there."""
    if pick.random() < 0.5:
        name = pick.choice(list(blending.PRESETS))
        return blending.PRESETS[name]._asdict() if name in ("none", "over") else name
    factors, operations = list(blending.FACTORS), [*blending.OPERATIONS, *blending.OPERATIONS, *blending.ENDS]
    equations = {
        f"{part}_{term}": pick.choice(operations if term == "operation" else factors)
        for part in ("color", "alpha") for term in ("source", "stored", "operation")
    }
    return {**equations, "constant": [pick.choice((0, 1, 128, 255, pick.randint(0, 255))) for _ in range(4)]}


def a_state(pick: random.Random, width: int, height: int, limits: renderer.Limits = renderer.LIST) -> Draw:
    state: Draw = {}
    if pick.random() < 0.4:
        state["cull"] = pick.choice(("none", "front", "back"))
    if pick.random() < 0.7:
        state["depth_test"] = pick.choice(list(renderer.DEPTH_TESTS))
    if pick.random() < 0.6:
        state["depth_write"] = pick.random() < 0.8
    if limits.has_equations and pick.random() < 0.6:
        state["blend"] = an_equation(pick)
    elif pick.random() < 0.6:
        state["blend"] = pick.choice(("none", "over", "over"))
    if pick.random() < 0.3:
        state["write"] = [pick.random() < 0.6 for _ in range(limits.channels)]
    if pick.random() < 0.4:
        state["sample_mask"] = a_mask(pick, limits)
    if pick.random() < 0.4:
        columns = [pick.choice((0, width, 4096) + (pick.randint(0, width),) * 4) for _ in range(2)]
        rows = [pick.choice((0, height, 4096) + (pick.randint(0, height),) * 4) for _ in range(2)]
        if limits.edges[0] < 0 and pick.random() < 0.3:
            columns[0], rows[1] = pick.choice((*limits.edges, -3)), pick.choice((*limits.edges, -3))
        if pick.random() < 0.85:
            columns.sort()
            rows.sort()
        state["scissor"] = [columns[0], rows[0], columns[1], rows[1]]
    return state


def a_list(pick: random.Random) -> DrawList:
    width, height = a_size(pick)
    return list_of(pick, width, height, pick.choice(renderer.LIST.counts), renderer.LIST)


def a_canvas_list(pick: random.Random, samples: int, has_alpha: bool) -> DrawList:
    """What is drawn on a canvas with so many samples a pixel, as a list: its masks have 16 bits. With alpha it has one
    to which it is cleared."""
    width, height = a_size(pick, MAX_SAMPLES // max(samples, 4))
    listed = list_of(pick, width, height, samples, renderer.CANVAS)
    if has_alpha:
        listed["clear_alpha"] = pick.choice((0, 0, 1, 128, 255, pick.randint(0, 255)))
    return listed


def list_of(pick: random.Random, width: int, height: int, samples: int, limits: renderer.Limits) -> DrawList:
    """A list of this size."""
    depths = some_depths(pick)
    scene: DrawList = {"width": width, "height": height}
    if samples > 1 or pick.random() < 0.5:
        scene["samples"] = samples
    if pick.random() < 0.6:
        scene["clear"] = [pick.randint(0, 255) for _ in range(3)]
    if pick.random() < 0.4:
        scene["clear_depth"] = pick.choice((0, 1, 2, 65535, pick.randint(0, 65535), *depths))
    if pick.random() < 0.3:
        scene["output"] = pick.choice(("color", "depth", "depth"))
    scene["draws"] = []
    for _ in range(pick.randint(1, 5) if pick.random() < 0.97 else 0):
        vertices = some_vertices(pick, width, height, samples, depths)
        faces = some_faces(pick, vertices)
        scene["draws"].append({**a_state(pick, width, height, limits), "vertices": vertices, **faces})
    return scene


def at_the_ends() -> Iterator[DrawList]:
    """Lists with as many draws, vertices, triangles, indices of a strip and quads as there may be."""
    pick = random.Random("ends")
    corners = [[0, 0], [700, 0], [700, 700], [0, 700]]
    square = [corner + some_values(pick, [0, 65535]) for corner in corners]
    many = [pick.choice(square) for _ in range(65536)]
    first = {"blend": "over", "vertices": square}
    for number in (1023, 1024):
        yield {"width": 3, "height": 2, "draws": [{**first, "triangles": [[0, 1, 2]]}] * number}
    for number in (65535, 65536):
        named = [[number - 1 - pick.randrange(9) for _ in range(3)] for _ in range(40)]
        yield {"width": 3, "height": 2, "draws": [{**first, "vertices": many[:number], "triangles": named}]}
        yield {"width": 3, "height": 2, "draws": [{**first, "triangles": [[0, 1, 2], [2, 3, 0]] * (number // 2)}]}
    yield {"width": 3, "height": 2, "draws": [{**first, "strip": [0, 1, 3, 2] * 16384 + [0, 1]}]}
    yield {"width": 3, "height": 2, "samples": 4, "draws": [{**first, "quads": [[0, 1, 2, 3]] * 32768}]}


# ---- Lists that are broken -----------------------------------------------------------------------------------------

# Keys and indices that lead to a value of a list.
Path = tuple[Any, ...]

WRONG: tuple[Any, ...] = (None, True, 1.0, 0.5, "x", "none", [], {}, -1, 3, 17, 256, 4097, 65536)
WRONG += (LOW - 1, HIGH + 1, 2**63, -(2**63), 1e300)


def paths(value: object, path: Path = ()) -> Iterator[Path]:
    """The paths of all values in a list, which lead there by keys and indices."""
    yield path
    inside: Iterable[tuple[Any, object]] = ()
    if isinstance(value, (dict, list)):
        inside = value.items() if isinstance(value, dict) else enumerate(value)
    for key, element in inside:
        yield from paths(element, path + (key,))


def broken(pick: random.Random, scene: Any) -> Any:
    """The value with one of its parts changed."""
    scene = copy.deepcopy(scene)
    path = pick.choice(list(paths(scene)))
    if not path:
        return pick.choice(WRONG)
    holder = scene
    for key in path[:-1]:
        holder = holder[key]
    kind = pick.random()
    if kind < 0.15:
        del holder[path[-1]]
    elif kind < 0.25 and isinstance(holder, dict):
        other = ("fog", "Width", "strips", "", "draws ", "clear_depht", "output", "strip", "quads", "triangles")
        holder[pick.choice(other)] = pick.choice((1, "depth", [], [0, 1, 2], [[0, 1, 2]], [[0, 1, 2, 3]]))
    elif kind < 0.35 and isinstance(holder, list):
        holder.append(pick.choice(WRONG))
    else:
        holder[path[-1]] = pick.choice(WRONG)
    return scene


def a_dented_quad(pick: random.Random) -> list[Vertex]:
    """The corners of a square, one of which lies on the diagonal of its neighbours, beyond it, or just before it."""
    (x, y), side = (pick.randint(-300, 900) for _ in "xy"), 2 * pick.randint(1, 300)
    corners = [[x, y], [x + side, y], [x + side, y + side], [x, y + side]]
    moved, inwards = pick.randrange(4), pick.choice((side // 2 - 1, side // 2, side // 2 + 1, side - 1, side))
    corners[moved] = [z - inwards if z > low else z + inwards for z, low in zip(corners[moved], (x, y))]
    return [corner + some_values(pick, [0]) for corner in corners]


def with_wrong_faces(pick: random.Random, draw: Draw) -> Draw:
    """A draw with quads of any four vertices, convex or not, or with more than one list of faces, or
    without vertices."""
    vertices = draw["vertices"]
    changed = {key: element for key, element in draw.items() if key not in renderer.FACE_KEYS}
    kind = pick.random()
    if kind < 0.3:
        first, turn = len(vertices), pick.randrange(4)
        quad = [first + (k + turn) % 4 for k in range(4)]
        changed["vertices"] = vertices + a_dented_quad(pick)
        changed["quads"] = [quad[::-1] if pick.random() < 0.5 else quad]
    elif kind < 0.6 and vertices:
        changed["quads"] = [[pick.randrange(len(vertices)) for _ in range(4)] for _ in range(pick.randint(1, 2))]
    else:
        for key in pick.sample(renderer.FACE_KEYS, pick.randint(0, 3)):
            changed[key] = draw.get(key, [])
        if pick.random() < 0.4:
            del changed["vertices"]
    return changed


def with_wrong_index(pick: random.Random, draw: Draw) -> Draw:
    """A draw with an index near the number of its vertices, or under zero."""
    changed = copy.deepcopy(draw)
    count = len(draw["vertices"])
    wrong = pick.choice((-1, count - 1, count, count, count + 1, 65535))
    key = next(key for key in renderer.FACE_KEYS if key in draw)
    if not changed[key]:
        return changed
    indices = changed[key] if key == "strip" else pick.choice(changed[key])
    indices[pick.randrange(len(indices))] = wrong
    return changed


def a_broken_text(pick: random.Random) -> bytes:
    value = a_list(pick)
    kind = pick.random()
    if value["draws"] and kind < 0.4:
        index = pick.randrange(len(value["draws"]))
        change = with_wrong_faces if kind < 0.3 else with_wrong_index
        value["draws"][index] = change(pick, value["draws"][index])
        return json.dumps(value).encode()
    for _ in range(pick.choice((1, 1, 2, 3))):
        value = broken(pick, value) if isinstance(value, (dict, list)) else value
    text = json.dumps(value).encode()
    kind = pick.random()
    if kind < 0.05:
        return text[: pick.randint(0, len(text) - 1)]
    if kind < 0.10:
        at = pick.randint(0, len(text) - 1)
        return text[:at] + bytes([pick.choice((0, 0x2C, 0x5B, 0x7D, 0x80, 0xFF))]) + text[at + 1 :]
    return text


def accepted_text(seed: int, number: int) -> bytes:
    """List `number` of a seed."""
    return json.dumps(a_list(random.Random(f"list {seed} {number}"))).encode()


def canvas_list(seed: int, number: int, samples: int, has_alpha: bool = False) -> DrawList:
    """List `number` of a seed for canvases with so many samples a pixel, without alpha or with it."""
    return a_canvas_list(random.Random(f"canvas {seed} {number} {samples}"), samples, has_alpha)


def broken_text(seed: int, number: int) -> bytes:
    """Broken list `number` of a seed."""
    return a_broken_text(random.Random(f"broken {seed} {number}"))
