"""Figures of the coverage explorer: their links, their draw lists, and what the program or the reference makes of each
of their samples."""

from __future__ import annotations

import random
from dataclasses import dataclass, replace
from typing import Any, Sequence
from urllib.parse import parse_qs

from tools import answers, picture_file
from tests.cases import must
from tools.draw_list import Draw, DrawList, draw, draw_list, encode, vertex
from tools.places import PROGRAM
from tests.reference.renderer import CANVAS, LIST, SAMPLES, Edge, ListFault, drawn, read, render, side

Point = tuple[int, int]
Corners = tuple[Point, Point, Point]

COLUMNS, ROWS, UNIT = 16, 12, 256
NAMES = "ABCD"
# How far a vertex may lie outside of the pixels.
MARGIN = 128
CULLS = ("none", "front", "back")
# The corners of both triangles, by the names of the ends of the shared edge.
TRIANGLES = {"BC": ("CAB", "BDC"), "AD": ("ABD", "DCA")}
BLACK = [0, 0, 0]


@dataclass(frozen=True)
class Figure:
    """Four vertices, the two triangles over them, and the state in which they are drawn."""

    points: tuple[Point, ...]
    samples: int = 4
    cull: str = "none"
    is_turned: bool = False
    diagonal: str = "BC"
    is_quad: bool = False
    scissor: tuple[int, ...] | None = None

    def text(self) -> str:
        """What stands behind the # of a link."""
        parts = {name: f"{x},{y}" for name, (x, y) in zip(NAMES, self.points)}
        parts.update(
            samples=str(self.samples), cull=self.cull, turned="yes" if self.is_turned else "no", diagonal=self.diagonal
        )
        parts["primitives"] = "quad" if self.is_quad else "triangles"
        if self.scissor:
            parts["scissor"] = ",".join(map(str, self.scissor))
        return "&".join(f"{key}={value}" for key, value in parts.items())

    def names(self) -> tuple[str, ...]:
        """The corners of both triangles in their order."""
        return tuple(names[::-1] if self.is_turned else names for names in TRIANGLES[self.diagonal])

    def triangles(self) -> list[Corners]:
        found = []
        for names in self.names():
            a, b, c = (self.points[NAMES.index(name)] for name in names)
            found.append((a, b, c))
        return found

    def draw_list(self, tints: dict[str, Any]) -> DrawList:
        """The list of the figure in the colours that the page has."""
        state: Draw = {} if self.cull == "none" else {"cull": self.cull}
        if self.scissor:
            state["scissor"] = list(self.scissor)
        if self.is_quad:
            first, second = self.names()
            vertices = [vertex(x, y, 0, tints["quad"]) for x, y in self.points]
            drawn = {**state, "vertices": vertices, "quads": [[NAMES.index(name) for name in first + second[1]]]}
        else:
            corners = [
                (point, tint) for triangle, tint in zip(self.triangles(), tints["triangles"]) for point in triangle
            ]
            drawn = draw([vertex(x, y, 0, tint) for (x, y), tint in corners], [[0, 1, 2], [3, 4, 5]], **state)
        return draw_list(COLUMNS, ROWS, drawn, samples=self.samples, clear=tints["cell"])


def figure_in(text: str) -> Figure:
    """The figure of a link's text. What it lacks has the value that the page leaves out."""
    given = {key: values[0] for key, values in parse_qs(text).items()}

    def point(name: str) -> Point:
        x, y = map(int, given[name].split(","))
        return x, y

    scissor = given.get("scissor")
    return Figure(
        points=tuple(point(name) for name in NAMES), samples=int(given.get("samples", "4")),
        cull=given.get("cull", "none"), is_turned=given.get("turned") == "yes", diagonal=given.get("diagonal", "BC"),
        is_quad=given.get("primitives") == "quad",
        scissor=tuple(map(int, scissor.split(","))) if scissor else None,
    )


def some_points(pick: random.Random, samples: int) -> tuple[Point, ...]:
    """Four vertices. Of three figures one has them on rows and columns of samples, so that samples lie on edges, and
    some of their edges are horizontal. Of two figures one has them in the four quarters of the grid, so that most of
    these are convex."""
    is_on_samples, is_spread = pick.randrange(3) == 0, pick.random() < 0.5
    points: list[Point] = []
    for name in NAMES:
        place = []
        for pixels, is_far in ((COLUMNS, name in "BD"), (ROWS, name in "CD")):
            low, high = (is_far * pixels // 2, pixels // 2 + is_far * pixels // 2) if is_spread else (0, pixels)
            offset = pick.choice(SAMPLES[samples])[0] if is_on_samples else pick.randint(-MARGIN, UNIT + MARGIN)
            place.append(UNIT * pick.randrange(low, high) + offset)
        is_level = is_on_samples and name in "BD" and pick.random() < 0.5
        points.append((place[0], points[-1][1] if is_level else place[1]))
    return tuple(points)


def some_figure(pick: random.Random) -> Figure:
    """A random figure."""
    samples = pick.choice(CANVAS.counts)
    columns, rows = sorted(pick.choices(range(COLUMNS + 1), k=2)), sorted(pick.choices(range(ROWS + 1), k=2))
    return Figure(
        some_points(pick, samples), samples, pick.choice(("none", *CULLS)), pick.random() < 0.5,
        pick.choice(tuple(TRIANGLES)), pick.random() < 0.3,
        (columns[0], rows[0], columns[1], rows[1]) if pick.random() < 0.3 else None,
    )


def run_program(scene: DrawList) -> answers.Answer:
    """The program's answer to a list. One with a number of samples that the program does not take is drawn
    by the reference."""
    if scene.get("samples", 1) in LIST.counts:
        return answers.drawn(PROGRAM, encode(scene))
    try:
        return answers.Answer(0, render(read(encode(scene), CANVAS)), b"")
    except ListFault as error:
        return answers.Answer(1, b"", str(error).encode() + b"\n")


def pixels_of(scene: DrawList) -> bytes:
    """The pixels that the program draws of a list."""
    answer = run_program(scene)
    must(answer.status == 0, f"the program refused a list: {answer}")
    return picture_file.decode(answer.output).pixel_data


def drawn_samples(figure: Figure) -> list[list[str]]:
    """For each sample index and each pixel two digits: whether the first and the second triangle are drawn there.

    The first is drawn in red and the second in green: by the program sample index by sample index, or by the reference.
    """
    if figure.samples not in LIST.counts:
        samples = drawn(read(encode(red_and_green(figure, CANVAS.mask)), CANVAS))
        return [[digits(sample) for sample in samples[s :: figure.samples]] for s in range(figure.samples)]
    planes = []
    for sample in range(figure.samples):
        pixels = pixels_of(red_and_green(figure, 1 << sample))
        planes.append([digits(pixels[k : k + 3]) for k in range(0, len(pixels), 3)])
    return planes


def red_and_green(figure: Figure, sample_mask: int) -> DrawList:
    """The first triangle in red and the second in green, which do not hide each other, on black."""
    draws = [
        draw(
            [vertex(x, y) for x, y in corners], write=[k == 0, k == 1, False], cull=figure.cull,
            sample_mask=sample_mask, scissor=list(figure.scissor or (0, 0, COLUMNS, ROWS)),
        )
        for k, corners in enumerate(figure.triangles())
    ]
    return draw_list(COLUMNS, ROWS, *draws, samples=figure.samples, clear=BLACK)


def digits(colour: Sequence[int]) -> str:
    return f"{int(colour[0] > 0)}{int(colour[1] > 0)}"


def signs_at(corners: Corners, point: Sequence[int]) -> str:
    """The signs of the edge functions at a point, each of the edge across from a corner."""
    a, b, c = corners
    values = (side(b, c, point), side(c, a, point), side(a, b, point))
    return ",".join(str((value > 0) - (value < 0)) for value in values)


def wanted_samples(figure: Figure, is_refused: bool) -> dict[str, tuple[str, str, str]]:
    """What the page has to show at each sample, by its column, row and index: covered, drawn, and the signs."""
    covered = drawn_samples(replace(figure, cull="none", scissor=None))
    drawn = drawn_samples(figure)
    wanted = {}
    for row in range(ROWS):
        for column in range(COLUMNS):
            for sample, (x, y) in enumerate(SAMPLES[figure.samples]):
                point, pixel = (UNIT * column + x, UNIT * row + y), COLUMNS * row + column
                signs = ";".join(signs_at(corners, point) for corners in figure.triangles())
                wanted[f"{column},{row},{sample}"] = (
                    covered[sample][pixel], "00" if is_refused else drawn[sample][pixel], signs
                )
    return wanted


def wanted_edges(figure: Figure) -> list[tuple[int, str]]:
    """The edges that the page has to show: the number of their triangle, and `top`, `left` or nothing."""
    found = []
    for number, (a, b, c) in enumerate(figure.triangles(), start=1):
        if side(a, b, c) == 0:
            continue
        for p, q, third in ((b, c, a), (c, a, b), (a, b, c)):
            kind = "top" if p[1] == q[1] else "left"
            found.append((number, kind if Edge(p, q, third).owns_its_points else ""))
    return found
