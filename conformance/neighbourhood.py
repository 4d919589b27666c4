"""The pixels around the one where a driver departs from the rules, as a drawing (SVG) and as characters."""

from __future__ import annotations

from typing import Callable

from conformance.comparison import EXTRA, MISSING, OTHER, Example, colour_at, kind_of, samples_of
from conformance.suites.shapes import PIXEL, PLACES

REACH = 4  # pixels on each side of the worst one
SCALE = 34  # of a pixel in the drawing
# Of triangles; none looks like a kind of difference.
PALETTE = ("#2a9d8f", "#f2a541", "#59a14f", "#9c755f", "#edc948", "#8c8c8c")
Pixel = tuple[int, int]  # column and row
# Of each kind of difference its character and its colour.
MARKS = {EXTRA: ("+", "#d62728"), MISSING: ("-", "#1f3fd6"), OTHER: ("*", "#c21fd6")}


class Window:
    """The pixels that are shown of an example: columns, rows, and the colours that its palette names."""

    def __init__(self, example: Example) -> None:
        self.example, self.width, self.height = example, example.scene["width"], example.scene["height"]
        column, row = example.place
        self.columns = range(max(0, column - REACH), min(self.width, column + REACH + 1))
        self.rows = range(max(0, row - REACH), min(self.height, row + REACH + 1))
        self.centre = (column, row)
        self.names: dict[bytes, str] = {}

    def pixels(self) -> list[Pixel]:
        return [(column, row) for row in self.rows for column in self.columns]

    def name(self, colour: bytes) -> str:
        """A colour of the palette for a triangle's colour; `none` if nothing is drawn."""
        if not any(colour):
            return "none"
        return self.names.setdefault(colour, PALETTE[len(self.names) % len(PALETTE)])

    def at(self, x: int, y: int) -> tuple[str, str]:
        """A position in 1/256 pixel as a place of the drawing."""
        left, top = x / PIXEL - self.columns[0], y / PIXEL - self.rows[0]
        return f"{left * SCALE:.2f}", f"{top * SCALE:.2f}"


def verdict(expected: bytes, drawn: bytes) -> tuple[str, str]:
    """How a sample's two colours compare: as a character and as a colour."""
    if expected == drawn:
        return ("#", "#bbbbbb") if any(drawn) else (".", "none")
    return MARKS[kind_of(expected, drawn)]


def as_characters(example: Example) -> list[str]:
    """The neighbourhood of the sample that differs, a character for each pixel."""
    window = Window(example)
    planes = example.expected[example.sample], example.drawn[example.sample]
    lines = []
    for row in window.rows:
        pairs = [[colour_at(plane, window.width, (column, row)) for plane in planes] for column in window.columns]
        lines.append("".join(verdict(*pair)[0] for pair in pairs))
    return lines


def outlines(window: Window) -> list[str]:
    """The triangles that pass the window, and the scissors of their draws."""
    shapes = []
    left, right = PIXEL * window.columns[0], PIXEL * (window.columns[-1] + 1)
    top, bottom = PIXEL * window.rows[0], PIXEL * (window.rows[-1] + 1)
    for draw in window.example.scene["draws"]:
        for triangle in draw["triangles"]:
            points = [draw["vertices"][k][:2] for k in triangle]
            xs, ys = zip(*points)
            if min(xs) <= right and max(xs) >= left and min(ys) <= bottom and max(ys) >= top:
                corners = " ".join(",".join(window.at(*point)) for point in points)
                shapes.append(f'<polygon points="{corners}" fill="none" stroke="#555" stroke-width="0.8"/>')
        if "scissor" in draw:
            (x, y), (far, low) = (window.at(*(PIXEL * edge for edge in draw["scissor"][k : k + 2])) for k in (0, 2))
            shapes.append(f'<path d="M{x},{y}H{far}V{low}H{x}Z" class="scissor"/>')
    return shapes


def dots(window: Window, fill: Callable[[int, Pixel], str]) -> list[str]:
    """A dot at each sample of the window; `fill` gives its colour from the sample and the pixel."""
    places = PLACES[samples_of(window.example.scene)]
    shapes = []
    for column, row in window.pixels():
        for sample, (x, y) in enumerate(places):
            across, down = window.at(PIXEL * column + x, PIXEL * row + y)
            colour = fill(sample, (column, row))
            shapes.append(f'<circle cx="{across}" cy="{down}" r="4" fill="{colour}" stroke="#999" stroke-width="0.5"/>')
    return shapes


def squares(window: Window, fill: Callable[[Pixel], str]) -> list[str]:
    """A square for each pixel of the window; `fill` gives its colour from the pixel."""
    shapes = []
    for column, row in window.pixels():
        x, y = window.at(PIXEL * column, PIXEL * row)
        colour = fill((column, row))
        shapes.append(f'<rect x="{x}" y="{y}" width="{SCALE}" height="{SCALE}" fill="{colour}" stroke="#ddd"/>')
    return shapes


def panel(window: Window, title: str, shapes: list[str]) -> str:
    width, height = SCALE * len(window.columns), SCALE * len(window.rows)
    x, y = window.at(PIXEL * window.centre[0], PIXEL * window.centre[1])
    mark = f'<rect x="{x}" y="{y}" width="{SCALE}" height="{SCALE}" fill="none" stroke="#000" stroke-width="1.5"/>'
    drawing = f'<svg viewBox="0 0 {width} {height}" width="{width}">{"".join(shapes)}{mark}</svg>'
    return f"<figure>{drawing}<figcaption>{title}</figcaption></figure>"


def coverage_panels(example: Example) -> str:
    """The rules' samples, the driver's, and where they differ."""
    window = Window(example)
    grid, lines = squares(window, lambda _pixel: "#fff"), outlines(window)

    def of(planes: list[bytes]) -> Callable[[int, Pixel], str]:
        return lambda sample, pixel: window.name(colour_at(planes[sample], window.width, pixel))

    def difference(sample: int, pixel: Pixel) -> str:
        pair = (colour_at(planes[sample], window.width, pixel) for planes in (example.expected, example.drawn))
        return verdict(*pair)[1]

    fills = (("by the rules", of(example.expected)), ("the driver", of(example.drawn)), ("difference", difference))
    return "".join(panel(window, title, grid + lines + dots(window, fill)) for title, fill in fills)


def value_panels(example: Example) -> str:
    """The program's pixels, the driver's, and the size of their difference, from white (equal) to red."""
    window = Window(example)
    planes = example.expected[0], example.drawn[0]

    def of(plane: bytes) -> Callable[[Pixel], str]:
        return lambda pixel: "#" + colour_at(plane, window.width, pixel).hex()

    def difference(pixel: Pixel) -> str:
        size = max(abs(a - b) for a, b in zip(*(colour_at(plane, window.width, pixel) for plane in planes)))
        light = max(0, 255 - 60 * size)
        return f"rgb(255 {light} {light})"

    fills = (("the program", of(planes[0])), ("the driver", of(planes[1])), ("difference", difference))
    return "".join(panel(window, title, squares(window, fill)) for title, fill in fills)
