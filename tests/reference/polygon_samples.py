"""What calls of polygons, triangles and pictures make of the samples of a canvas, each sample by itself.

Polygons cover samples by the definition, edge by edge, and each covered sample is shaded by
tests/reference/renderer.py, by which triangles are drawn too. It knows nothing of blocks, tiles or pieces. Needs numpy.
"""

from __future__ import annotations

from dataclasses import replace
from typing import Any

import numpy as np

from python.tests.polygon_rule import is_inside
from tests.reference import renderer
from tests.reference.compare_canvas import Readings, of_samples, with_id
from tests.reference.polygon_scenes import Call, Clear, Picture, Polygon, Polygons, Scene, Triangles

# Rows and columns of an array of samples.
Place = tuple[slice, slice]
# A sample as one number: red, green, blue and alpha in its low bytes, and above these the depth.
SHIFTS = np.array([0, 8, 16, 24])
DEPTH_SHIFT = 32
# The sample of a new canvas of the package.
NEW = Clear((0, 0, 0, 0), 65535)


class Samples:
    """The samples of a canvas as numbers, by row, column and sample index."""

    def __init__(self, scene: Scene) -> None:
        self.has_alpha = scene.has_alpha
        self.frame = renderer.Scene(scene.width, scene.height, scene.samples, (), "color", (), scene.origin)
        self.values = np.zeros((scene.height, scene.width, scene.samples), np.int64)
        self.clear(NEW)

    def packed(self, sample: renderer.Sample) -> int:
        red, green, blue, depth, *alpha = sample
        return red | green << 8 | blue << 16 | (alpha or [renderer.OPAQUE])[0] << 24 | depth << DEPTH_SHIFT

    def unpacked(self, value: int) -> renderer.Sample:
        red, green, blue, alpha = ((value >> shift) & 255 for shift in (0, 8, 16, 24))
        return (red, green, blue, value >> DEPTH_SHIFT, *((alpha,) if self.has_alpha else ()))

    # ---- Calls

    def draw(self, call: Call) -> None:
        if isinstance(call, Clear):
            self.clear(call)
        elif isinstance(call, Picture):
            self.store(call)
        elif isinstance(call, Triangles):
            self.draw_triangles(call)
        else:
            self.draw_polygons(call)

    def clear(self, call: Clear) -> None:
        alpha = call.colour[3:] if self.has_alpha else ()
        self.values[...] = self.packed((*call.colour[:3], call.depth, *alpha))

    def store(self, call: Picture) -> None:
        """A picture gives colours and alpha; depths stay."""
        pixels = np.array(call.pixels, np.int64)
        colours = (pixels << SHIFTS[: pixels.shape[2]]).sum(2)
        if pixels.shape[2] == 3 or not self.has_alpha:
            colours = colours & 0xFFFFFF | renderer.OPAQUE << 24
        part = self.values if call.sample is None else self.values[:, :, call.sample : call.sample + 1]
        part[...] = part >> DEPTH_SHIFT << DEPTH_SHIFT | colours[:, :, None]

    def draw_triangles(self, call: Triangles) -> None:
        state = renderer.read_state(call.state, 0, renderer.CANVAS)
        for number in range(len(call.vertices) // 3):
            vertices = tuple(tuple(vertex) for vertex in call.vertices[3 * number : 3 * number + 3])
            triangle = renderer.Triangle(vertices, state)
            self.draw_triangle(triangle if call.first_id is None else with_id(triangle, call.first_id + number))

    def draw_polygons(self, call: Polygons) -> None:
        for number, polygon in enumerate(call.polygons):
            self.draw_polygon(polygon, call.rule, self.shape(call, number))

    # ---- One triangle and one polygon

    def shape(self, call: Polygons, number: int) -> renderer.Triangle:
        """A polygon of a call as a triangle of any number of vertices, of one colour and one depth."""
        state = renderer.read_state(call.state, 0, renderer.CANVAS)
        values = (call.depths[number], *call.colours[number])
        shape = renderer.Triangle(
            tuple((*corner, *values) for ring in call.polygons[number] for corner in ring), state
        )
        return shape if call.first_id is None else with_id(shape, call.first_id + number)

    def box(self, shape: renderer.Triangle) -> tuple[renderer.Scene, Place]:
        """The part of the canvas in which a shape can cover samples, as a canvas and as a place."""
        columns, rows = renderer.pixels_of(shape, self.frame)
        x, y = self.frame.origin
        part = replace(self.frame, width=len(columns), height=len(rows), origin=(columns.start, rows.start))
        return part, (
            slice(rows.start - y, rows.start - y + len(rows)),
            slice(columns.start - x, columns.start - x + len(columns)),
        )

    def draw_triangle(self, triangle: renderer.Triangle) -> None:
        part, place = self.box(triangle)
        if not part.width or not part.height:
            return
        samples = [self.unpacked(value) for value in self.values[place].ravel().tolist()]
        renderer.draw(triangle, part, samples)
        changed = np.array([self.packed(sample) for sample in samples]).reshape(self.values[place].shape)
        self.values[place] = changed

    def draw_polygon(self, polygon: Polygon, rule: str, shape: renderer.Triangle) -> None:
        if not shape.vertices:
            return
        part, place = self.box(shape)
        if part.width and part.height:
            self.paint(place, covered(polygon, rule, shape.state.sample_mask, part), shape)

    def paint(self, place: Place, where: Any, shape: renderer.Triangle) -> None:
        """Draws a shape at these samples of a place."""
        self.values[place][where] = self.merged(self.values[place][where], shape)

    def merged(self, values: Any, shape: renderer.Triangle) -> Any:
        """What a shape of one colour and one depth makes of samples, which are many, and few of them different."""
        old, number = np.unique(values, return_inverse=True)
        new = [self.packed(renderer.shade(shape, (1, 0, 0), 1, self.unpacked(value))) for value in old.tolist()]
        return np.array(new, np.int64)[number]

    # ---- Reading

    def colours(self, sample: int) -> Any:
        """Red, green, blue and alpha of one sample of each pixel."""
        return self.values[:, :, sample, None] >> SHIFTS & 255

    def depths(self, sample: int) -> Any:
        return self.values[:, :, sample] >> DEPTH_SHIFT

    def readings(self) -> Readings:
        """All that is read of a canvas."""
        samples = [self.unpacked(value) for value in self.values.ravel().tolist()]
        return of_samples(renderer, samples, self.frame.samples)


def covered(polygon: Polygon, rule: str, mask: int, part: renderer.Scene) -> Any:
    """Which samples of a part of the canvas a polygon covers, of those in a sample mask."""
    offsets = np.array(renderer.SAMPLES[part.samples], np.int64)
    x = 256 * (part.origin[0] + np.arange(part.width))[None, :, None] + offsets[None, None, :, 0]
    y = 256 * (part.origin[1] + np.arange(part.height))[:, None, None] + offsets[None, None, :, 1]
    allowed = np.array([mask >> s & 1 == 1 for s in range(part.samples)])
    return np.logical_and(is_inside(polygon, rule, x, y), np.tile(allowed, (part.height, part.width, 1)))
