"""Triangles in clip space, cut and projected for a canvas: include/trirast_clip.h over arrays of numpy."""

from typing import Any, List, NamedTuple, Sequence, SupportsIndex, Tuple

from ._arguments import between, each_of, named, of_length, shown
from ._buffers import refuse_masked
from ._cut_triangle import MADE, Corner, Ears, Plane, kept
from ._numpy import np
from ._records import HIGH, LOW, UNIT, index_columns, indices_of
from ._vertices import VERTEX

# One of numpy, which the package does without until a call needs it.
Array = Any
NEAR_PLANES = ("zero", "minus_one")
SIDES = ("guard_band", "viewport")
LARGEST = 16384
# What a float of C holds.
GREATEST = 3.4028234663852886e38
LEAST_W = 2.0**-30


class Clipped(NamedTuple):
    """Triangles on the screen. The first vertices are the projected positions, at their own indices; those that a plane
    does not keep are unspecified. Behind them lie those that cuts made: `cuts` has of each the triangle of the source
    in which it lies, `corners` the three indices of that triangle, and `weights` the weights of its corners. `sources`
    has of each triangle that of the source."""

    vertices: Array  # of VERTEX, in colours of 0: Canvas.draw takes them with `colors`, or whose fields are set
    w: Array  # float32, of each vertex
    triangles: Array  # uint32, rows of three indices, in the order of the source
    sources: Array  # uint32, of each triangle that of the source of which it is a part
    cuts: Array  # uint32, of each vertex that a cut made the triangle of the source in which it lies
    corners: Array  # uint32, rows of the three indices of that triangle
    weights: Array  # float64, rows of the weights of its corners
    # Polygons that rounding to 1/256 pixel has folded: thinner than that, a sample in one may be drawn twice.
    folded: int

    def attributes(self, values: Any) -> Array:
        """Attributes of all vertices: those of the positions, a row each, and then weighted sums for
        those that cuts made."""
        given = np.asarray(values)
        wanted = len(self.vertices) - len(self.cuts)
        if given.ndim == 0 or len(given) != wanted:
            raise ValueError(f"values: expected {wanted} rows, one for each position, got the shape {given.shape}")
        return np.concatenate([given, np.einsum("ck,ck...->c...", self.weights, given[self.corners])])


class View:
    """What does not change from triangle to triangle."""

    def __init__(
        self, viewport: Sequence[SupportsIndex], near_plane: int, sides: int, depths: Sequence[SupportsIndex]
    ) -> None:
        left, top, width, height = of_length("viewport", viewport, 4)
        starts = tuple(between(f"viewport[{k}]", each, -LARGEST, LARGEST) for k, each in enumerate((left, top)))
        sizes = tuple(between(f"viewport[{k}]", each, 1, LARGEST) for k, each in enumerate((width, height), 2))
        self.near_depth, far_depth = each_of("depths", depths, 2, depth_of)
        self.least_depth, self.greatest_depth = sorted((self.near_depth, far_depth))
        self.near_factor = float(near_plane)
        self.scales = (*(UNIT / 2 * size for size in sizes), (far_depth - self.near_depth) / (1 + self.near_factor))
        self.centre = tuple(UNIT * start + UNIT / 2 * size for start, size in zip(starts, sizes))
        guards = [guard(half, middle) if sides == 0 else 1.0 for half, middle in zip(self.scales, self.centre)]
        beside = (Plane(guards[axis], sign, axis) for axis in (0, 1) for sign in (1.0, -1.0))
        # In the order in which they cut.
        self.planes = (Plane(self.near_factor, 1.0, 2), Plane(0.0, 1.0, 3, LEAST_W), Plane(1.0, -1.0, 2), *beside)

    def marks(self, places: Array) -> Array:
        """A bit for each plane that does not keep the position, then for each side of the viewport that it lies beyond,
        then one if a coordinate is infinite or not a number."""
        found = np.zeros(places.shape[1], np.uint16)
        beyond = (Plane(1.0, sign, axis) for axis in (0, 1) for sign in (1.0, -1.0))
        with np.errstate(all="ignore"):
            for bit, plane in enumerate((*self.planes, *beyond)):
                found |= (plane.distance(places) < 0).astype(np.uint16) << np.uint16(bit)
            return found | ~(abs(places) <= GREATEST).all(axis=0) * np.uint16(self.not_finite)

    @property
    def all_planes(self) -> int:
        return (1 << len(self.planes)) - 1

    @property
    def not_finite(self) -> int:
        return 1 << (len(self.planes) + 4)

    def snapped(self, places: Array) -> Array:
        """The vertices of positions that all planes keep."""
        x, y, z, w = places
        right, down = np.rint(x / w * self.scales[0]), np.rint(-y / w * self.scales[1])
        depth = np.rint((z + self.near_factor * w) / w * self.scales[2])
        found = np.zeros(places.shape[1], VERTEX)
        found["x"] = np.clip(right + self.centre[0], LOW, HIGH)
        found["y"] = np.clip(down + self.centre[1], LOW, HIGH)
        found["depth"] = np.clip(self.near_depth + depth, self.least_depth, self.greatest_depth)
        return found


def guard(half: float, middle: float) -> float:
    """The largest power of two of half viewports from the middle that fit the positions of a canvas, with a pixel to
    spare: on the screen, and as seen from an origin anywhere in the viewport."""
    found = 1.0
    while 2 * found * half + max(abs(middle), half) <= HIGH - UNIT:
        found *= 2
    return found


class Parts:
    """What is left of triangles that planes cut: rows of the arrays of `Clipped`."""

    def __init__(self, view: View, vertices: Array) -> None:
        self._view, self._vertices = view, vertices
        self.made: List[Corner] = []
        self.cuts: List[int] = []
        self.triangles: List[Tuple[int, ...]] = []
        self.sources: List[int] = []
        self.folded = 0

    def add(self, source: int, corners: Sequence[Corner], marks: int) -> None:
        """Cuts a triangle by those planes that a corner is behind, and by no others: rounding errors would cut parts
        off a triangle that lies in a plane."""
        for bit, plane in enumerate(self._view.planes):
            if marks >> bit & 1:
                corners = tuple(kept(plane, corners))
            if len(corners) < 3:
                return
        count = len(self._vertices) + len(self.made)
        made = [corner for corner in corners if corner.vertex == MADE]
        numbers = iter(range(count, count + len(made)))
        indices = [next(numbers) if corner.vertex == MADE else corner.vertex for corner in corners]
        snapped = iter(self._view.snapped(np.array([corner.place for corner in made]).reshape(-1, 4).T))
        rows = [next(snapped) if corner.vertex == MADE else self._vertices[corner.vertex] for corner in corners]
        ears = Ears([(int(row["x"]), int(row["y"])) for row in rows])
        for ear in ears:
            self.triangles.append(tuple(indices[k] for k in ear))
            self.sources.append(source)
        self.made += made
        self.cuts += [source] * len(made)
        self.folded += ears.is_folded


def clip(
    positions: Any,
    triangles: Any,
    viewport: Sequence[SupportsIndex],
    *,
    near_plane: str = "zero",
    sides: str = "guard_band",
    depths: Sequence[SupportsIndex] = (0, 65535),
) -> Clipped:
    """Makes the triangles on the screen of triangles in clip space, without cracks between them. It needs numpy.

    `positions` are rows of x, y, z and w, floats or integers. One is in front of the eye if w is positive; x / w goes
    to the right and y / w upwards, each from -1 to 1 over the viewport. `triangles` are rows of three indices.
    `viewport` is left, top, width and height, in pixels of the screen. `near_plane` says what z / w is there: "zero",
    as in Direct3D and Vulkan, or "minus_one", as in OpenGL. `sides` cut at the "guard_band", far outside of the
    viewport, so that a scissor has to leave out what lies there, or at the "viewport". `depths` are those at the near
    plane and at the far plane.

    The results are those of trirast_clip.h for positions of 32 bits. Triangles that cover no sample of the viewport may
    be left out, and those with a coordinate that is infinite, not a number or above 3.4e38 are."""
    view = View(viewport, named("near_plane", NEAR_PLANES, near_plane), named("sides", SIDES, sides), depths)
    places = places_of(positions)
    rows = np.frombuffer(indices_of("triangles", triangles, index_columns(3)), np.uint32).reshape(-1, 3)
    check_indices(rows, places.shape[1], "positions")
    marks = view.marks(places)
    vertices = np.zeros(places.shape[1], VERTEX)
    whole = marks & (view.all_planes | view.not_finite) == 0
    vertices[whole] = view.snapped(places[:, whole])

    of_corners = marks[rows]
    either = np.bitwise_or.reduce(of_corners, axis=1)
    taken = (np.bitwise_and.reduce(of_corners, axis=1) == 0) & (either & view.not_finite == 0)
    is_cut = taken & (either & view.all_planes != 0)
    parts = Parts(view, vertices)
    for source in np.flatnonzero(is_cut).tolist():
        corners = [
            Corner(tuple(places[:, vertex].tolist()), tuple(float(k == other) for other in range(3)), vertex)
            for k, vertex in enumerate(rows[source].tolist())
        ]
        parts.add(source, corners, int(either[source]))
    return joined(view, places, vertices, rows, np.flatnonzero(taken & ~is_cut), parts)


def joined(
    view: View, places: Array, vertices: Array, rows: Array, uncut: Array, parts: Parts
) -> Clipped:
    """Triangles that no plane cuts and parts of others, in the order of the source."""
    made = np.array([corner.place for corner in parts.made]).reshape(-1, 4).T
    # A w that no float holds is that of a position which is left out.
    with np.errstate(all="ignore"):
        w = np.concatenate([places[3], made[3]]).astype(np.float32)
    cuts = np.array(parts.cuts, np.uint32)
    sources = np.concatenate([uncut, np.array(parts.sources, np.int64)])
    triangles = np.concatenate([rows[uncut], np.array(parts.triangles, np.uint32).reshape(-1, 3)])
    order = np.argsort(sources, kind="stable")
    return Clipped(
        np.concatenate([vertices, view.snapped(made)]),
        w,
        triangles[order],
        sources[order].astype(np.uint32),
        cuts,
        rows[cuts],
        np.array([corner.weights for corner in parts.made]).reshape(-1, 3),
        parts.folded,
    )


def places_of(positions: Any) -> Array:
    """Positions as four rows of doubles: x, y, z and w."""
    refuse_masked("positions", positions)
    try:
        given = np.asarray(positions)
    except ValueError:
        raise ValueError("positions: expected rows of x, y, z and w, got rows of several lengths") from None
    if given.dtype.kind not in "fiu":
        what = shown(positions) if given.ndim == 0 else given.dtype
        raise TypeError(f"positions: expected rows of x, y, z and w, floats or integers, got {what}")
    if given.size == 0:
        return np.zeros((4, 0))
    if given.ndim != 2 or given.shape[1] != 4:
        raise ValueError(f"positions: expected rows of x, y, z and w, got the shape {given.shape}")
    return np.ascontiguousarray(given.T, np.float64)


def depth_of(name: str, value: Any) -> int:
    """A depth. Raises ValueError at one out of range."""
    return between(name, value, 0, 65535)


def check_indices(rows: Array, count: int, of_what: str) -> None:
    """Raises ValueError at an index that is past the last position or vertex."""
    wrong = np.argwhere(rows >= count)
    if len(wrong):
        row, column = wrong[0].tolist()
        wanted = f"an index of {count} {of_what}"
        raise ValueError(f"triangles[{row}][{column}]: expected {wanted}, got {rows[row, column]}")
