"""Fragments: what the ids of a canvas show, as arrays of numpy, for shading. include/trirast_shade.hpp has the same for
C++, and docs/shading.md pictures and bounds."""

from typing import Any, Literal, NamedTuple, Optional, Sequence, Tuple

from ._arguments import named, shown
from ._clip import check_indices
from ._numpy import np
from ._patterns import SAMPLES
from ._records import UNIT, index_columns, indices_of

# One of numpy, which the package does without until a call needs it.
Array = Any
Rate = Literal["pixel", "centre", "sample"]
RATES: Tuple[Rate, ...] = ("pixel", "centre", "sample")
CENTRE = UNIT // 2
# How many times the least w of a triangle the others are taken for at most.
MOST_W = 2.0**900


class Fragments(NamedTuple):
    """Points, each with a triangle that is seen there. Arrays have a row for each."""

    id: Array  # int64, of the triangle: its index among those that were drawn
    x: Array  # int64, in 1/256 pixel of the screen
    y: Array
    corners: Array  # int64, the three indices of the triangle
    weights: Array  # float64, of the corners, right in perspective
    # How the weights differ at the pixel to the right; where 1 / w falls to less than a half, at the one
    # to the left, turned.
    right: Array
    down: Array  # the same of the pixel below, or above
    index: Array  # int64, of the shape (samples, height, width): the row of each sample's fragment, or -1
    # The column and row of the tile whose fragments these are; None of the whole canvas.
    tile: Optional[Tuple[int, int]] = None

    def value(self, values: Any) -> Array:
        """A number at the points, or a row of them, of those of the vertices."""
        return self._mean(self.weights, values)

    def to_right(self, values: Any) -> Array:
        """How it differs at the pixel to the right."""
        return self._mean(self.right, values)

    def to_below(self, values: Any) -> Array:
        """How it differs at the pixel below."""
        return self._mean(self.down, values)

    def _mean(self, by: Array, values: Any) -> Array:
        given = np.asarray(values)
        wanted = int(self.corners.max(initial=-1)) + 1
        if given.ndim == 0 or len(given) < wanted:
            which = "one for each vertex, also of those that cuts made (Clipped.attributes)"
            raise ValueError(f"values: expected {wanted} rows at least, {which}, got the shape {given.shape}")
        return np.einsum("fc,fc...->f...", by, given[self.corners])

    def picture(self, colors: Any, background: Any = (0, 0, 0)) -> Array:
        """The colours of all samples: bytes of the shape (samples, height, width, 4), of which the last are 255.
        Fragments have rows of three colours of 0 to 255, rounded to the nearest byte, halves up; what is no number is
        0. Where there is no fragment the background stands, one colour or one for each pixel."""
        given = floats("colors", colors)
        if given.shape != (len(self.id), 3):
            raise ValueError(
                f"colors: expected {len(self.id)} rows of red, green and blue, one for each fragment, "
                f"got the shape {given.shape}"
            )
        table = packed(given)
        found = table[self.index] if len(table) else np.zeros(self.index.shape, np.uint32)
        np.copyto(found, packed(floats("background", background)), where=self.index < 0)
        return found.view(np.uint8).reshape(*self.index.shape, 4)


def floats(name: str, values: Any) -> Array:
    """Numbers as doubles. Raises TypeError at what is no number, and ValueError at one that no double holds."""
    try:
        given = np.asarray(values)
        if given.dtype.kind not in "fiubO":
            raise TypeError("texts, which float would read, times, or complex numbers")
        return given.astype(float)
    except OverflowError:
        raise ValueError(f"{name}: expected numbers that a float holds, got {shown(values)}") from None
    except (TypeError, ValueError):
        raise TypeError(f"{name}: expected numbers, got {shown(values)}") from None


def packed(given: Array) -> Array:
    """Colours as bytes, four in 32 bits."""
    found = np.full((*given.shape[:-1], 4), 255, np.uint8)
    with np.errstate(invalid="ignore"):
        found[..., :3] = np.where(given == given, np.clip(given, 0, 255) + 0.5, 0)
    return found.view(np.uint32)[..., 0]


def places_of(samples: int) -> Array:
    """Where samples lie in a pixel, in 1/256 pixel."""
    return np.array(SAMPLES[samples], np.int64)


def shown_by(ids: Array, count: int, rate: str) -> Tuple[Array, Array, Tuple[Array, Array]]:
    """Of the ids of all samples: the row of each sample's fragment, or -1; the triangles of the rows; and their places
    in the picture."""
    is_shown = ids < count
    owner = np.broadcast_to(np.arange(len(ids))[:, None, None], ids.shape).copy()
    if rate != "sample":
        for sample in range(len(ids) - 1, 0, -1):
            for before in range(sample - 1, -1, -1):
                owner[sample][ids[sample] == ids[before]] = before
    first = is_shown & (owner == np.arange(len(ids))[:, None, None])
    index = np.full(ids.shape, -1)
    index[first] = np.arange(np.count_nonzero(first))
    rest = is_shown & ~first
    index[rest] = np.take_along_axis(index, owner, 0)[rest]
    _sample, y, x = np.nonzero(first)
    return index, ids[first].astype(np.int64), (x, y)


def middles(index: Array, count: int) -> Array:
    """Where each fragment is shaded in its pixel: in the centre if all samples show it, else in the middle of those
    that do, rounded to 1/256; of three of sixteen in that of the first and the last, since the mean of three on a line
    may be rounded off it."""
    sample, *_pixel = np.nonzero(index >= 0)
    rows, places = index[index >= 0], places_of(len(index))
    number = np.bincount(rows, minlength=count)
    # Sums of integers in doubles are exact.
    sums = np.stack([np.bincount(rows, places[sample, axis], count) for axis in (0, 1)], 1).astype(np.int64)
    found = (2 * sums + number[:, None]) // (2 * number[:, None])
    if len(index) == 16:
        least, most = np.full(count, 16), np.full(count, -1)
        np.minimum.at(least, rows, sample)
        np.maximum.at(most, rows, sample)
        three = number == 3
        found[three] = (places[least[three]] + places[most[three]]) // 2
    found[number == len(index)] = CENTRE
    return found


def near_one(w: Array) -> Array:
    """Rows of w by a power of two, so that the least of each is from 1 to 2, and none above 2^900: edge functions by
    these, and 1 by their sum, are finite."""
    _share, exponents = np.frexp(w.min(1, keepdims=True))
    with np.errstate(over="ignore"):
        return np.minimum(np.ldexp(w, 1 - exponents), MOST_W)


def weigh(corners: Array, w: Array, points: Array) -> Tuple[Array, Array, Array]:
    """The weights at points in triangles, and how they differ at the next pixels. `corners` has rows of three pairs of
    x and y, and `w` of three numbers near 1."""
    from_point = corners - points[:, None]
    ahead, behind = np.roll(from_point, -1, 1), np.roll(from_point, -2, 1)
    edges = (ahead[..., 0] * behind[..., 1] - ahead[..., 1] * behind[..., 0]) / w
    whole = 1 / edges.sum(1, keepdims=True)
    weights = edges * whole
    steps = []
    for size in (UNIT * (ahead[..., 1] - behind[..., 1]), UNIT * (behind[..., 0] - ahead[..., 0])):
        step = size / w * whole
        total = step.sum(1, keepdims=True)
        steps.append((step - weights * total) / (1 + np.where(total < -0.5, -total, total)))
    return weights, steps[0], steps[1]


def fragments_of(
    ids: Array, origin: Sequence[int], vertices: Any, triangles: Any, w: Any, rate: str
) -> Fragments:
    """The fragments of ids, of the shape (samples, height, width)."""
    named("rate", RATES, rate)
    if not {"x", "y"} <= set(getattr(getattr(vertices, "dtype", None), "names", None) or ()):
        wanted = "an array with the fields x and y, as those of trirast.clip"
        raise TypeError(f"vertices: expected {wanted}, got {shown(vertices)}")
    indices = np.frombuffer(indices_of("triangles", triangles, index_columns(3)), np.uint32)
    rows = indices.reshape(-1, 3).astype(np.int64)
    distances = floats("w", w)
    if distances.shape != vertices.shape:
        raise ValueError(f"w: expected {len(vertices)} numbers, one for each vertex, got the shape {distances.shape}")
    check_indices(rows, len(vertices), "vertices")
    places = np.stack([vertices["x"], vertices["y"]], 1).astype(np.int64)
    index, number, (x, y) = shown_by(ids, len(rows), rate)
    if rate == "sample":
        within = places_of(len(ids))[np.nonzero(index >= 0)[0]]
    elif rate == "pixel":
        within = middles(index, len(number))
    else:
        within = np.full((len(number), 2), CENTRE)
    points = UNIT * (np.stack([x, y], 1) + np.array(origin)) + within
    corners = rows[number]
    weights, right, down = weigh(places[corners], near_one(distances[corners]), points)
    return Fragments(number, points[:, 0], points[:, 1], corners, weights, right, down, index)
