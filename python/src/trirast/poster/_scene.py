"""Scenes: the arrays and states of which a poster is drawn."""

from __future__ import annotations

import hashlib
import json
import operator
from dataclasses import InitVar, dataclass, field, replace
from functools import cached_property
from itertools import accumulate, groupby
from typing import TYPE_CHECKING, Any, Iterable, Mapping, NamedTuple, Optional, Sequence

import numpy as np
from numpy.typing import NDArray

from .._arguments import integer as exact
from .._patterns import COUNTS
from .._patterns import SAMPLES as SAMPLES
from .._polygons import NONE, Polygons
from .._records import HIGH, LOW
from .._rings import RULES
from .._vertices import VERTEX, is_own_layout, records_of
from ._errors import ArraysError, of_arrays
from ._marks import Mark
from ._pool import Pool

if TYPE_CHECKING:
    from typing_extensions import TypeAlias

# Sides of a poster, in pixels: what the guard band reaches.
MAX_SIDE = 32768
# Indices of triangles, and of polygons, have 32 bits.
MAX_TRIANGLES = (1 << 31) - 1
AXES = ("x", "y")
OUTPUTS = ("color", "depth")
# What a draw of polygons has beside what all have, and what it has not.
RULE, CULL = "rule", "cull"
# Keys of a draw that say what is drawn, and not how.
CONTENTS = ("vertices", "triangles", "strip", "quads")
# How many rows of an array are looked at together, so that a mapped array is never whole in memory.
CHUNK = 1 << 20

# What is written of a state: the same text for equal ones.
text_of = json.JSONEncoder(sort_keys=True).encode
# Arrays of no vertices and no triangles.
NO_TRIANGLES = np.zeros(0, VERTEX), np.zeros((0, 3), np.int32)

Vertices: TypeAlias = "NDArray[Any]"
Triangles: TypeAlias = "NDArray[np.int32]"
Pixels: TypeAlias = "NDArray[Any]"
Indices: TypeAlias = "NDArray[np.int32]"
Boxes: TypeAlias = "NDArray[np.int16]"


@dataclass(frozen=True)
class Sheet:
    """What a list says once: the size in pixels, the samples, and with what each sample begins.

    Raises ArraysError if a value is none of docs/draw-list.md, with sides of up to 32,768.
    """

    width: int
    height: int
    samples: int = 1
    clear: tuple[int, int, int] = (0, 0, 0)
    clear_depth: int = 65535
    output: str = "color"

    def __post_init__(self) -> None:
        red, green, blue = three("clear", self.clear)
        checked = {
            "width": integer("width", self.width, 1, MAX_SIDE),
            "height": integer("height", self.height, 1, MAX_SIDE),
            "samples": integer("samples", self.samples, min(SAMPLES), max(SAMPLES)),
            "clear": (integer("clear", red, 0, 255), integer("clear", green, 0, 255), integer("clear", blue, 0, 255)),
            "clear_depth": integer("clear_depth", self.clear_depth, 0, 65535),
        }
        if checked["samples"] not in SAMPLES:
            raise ArraysError(f"samples: expected one of {', '.join(map(str, SAMPLES))}, got {self.samples!r}")
        if self.output not in OUTPUTS:
            raise ArraysError(f"output: expected one of {', '.join(OUTPUTS)}, got {self.output!r}")
        for name, value in checked.items():
            object.__setattr__(self, name, value)

    @property
    def is_depth(self) -> bool:
        """Whether the picture shows depths."""
        return self.output == "depth"

    @property
    def pixel_bytes(self) -> int:
        """The bytes of a pixel."""
        return 2 if self.is_depth else 3

    def blank(self, height: int, width: int) -> Pixels:
        """Memory for pixels: (height, width, 3) of 8 bits, or (height, width) of 16 bits, the high byte
        first, of depths."""
        if self.is_depth:
            return np.empty((height, width), ">u2")
        return np.empty((height, width, 3), np.uint8)

    def fill(self, pixels: Pixels) -> None:
        """Makes of pixels those at which nothing is drawn."""
        pixels[:1] = self.clear_depth if self.is_depth else self.clear
        # Whole rows are copied many times faster than pixels.
        pixels[1:] = pixels[:1]


@dataclass(frozen=True)
class PosterDraw:
    """A draw of a scene: its number of triangles or of polygons, and the keys of docs/draw-list.md with their values
    (`cull`, `blend`, ..). Polygons have no `cull`, and a `rule`, "even-odd" or "nonzero".

    Raises ArraysError if these are none. A scene looks at the values.
    """

    triangles: int = 0
    state: Mapping[str, Any] = field(default_factory=dict)
    polygons: int = 0

    def __post_init__(self) -> None:
        for name in ("triangles", "polygons"):
            object.__setattr__(self, name, integer(name, getattr(self, name), 0, MAX_TRIANGLES))
        if self.triangles and self.polygons:
            raise ArraysError(f"draw: expected triangles or polygons, got {self.triangles} and {self.polygons}")
        if not isinstance(self.state, Mapping) or not set(self.state).isdisjoint(CONTENTS):
            raise ArraysError(
                f"state: expected keys of a draw and their values, without {', '.join(CONTENTS)}, got {self.state!r}"
            )
        if (
            CULL in self.state and self.polygons or self.state.get(RULE, RULES[0]) not in RULES
            or RULE in self.state and self.triangles
        ):
            raise ArraysError(
                f"state: expected of polygons a rule, {' or '.join(RULES)}, and no cull, and of triangles no rule, "
                f"got {self.state!r}"
            )
        try:
            # A copy of its own, which nobody else changes.
            object.__setattr__(self, "state", json.loads(text_of(dict(self.state))))
        except (TypeError, ValueError, RecursionError) as error:
            raise ArraysError(f"state: expected values of a draw list, got {self.state!r}: {error}") from error

    @property
    def count(self) -> int:
        """How many triangles or polygons it has."""
        return self.triangles or self.polygons


@dataclass(frozen=True)
class Scene:
    """Triangles over vertices, and polygons, draw after draw.

    `vertices` are records of trirast.VERTEX, or rows of x, y, depth, red, green, blue and alpha, of which the scene
    makes records; `triangles` are rows of three indices of vertices. The first draw of triangles has the first ones,
    and so on, and so it is with draws of `polygons`. The scene keeps copies of all, which cannot be written to, unless
    `copy` is false. Then it may keep vertices and triangles themselves. If somebody changes them as long as the scene
    is used, another picture is drawn, or an error is raised: each window draws copies of what it reads. `source` is the
    file that it was read from, which no poster replaces. Raises ArraysError if something does not fit, and
    trirast.Error if a state is wrong.
    """

    sheet: Sheet
    vertices: Vertices
    triangles: Triangles
    draws: Sequence[PosterDraw]
    source: Optional[str] = field(default=None, compare=False)
    copy: InitVar[bool] = True
    polygons: Polygons = NONE
    # What the command says of it when it is drawn.
    summary: str = field(default="", repr=False, compare=False)
    # Where a map lies: a Georeference.
    place: Any = field(default=None, repr=False, compare=False)
    # Images that lie over the finished picture, as labels do.
    marks: Sequence[Mark] = ()
    # Whether nobody else can change the arrays.
    is_own: bool = field(init=False, repr=False, compare=False, default=True)

    def __post_init__(self, copy: bool) -> None:
        object.__setattr__(self, "is_own", bool(copy))
        if not isinstance(self.sheet, Sheet) or not all(isinstance(draw, PosterDraw) for draw in self.draws):
            raise ArraysError("scene: expected a Sheet and a sequence of PosterDraw, got others")
        object.__setattr__(self, "draws", tuple(self.draws))
        object.__setattr__(self, "vertices", own_vertices(self.vertices, copy))
        object.__setattr__(self, "triangles", own_triangles(self.triangles, copy))
        object.__setattr__(self, "polygons", own_polygons(self.polygons))
        check_arrays(self.vertices, self.triangles, self.draws)
        check_count("polygons", sum(draw.polygons for draw in self.draws), self.polygons.count)
        check_states(self.draws)

    @cached_property
    def stretches(self) -> list[Stretch]:
        """What is drawn one after another in one state, by one draw or by several."""
        found: list[Stretch] = []
        states: dict[str, Mapping[str, Any]] = {}
        for draw, end in zip(self.draws, accumulate(draw.count for draw in self.draws)):
            if not draw.count:
                continue
            state, is_polygons = states.setdefault(text_of(draw.state), draw.state), draw.polygons > 0
            if found and found[-1].state is state and found[-1].is_polygons == is_polygons:
                found.pop()
            found.append(Stretch(end, state, is_polygons))
        return found

    @cached_property
    def ends(self) -> list[int]:
        """Of each stretch the index at which it ends, triangles and polygons counted together."""
        return [stretch.end for stretch in self.stretches]

    @cached_property
    def runs(self) -> list[Run]:
        """Triangles or polygons that are drawn one after another, in one state or in several."""
        found: list[Run] = []
        counts, first = {False: 0, True: 0}, 0
        for is_polygons, stretches in groupby(self.stretches, lambda stretch: stretch.is_polygons):
            *_, (end, _, _) = stretches
            found.append(Run(first, end, counts[is_polygons], is_polygons))
            counts[is_polygons] += end - first
            first = end
        return found

    @cached_property
    def run_table(self) -> tuple[NDArray[np.int64], NDArray[np.int64], NDArray[np.bool_]]:
        """Of each run where it ends, what is added to an index in it for that of a triangle or a polygon, and which it
        has."""
        ends = np.array([run.end for run in self.runs], np.int64)
        shifts = np.array([run.number - run.first for run in self.runs], np.int64)
        return ends, shifts, np.array([run.is_polygons for run in self.runs], np.bool_)

    def checksum(self, threads: int = 1) -> str:
        """A checksum (BLAKE2b) of all that is drawn: of the state and the checksums of parts of the arrays."""
        with Pool(threads) as pool:
            return self.checksum_of(pool.map(digest_of, self.parts()))

    def parts(self) -> list[NDArray[Any]]:
        """The parts of the arrays of which there are checksums."""
        arrays = self.vertices, self.triangles, *self.polygons.arrays
        return [array[first : first + CHUNK] for array in arrays for first in range(0, len(array), CHUNK)]

    def checksum_of(self, digests: Iterable[bytes]) -> str:
        """The checksum, of those of the parts."""
        head = [self.sheet.__dict__, [[draw.triangles, draw.polygons, dict(draw.state)] for draw in self.draws]]
        found = hashlib.blake2b(json.dumps(head, sort_keys=True, default=list).encode(), digest_size=16)
        for each in digests:
            found.update(each)
        for mark in self.marks:
            found.update(f"{mark.left} {mark.top}".encode() + digest_of(mark.image))
        return found.hexdigest()


class Stretch(NamedTuple):
    """Triangles or polygons that end before the index `end`, and are drawn in one state. Equal states are one
    object."""

    end: int
    state: Mapping[str, Any]
    is_polygons: bool


class Run(NamedTuple):
    """What is drawn from the index `first` to before `end`: triangles or polygons, of which `number` is the first."""

    first: int
    end: int
    number: int
    is_polygons: bool


def owned(scene: Scene) -> Scene:
    """A scene whose arrays were not copied, and which nobody else has."""
    object.__setattr__(scene, "is_own", True)
    return scene


def with_samples(scene: Scene, samples: int) -> Scene:
    """A scene with another number of samples a pixel. A draw whose sample mask has every sample still has every one,
    and another mask stays as it is. Raises ValueError if no pixel has as many samples, and TypeError at no integer."""
    samples = exact("samples", samples)
    if samples not in SAMPLES:
        raise ValueError(f"samples: expected {COUNTS}, got {samples}")
    if samples == scene.sheet.samples:
        return scene
    every = (1 << scene.sheet.samples) - 1
    draws = [without_mask(draw) if ~draw.state.get("sample_mask", every) & every == 0 else draw for draw in scene.draws]
    other = replace(scene, sheet=replace(scene.sheet, samples=samples), draws=draws, copy=False)
    return owned(other) if scene.is_own else other


def without_mask(draw: PosterDraw) -> PosterDraw:
    """A draw that draws every sample."""
    return replace(draw, state={key: value for key, value in draw.state.items() if key != "sample_mask"})


def digest_of(array: NDArray[Any]) -> bytes:
    """A checksum (BLAKE2b) of the shape and the numbers of an array."""
    found = hashlib.blake2b(repr(array.shape).encode(), digest_size=16)
    found.update(np.ascontiguousarray(array).view(np.uint8).data)
    return found.digest()


def own_vertices(array: Any, copy: bool) -> Vertices:
    """Records one after another, which cannot be written to. They are the array itself only if it has such records and
    `copy` is false. Raises ArraysError if it has neither records nor rows of seven integers that fit."""
    array = exact_array("vertices", array)
    if array.dtype.names and is_own_layout(array):
        found: Vertices = (np.array(array, order="C") if copy else array).view(VERTEX)
    elif array.ndim == 2 and array.shape[1] != len(VERTEX) - 1:
        raise ArraysError(f"vertices: expected rows of 7 integers, got {array.dtype} of the shape {array.shape}")
    else:
        with of_arrays():
            found = np.frombuffer(records_of(array), VERTEX)
    found.flags.writeable = False
    return found


def own_triangles(array: Any, copy: bool) -> Triangles:
    """Rows of the machine's 32-bit integers, in the same way. Raises ArraysError if it has no such integers in rows of
    three."""
    array = exact_array("triangles", array)
    if array.ndim != 2 or array.shape[1] != 3 or array.dtype.kind not in "iu":
        raise ArraysError(f"triangles: expected rows of 3 integers, got {array.dtype} of the shape {array.shape}")
    if array.dtype == np.int32 and array.dtype.isnative:
        found: Triangles = np.array(array, order="C") if copy else np.require(array, None, ("C", "A")).view()
    else:
        found = np.empty(array.shape, np.int32)
        for first in range(0, len(array), CHUNK):
            part = np.array(array[first : first + CHUNK])
            check_range("triangles", part, -(1 << 31), (1 << 31) - 1)
            found[first : first + CHUNK] = part
    found.flags.writeable = False
    return found


def own_polygons(given: Any, copy: bool = True) -> Polygons:
    """Returns polygons in arrays of their own, as `Polygons.owned` does. Raises ArraysError if they are none."""
    if not isinstance(given, Polygons):
        raise ArraysError(f"polygons: expected a Polygons, got {type(given).__name__}")
    with of_arrays():
        return given.owned(copy)


def check_arrays(vertices: Vertices, triangles: Triangles, draws: Sequence[PosterDraw]) -> None:
    """Raises ArraysError unless the draws have all triangles, each number is in its range and each
    index names a vertex."""
    check_count("triangles", sum(draw.triangles for draw in draws), len(triangles))
    for first in range(0, len(vertices), CHUNK):
        for axis in AXES:
            check_range(f"vertices.{axis}", vertices[axis][first : first + CHUNK], LOW, HIGH)
    for first in range(0, len(triangles), CHUNK):
        check_range("triangles", triangles[first : first + CHUNK], 0, len(vertices) - 1)


def check_count(name: str, counted: int, count: int) -> None:
    if counted != count:
        raise ArraysError(f"draws: expected the {count} {name} of the arrays, got {counted}")


def check_states(draws: Sequence[PosterDraw]) -> None:
    """Raises trirast.Error if a state is none of a draw list, as the library does."""
    # The format of lists stands on scenes.
    from ._draw_list import check_states as check_list

    states = {text_of(draw.state): draw.state for draw in draws}
    check_list({"width": 1, "height": 1, "draws": list(states.values())})


def exact_array(name: str, array: Any) -> NDArray[Any]:
    """An array of numpy's own class, since another class may say what it likes of its size. Raises ArraysError if it is
    none."""
    if not isinstance(array, np.ndarray) or isinstance(array, np.ma.MaskedArray):
        raise ArraysError(f"{name}: expected an array of numpy, without a mask, got {type(array).__name__}")
    return np.asarray(array)


def check_range(name: str, numbers: NDArray[Any], least: int, most: int) -> None:
    if numbers.size and not (least <= int(numbers.min()) and int(numbers.max()) <= most):
        raise ArraysError(f"{name}: expected {least} to {most}, got {numbers.min()} to {numbers.max()}")


def integer(name: str, value: Any, least: int, most: int) -> int:
    """A value as an integer. Raises ArraysError if it is none from `least` to `most`."""
    try:
        found = None if isinstance(value, (bool, np.bool_)) else operator.index(value)
    except TypeError:
        found = None
    if found is None or not least <= found <= most:
        raise ArraysError(f"{name}: expected an integer from {least} to {most}, got {value!r}")
    return found


def three(name: str, values: Any) -> tuple[Any, Any, Any]:
    """Three values. Raises ArraysError if there are not three."""
    try:
        first, second, third = values
    except (TypeError, ValueError, NotImplementedError):
        raise ArraysError(f"{name}: expected three integers, got {values!r}") from None
    return first, second, third
