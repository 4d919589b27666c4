"""The samples of a picture's pixels, and what is still to be drawn into them."""

from __future__ import annotations

import sys
from typing import Any, Callable, Dict, List, NamedTuple, Optional, Tuple

import numpy as np

from .._box import Box
from .._polygons import Polygons
from .._numbers import HIGHEST_ORIGIN
from .._records import UNIT
from ._colors import OPAQUE, as_agg_blends
from ._mesh import Gouraud
from ._triangles import bounds_of
from ._window import Clip, Window

# A canvas of this side takes up to 409 MB with 16 samples, as far as it is drawn upon.
MAX_SIDE = 2048
# Of so many pixels in both directions one is looked at where the colour of most is asked for.
STEP = 7


class Waiting(NamedTuple):
    """Polygons that are still to be drawn, in their colours."""

    polygons: Polygons
    box: Box
    clip: Optional[Clip]
    has_alpha: bool

    @property
    def bounds(self) -> Box:
        """The pixels that they can change."""
        corners = self.polygons.corners
        if not len(corners):
            return Box(0, 0, 0, 0)
        (left, right), (top, bottom) = ((int(axis.min()), int(axis.max())) for axis in corners.T)
        return Box(left // UNIT, top // UNIT, -(-right // UNIT), -(-bottom // UNIT)).common(self.box)


class Samples:
    """The samples of a picture: an array of the shape (height, width, 4) of bytes. Polygons wait until `flush`, so that
    neighbours that come one after another are drawn at once."""

    def __init__(self, picture: Any, samples: int, threads: int) -> None:
        self._picture = picture
        self._height, self._width = picture.shape[:2]
        self.settings = samples, threads
        # By the place of their corner, and by whether their samples have alpha.
        self._windows: Dict[Tuple[int, int, bool], Window] = {}
        self._waiting: List[Waiting] = []
        self._is_opaque = False
        # What boxes showed before the first translucent polygon was drawn inside of them, as axes their background.
        self._grounds: Dict[Box, Any] = {}

    def forget(self) -> None:
        """Drops what waits and all samples: the picture was cleared."""
        self._waiting = []
        self._is_opaque = False
        self._grounds = {}
        for window in self._windows.values():
            window.forget()

    def doubt_opacity(self) -> None:
        """Something may have made pixels transparent."""
        self._is_opaque = False

    @property
    def can_draw(self) -> bool:
        """Whether windows reach all of the picture."""
        return bool(max(self._width, self._height) <= HIGHEST_ORIGIN)

    def is_opaque(self, box_of: Callable[[], Box]) -> bool:
        """Whether the pixels of a box are opaque, so that samples need no alpha. The box is asked for if some
        other pixel is not."""
        if self._is_opaque:
            return True
        self._is_opaque = is_all_opaque(self._picture)
        if self._is_opaque:
            return True
        box = box_of()
        return bool((self._picture[box.top : box.bottom, box.left : box.right, 3] == OPAQUE).all())

    def has_samples(self, box: Box) -> bool:
        """Whether samples may differ from the picture near a box."""
        if self._waiting:
            return True
        return any(
            window.has_samples(window.box.common(box)) for window in self._windows.values() if window.box.meets(box)
        )

    def add(self, polygons: Polygons, box: Box, clip: Optional[Clip] = None) -> None:
        """Draws polygons in their order inside of a box."""
        has_alpha = self._needs_alpha(box)
        is_first = not has_alpha and box not in self._grounds and is_translucent(polygons.colors)
        if is_first or (self._waiting and self._waiting[-1].has_alpha != has_alpha):
            self.flush()
        if is_first:
            self._grounds[box] = color_of_most(self._picture[box.top : box.bottom, box.left : box.right])
        self._waiting.append(Waiting(polygons, box, clip, has_alpha))

    def _needs_alpha(self, box: Box) -> bool:
        """Whether some pixel of a box is not opaque. It is not looked for again while polygons wait for
        the same box."""
        last = self._waiting[-1] if self._waiting else None
        return last is not None and last.has_alpha and last.box == box or not self.is_opaque(lambda: box)

    def flush(self) -> None:
        """Draws what waits into the picture."""
        if not self._waiting:
            return
        waiting, self._waiting = [self._as_drawn(each) for each in merged(self._waiting)], []
        bounds = [each.bounds for each in waiting]
        for window in self._met(around([each for each in bounds if not each.is_empty]), waiting[0].has_alpha):
            box = window.box.common(around([each for each in bounds if each.meets(window.box)]))
            window.begin(box)
            for each, its_bounds in zip(waiting, bounds):
                if its_bounds.meets(box):
                    window.draw(each.polygons, each.box, each.clip)
            window.end(box)

    def _as_drawn(self, each: Waiting) -> Waiting:
        """Polygons with colours that make Agg's bytes of the ground that their box had."""
        colors = each.polygons.colors
        if each.has_alpha or each.box not in self._grounds or not is_translucent(colors):
            return each
        return each._replace(polygons=each.polygons.colored(as_agg_blends(colors, self._grounds[each.box])))

    def draw_triangles(self, triangles: Gouraud, box: Box, clip: Optional[Clip]) -> None:
        """Draws triangles in their order inside of a box of opaque pixels."""
        self.flush()
        drawn = bounds_of(triangles.points, box)
        for window in self._met(drawn, False):
            part = window.box.common(drawn)
            window.begin(part)
            window.draw_batches(triangles.batches(*window.box[:2]), box, clip)
            window.end(part)

    @property
    def memory(self) -> int:
        """The bytes of the windows' memory, of which pages that nothing was drawn upon are not taken."""
        return sum(window.memory for window in self._windows.values())

    def _met(self, box: Box, has_alpha: bool) -> List[Window]:
        """The windows that a box meets, with alpha or without, which are made if they are not there."""
        found = []
        for top in range(box.top // MAX_SIDE * MAX_SIDE, box.bottom, MAX_SIDE):
            for left in range(box.left // MAX_SIDE * MAX_SIDE, box.right, MAX_SIDE):
                key = left, top, has_alpha
                if key not in self._windows:
                    whole = Box(left, top, min(left + MAX_SIDE, self._width), min(top + MAX_SIDE, self._height))
                    pixels = self._picture.view(np.uint32)[..., 0]
                    self._windows[key] = Window(pixels, whole, *self.settings, has_alpha)
                found.append(self._windows[key])
        return found


def is_all_opaque(pixels: Any) -> bool:
    """Whether the alpha of all pixels is 255, found by whole pixels: their alpha is the highest of their bytes."""
    if sys.byteorder == "little":
        return bool(pixels.view(np.uint32).min() >= OPAQUE << 24)
    return bool((pixels[..., 3] == OPAQUE).all())


def is_translucent(colors: Any) -> bool:
    """Whether one of some colours is not opaque."""
    return bool(colors[:, 3].min(initial=OPAQUE) < OPAQUE)


def color_of_most(pixels: Any) -> Any:
    """The colour of most of some pixels, by those of every seventh row and column."""
    some = np.ascontiguousarray(pixels[::STEP, ::STEP]).view(np.uint32)
    values, counts = np.unique(some, return_counts=True)
    return values[counts.argmax()].reshape(1).view(np.uint8)


def merged(waiting: List[Waiting]) -> List[Waiting]:
    """Polygons with those after them that are drawn inside of the same box and clip path."""
    groups: List[List[Waiting]] = []
    for each in waiting:
        if groups and groups[-1][0].box == each.box and groups[-1][0].clip is each.clip:
            groups[-1].append(each)
        else:
            groups.append([each])
    return [
        first._replace(polygons=first.polygons.followed_by(*(each.polygons for each in others)))
        for first, *others in groups
    ]


def around(boxes: List[Box]) -> Box:
    """The box around boxes, an empty one if there are none."""
    if not boxes:
        return Box(0, 0, 0, 0)
    left, top, right, bottom = zip(*boxes)
    return Box(min(left), min(top), max(right), max(bottom))
