"""Who draws the areas of a figure, and a warning where Agg draws some whose seams may show."""

from __future__ import annotations

import warnings
from typing import Any, Dict, List, NamedTuple, Optional, Tuple
from weakref import WeakSet

TRIRAST, AGG, BOTH = "trirast", "Agg", "both"
# The figures that were warned of, or logs without one.
WARNED: "WeakSet[Any]" = WeakSet()


class Reason(NamedTuple):
    """Why Agg draws areas, or a part of them, and whether seams may show between these."""

    text: str
    may_have_seams: bool = False


TOO_LARGE = Reason("the figure has more than 28,672 pixels in one direction", True)
SKETCHED = Reason("a collection with sketch parameters", True)
OVERLAPPING = Reason("areas with edges overlap each other too often", True)
MOVED_MESH = Reason("a mesh with a hatch or with several offsets", True)
NO_SIDES = Reason("no two areas of the collection share a side")
DOTS = Reason("markers with edges")
NOT_SMOOTH = Reason("antialiasing is off")
WHOLE_PIXELS = Reason("rectangles of whole pixels")
EDGES = Reason("Agg draws edges or hatches above them")
NOTHING_ELSE = Reason("")


class Drawn(NamedTuple):
    """Who draws areas of an artist: "trirast", "Agg", or "both" where trirast draws them below Agg's. `count` is the
    number of calls of matplotlib in which this happens, for this reason."""

    artist: str
    by: str
    reason: str
    calls: int


class Log:
    """Who has drawn areas since a figure was drawn anew."""

    def __init__(self) -> None:
        # The figure that is warned of once, if it is known.
        self.figure: Any = None
        self.is_quiet = False
        self._artists: List[str] = []
        self._counts: Dict[Tuple[str, str, str], int] = {}
        self._doubt: Optional[str] = None

    def clear(self) -> None:
        self._artists, self._counts = [], {}

    @property
    def depth(self) -> int:
        """How many artists are being drawn, one within the other."""
        return len(self._artists)

    def open(self, artist: str) -> None:
        self._artists.append(artist)

    def close(self) -> None:
        if self._artists:
            self._artists.pop()

    def add(self, by: str, reason: Reason = NOTHING_ELSE) -> None:
        artist = self._artists[-1] if self._artists else ""
        key = artist, by, reason.text
        self._counts[key] = self._counts.get(key, 0) + 1
        if reason.may_have_seams and by != TRIRAST and self._doubt is None:
            self._doubt = f"{artist or 'an artist'}: {reason.text}"

    def drawn(self) -> List[Drawn]:
        return [Drawn(artist, by, reason, calls) for (artist, by, reason), calls in self._counts.items()]

    def warn(self) -> None:
        """Warns of the first areas that may have seams, once for each figure."""
        which = self if self.figure is None else self.figure
        if self._doubt is None or self.is_quiet or which in WARNED:
            return
        WARNED.add(which)
        warnings.warn(
            f"trirast.matplotlib: Agg draws areas, and seams may show: {self._doubt}; "
            "trirast.matplotlib.report(figure) lists who draws what", stacklevel=2,
        )
