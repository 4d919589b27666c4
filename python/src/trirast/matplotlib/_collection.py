"""The arguments of a collection, and how its items are drawn: by samples, by Agg, or by both in rounds."""

from __future__ import annotations

from typing import Any, Dict, List, NamedTuple, Sequence

import numpy as np

from .._polygons import Polygons
from ._colors import rows_of_colors
from ._inside import HIDDEN
from ._transforms import cycled, unmasked


class Collection(NamedTuple):
    """The arguments of draw_path_collection behind the graphics context."""

    master_transform: Any
    paths: Sequence[Any]
    transforms: Any
    offsets: Any
    offset_transform: Any
    faces: Any
    edges: Any
    widths: Any
    styles: Sequence[Any]
    antialiased: Any
    urls: Any
    offset_position: Any
    more: Dict[str, Any]

    @property
    def item_count(self) -> int:
        return max(len(self.paths), len(self.offsets))

    def by_agg(self, agg: Any, gc: Any) -> None:
        agg.draw_path_collection(gc, *self[:-1], **self.more)

    @property
    def is_moved(self) -> bool:
        """Whether items have places of their own, as markers and cells of a honeycomb have."""
        return len(self.offsets) > 1 or bool(np.any(unmasked(self.offsets)))

    def without_edges(self, which: Any) -> Collection:
        """The same, whose edges of some items have no width and no colour."""
        count = self.item_count
        edges, widths = cycled(rows_of_colors(self.edges), count), cycled(np.asarray(self.widths, np.float64), count)
        edges[which], widths[which] = 0, 0
        return self._replace(edges=edges, widths=widths)

    def without_faces(self, which: Any) -> Collection:
        """The same, whose faces of some items are hidden."""
        faces = cycled(rows_of_colors(self.faces), self.item_count)
        faces[which] = HIDDEN
        return self._replace(faces=faces)

    def spread(self) -> Collection:
        """The same with an entry for each item."""
        count = self.item_count
        return self._replace(
            paths=[self.paths[n % len(self.paths)] for n in range(count)],
            transforms=cycled(np.asarray(self.transforms), count),
            offsets=cycled(unmasked(self.offsets), count),
            faces=cycled(rows_of_colors(self.faces), count),
            edges=cycled(rows_of_colors(self.edges), count),
            widths=cycled(np.asarray(self.widths, np.float64), count),
            styles=[self.styles[n % len(self.styles)] for n in range(count)] if len(self.styles) else [],
            antialiased=cycled(np.asarray(self.antialiased, bool), count),
            urls=[None],
        )

    def of(self, items: Any) -> Collection:
        """Some items of a collection that is spread."""
        return self._replace(
            paths=[self.paths[n] for n in items],
            styles=[self.styles[n] for n in items] if len(self.styles) else [],
            **{
                name: taken(getattr(self, name), items)
                for name in ("transforms", "offsets", "faces", "edges", "widths", "antialiased")
            },
        )


def taken(values: Any, items: Any) -> Any:
    return values[items] if len(values) else values


class Shares(NamedTuple):
    """Which items have a face that is drawn into samples, and of which Agg draws something."""

    ours: Any
    by_agg: Any


class Part(NamedTuple):
    """One round: faces for samples, and what Agg draws over them."""

    polygons: Polygons
    by_agg: Any


def rounds_in_order(whole: Collection, polygons: Polygons, ours: Any, by_agg: Any, rounds: Any) -> List[Part]:
    """Returns the rounds of a collection, one after another. Faces that are drawn here are hidden from Agg."""
    spread = whole.spread()
    spread.faces[ours] = HIDDEN
    found = []
    for number in range(int(rounds.max(initial=0)) + 1):
        here = rounds == number
        faces, others = np.flatnonzero(here & ours), np.flatnonzero(here & by_agg)
        found.append(Part(polygons.take(faces), spread.of(others) if len(others) else None))
    return found
