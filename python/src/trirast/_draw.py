"""Draws: vertices, primitives over them, and the state in which these are drawn."""

import sys
from array import array
from typing import Any, Optional, Sequence, SupportsIndex, Tuple, TypedDict, Union

from ._arguments import between, each_of, flag, named, shown, signed
from ._blend import Blend, Preset, blend_in_c
from ._declarations import CDraw
from ._numbers import CULLS, DEPTH_TESTS, TOPOLOGIES, Cull, DepthTest
from ._records import UNIT, Copy, index_columns, indices_of
from ._vertices import count_of, vertices_of

CHANNELS = "rgba"
# The sample mask that has every sample, however many a pixel has.
EVERY_SAMPLE = 0xFFFF
INDEX_BYTES = 4
# Of so many triangles, spread over all of a draw, it is looked how many pixels they meet.
MOST_LOOKED_AT = 256


class State(TypedDict, total=False):
    """The state of a draw by its keywords, for who keeps one: canvas.draw(vertices, triangles, **state)."""

    blend: Union[Preset, Blend]
    cull: Cull
    depth_test: DepthTest
    depth_write: bool
    keep: str
    sample_mask: SupportsIndex
    scissor: Optional[Sequence[SupportsIndex]]


class Draw:
    """A draw of a batch, for `Canvas.draw_batch`. Its parameters are those of `Canvas.draw`.

    The draw has copies of what it is made of, so what becomes of arrays later is not drawn.
    """

    def __init__(
        self,
        vertices: Any,
        triangles: Optional[Any] = None,
        *,
        strip: Optional[Any] = None,
        quads: Optional[Any] = None,
        colors: Optional[Any] = None,
        depth: Optional[Any] = None,
        blend: Union[Preset, Blend] = "none",
        cull: Cull = "none",
        depth_test: DepthTest = "always",
        depth_write: bool = False,
        keep: str = "",
        sample_mask: SupportsIndex = EVERY_SAMPLE,
        scissor: Optional[Sequence[SupportsIndex]] = None,
    ) -> None:
        given = [(kind, values) for kind, values in enumerate((triangles, strip, quads)) if values is not None]
        if len(given) > 1:
            both = " and ".join(TOPOLOGIES[kind][0] for kind, _values in given)
            raise ValueError(f"draw: expected one of triangles, strip and quads, got {both}")
        self._topology, indices = given[0] if given else (0, None)
        name, length = TOPOLOGIES[self._topology]
        self._vertices = vertices_of(vertices, colors, depth)
        # Without any the vertices are taken in their order. An empty array of indices may have no address,
        # and is not without any.
        self._indices = indices_of(name, indices, index_columns(length)) if given else None
        if given and not self._indices:
            self._vertices = b""
        self._state = state_in_c(cull, depth_test, depth_write, keep, sample_mask, scissor, blend)

    def _in_c(self, indices: Copy) -> CDraw:
        """The draw as C has it, with these indices."""
        return CDraw(self._count, len(indices) // INDEX_BYTES, self._topology, *self._state)

    def _indices_in(self, has_indices: bool) -> Copy:
        """Its indices in a batch that has indices, or has none at all."""
        if self._indices is not None:
            return self._indices
        return in_order(self._count) if has_indices else b""

    @property
    def _count(self) -> int:
        """How many vertices it has."""
        return count_of(self._vertices)

    def _pixels_met(self, left: int, top: int, right: int, bottom: int) -> int:
        """How many pixels of a box, in 1/256 pixel, the bounds of its triangles have: about, from some of them."""
        numbers = memoryview(self._vertices).cast("i")
        xs, ys, count = numbers[0::4], numbers[1::4], self._count
        indices: Any = range(count) if self._indices is None else memoryview(self._indices).cast("I")
        step = 3 * max(1, len(indices) // (3 * MOST_LOOKED_AT))
        met = 0
        for first in range(0, len(indices) - 2, step):
            corners = [index for index in indices[first : first + 3] if index < count]
            if corners:
                x, y = [xs[index] for index in corners], [ys[index] for index in corners]
                across, down = min(max(x), right) - max(min(x), left), min(max(y), bottom) - max(min(y), top)
                met += max(across, 0) * max(down, 0)
        return met * step // (3 * UNIT * UNIT)


def state_in_c(
    cull: Cull,
    depth_test: DepthTest,
    depth_write: bool,
    keep: str,
    sample_mask: SupportsIndex,
    scissor: Optional[Sequence[SupportsIndex]],
    blend: Union[Preset, Blend],
) -> Tuple[Any, ...]:
    """The members of a trirast_draw behind its topology."""
    return (
        named("cull", CULLS, cull), named("depth_test", DEPTH_TESTS, depth_test), flag("depth_write", depth_write),
        kept_of(keep), int(scissor is not None), ~between("sample_mask", sample_mask, 0, EVERY_SAMPLE) & EVERY_SAMPLE,
        *each_of("scissor", (0, 0, 0, 0) if scissor is None else scissor, 4, signed),
        blend_in_c(blend),
    )


def in_order(count: int) -> Copy:
    """The indices of vertices in their order."""
    numpy = sys.modules.get("numpy")
    found: Copy = array("I", range(count)).tobytes() if numpy is None else numpy.arange(count, dtype="I").tobytes()
    return found


def kept_of(keep: Any) -> int:
    """The bits of channels that are not written. Raises ValueError at what is no channel, or is one twice."""
    if not isinstance(keep, str) or not set(keep) <= set(CHANNELS) or len(set(keep)) < len(keep):
        raise ValueError(f"keep: expected some of the letters r, g, b and a, got {shown(keep)}")
    return sum(1 << CHANNELS.index(letter) for letter in keep)
