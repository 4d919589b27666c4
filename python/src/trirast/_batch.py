"""Batches: draws as C has them, in memory that nobody changes while they are drawn."""

import ctypes
from typing import Any, List, Sequence

from ._arguments import shown
from ._declarations import CBatch, CDraw
from ._draw import INDEX_BYTES, Draw
from ._records import Copy
from ._vertices import VERTEX_BYTES, count_of


def draws_of(draws: Any) -> List[Draw]:
    """Draws as a list. Raises TypeError at what is none."""
    try:
        found = list(draws)
    except (TypeError, NotImplementedError):
        raise TypeError(f"draws: expected a sequence of trirast.Draw, got {shown(draws)}") from None
    for number, each in enumerate(found):
        if not isinstance(each, Draw):
            raise TypeError(f"draws[{number}]: expected a trirast.Draw, got {shown(each)}")
    return found


def batch_of(draws: List[Draw]) -> CBatch:
    """The draws as a batch, which keeps what it points to."""
    has_indices = any(each._indices is not None for each in draws)
    parts = [each._indices_in(has_indices) for each in draws]
    in_c = (CDraw * len(draws))(*(each._in_c(part) for each, part in zip(draws, parts)))
    vertices, indices = joined([each._vertices for each in draws]), joined(parts)
    batch = CBatch(
        0, VERTEX_BYTES, INDEX_BYTES, ctypes.addressof(in_c), len(draws), address_of(vertices), count_of(vertices),
        address_of(indices) if has_indices else None, len(indices) // INDEX_BYTES,
    )
    batch.kept = in_c, vertices, indices
    return batch


def joined(parts: Sequence[Copy]) -> Copy:
    """The parts one after another. A single one is not copied."""
    return parts[0] if len(parts) == 1 else b"".join(parts)


def address_of(data: Copy) -> Any:
    """Where the bytes lie. They stay there, since nobody else has them."""
    if isinstance(data, bytes):
        return ctypes.cast(ctypes.c_char_p(data), ctypes.c_void_p).value
    return ctypes.addressof((ctypes.c_uint8 * len(data)).from_buffer(data))
