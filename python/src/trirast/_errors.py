"""The exceptions, one for each status of the library."""

from contextlib import contextmanager
from typing import Any, Callable, Dict, Iterator, Optional, Tuple, Type, TypeVar

from ._numbers import BAD_BATCH, BAD_LIST, BATCH_CAUSES, EXCEPTIONS, LIST_CAUSES, NONE

Kind = TypeVar("Kind", bound="Error")


class Error(Exception):
    """Why nothing was drawn. `status` is the number that the call returned."""

    def __init__(self, status: int, line: str) -> None:
        super().__init__(line)
        self.status = status

    @classmethod
    def of_line(cls: Type[Kind], line: str) -> Kind:
        """The error with another line than the library's, which has values."""
        return cls(next(status for status, kind in BY_STATUS.items() if kind is cls), line)

    def __reduce__(self) -> Tuple[Any, ...]:
        return type(self), (self.status, *self.args)


class PlacedError(Error, ValueError):
    """An error that says where it is. `number` and `name` say what it is, as 6 and BadIndex. `draw` is the index of the
    draw, or `None` if it is in none; `element` that of an index, a vertex or a quad in the draw's own array, or
    `None`; `value` is the index itself if one is wrong, else `None`."""

    causes: Dict[int, str] = {}

    def __init__(
        self, status: int, line: str, number: int, draw: Optional[int], element: Optional[int] = None,
        value: Optional[int] = None,
    ) -> None:
        super().__init__(status, line)
        self.number, self.name = number, self.causes.get(number, "")
        self.draw, self.element, self.value = draw, element, value

    def __reduce__(self) -> Tuple[Any, ...]:
        return type(self), (self.status, *self.args, self.number, self.draw, self.element, self.value)


class DrawListError(PlacedError):
    """What was given is no draw list. Numbers and names are those of docs/draw-list.md."""

    causes = LIST_CAUSES


class BatchError(PlacedError):
    """A canvas cannot draw this. Numbers and names are those of trirast_batch_cause in trirast.h."""

    causes = BATCH_CAUSES


class LimitError(Error, ValueError):
    """The draw list has more than 67,108,864 bytes."""


class OutOfMemoryError(Error, MemoryError):
    """An allocation failed in the library."""


class BufferTooSmallError(Error, ValueError):
    """A buffer has fewer bytes than the call would write. No function of this package passes such a buffer."""


class TileSizeError(Error, ValueError):
    """The tile size is none of 8, 16, 32 and 64."""


class TileRowsError(Error, ValueError):
    """The picture does not have these tile rows. No function of this package asks for such rows."""


class StructSizeError(Error):
    """The library has structs of other sizes than this package: it is of another version."""


class CanvasError(Error, ValueError):
    """There is no canvas of this size, or with this number of samples."""


class MemorySizeError(Error, ValueError):
    """The memory of a canvas has another size. No function of this package passes such memory."""


class FormatError(Error, ValueError):
    """There is no such format. No function of this package passes one."""


class SampleError(Error, ValueError, IndexError):
    """A pixel has no sample of this index."""


class PositionError(Error, ValueError):
    """A position is outside of -8388608 to 8388607."""


class PixelError(Error, IndexError):
    """The picture has no such pixel."""


class TriangleError(Error, IndexError):
    """The draw list has no such draw, or the draw no such triangle."""


class StrideError(Error, ValueError):
    """A stride is too short, too long or not aligned. No function of this package passes one."""


class TileError(Error, ValueError):
    """The canvas has no such tile."""


class IndexSizeError(Error, ValueError):
    """There are no indices of this size. No function of this package passes such a size."""


PLACED: Dict[int, Type[PlacedError]] = {BAD_LIST: DrawListError, BAD_BATCH: BatchError}
BY_STATUS: Dict[int, Type[Error]] = {
    status: globals()[name] for status, name in EXCEPTIONS.items() if status not in PLACED
}


def error_of(status: int, line: str, cause: int = 0, draw: int = NONE, element: int = NONE, value: int = NONE) -> Error:
    """The exception of a status, by what trirast_error has."""
    if status in PLACED:
        return PLACED[status](
            status, line, cause, *(None if place == NONE else place for place in (draw, element, value))
        )
    return BY_STATUS.get(status, Error)(status, line)


@contextmanager
def adding(kind: Type[Kind], values_of: Callable[[Kind], str], without: str = "") -> Iterator[None]:
    """Puts what was passed, and what may be, behind the line of an error of this kind that is raised within, and takes
    out `without`, what the line says of other calls."""
    try:
        yield
    except kind as error:
        error.args = (str(error).replace(without, "") + values_of(error),)
        raise
