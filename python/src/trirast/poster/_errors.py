"""Why no poster was drawn: an exception for each cause."""

from __future__ import annotations

from contextlib import contextmanager
from typing import Iterator


# What to do about a name that is taken, and about a file that is there.
OTHER_NAME = "choose another name"
NOT_OURS = f"expected what a poster left, got another file; {OTHER_NAME}"
NOT_REGULAR = f"expected a regular file, got another kind; {OTHER_NAME}"


class PosterError(Exception):
    """Why a poster was not drawn, or not to its end."""


class ArraysError(PosterError, ValueError):
    """What was given is no scene: a shape, a type, a number, an index or a state is wrong. The text says which."""


@contextmanager
def of_arrays() -> Iterator[None]:
    """Raises an ArraysError of the same text in place of the package's errors of arrays."""
    try:
        yield
    except (TypeError, ValueError) as error:
        raise ArraysError(str(error)) from None


class MapError(PosterError, ValueError):
    """What was given is no GeoJSON of polygons, in degrees or as a plane, or no style of a map, or of the map nothing
    would be seen, or nothing in the style's colours. The text says where."""


class GuardBandError(PosterError, ValueError):
    """A vertex of a triangle lies too far from a window that the triangle meets, or a corner of a polygon.

    The library draws a window whose picture begins at most 32,768 pixels right of and below each vertex, and is at
    most 4096 pixels wide and high. On a poster of more than 28,672 pixels no corner of a polygon that is seen past
    that may lie as many pixels left of the poster or above it. `triangle` is the index of the triangle, or of the
    polygon, in the scene.
    """

    def __init__(self, triangle: int, axis: str, kind: str = "triangle") -> None:
        super().__init__(
            f"{kind}s[{triangle}].{axis}: expected at most 32768 pixels to each window that it meets, got more; "
            f"split the {kind}"
        )
        self.triangle = triangle


class WorkerLostError(PosterError):
    """A window was lost with its worker each time that it was sent, or no worker is left."""


class SchedulerLostError(PosterError):
    """The scheduler of the cluster cannot be reached, or went away."""


class EngineMissingError(PosterError, ImportError):
    """Dask or tifffile is asked for and is not installed, or a worker has no or another release of this package or of
    its library."""


class ResumeError(PosterError, ValueError):
    """What a stopped run left belongs to another list, to other arguments or to another file."""


class OutputError(PosterError, FileExistsError):
    """What is under a name that the run needs would be lost: no regular file, the list itself, or what no poster left.
    Or the end of the name is of no format that a poster has."""


class BusyError(PosterError, BlockingIOError):
    """Another run is drawing to the same file or folder."""


class ThreadError(PosterError, RuntimeError):
    """A thread cannot be started. Fewer workers need fewer."""
