"""Why a pixel is what it is: the history of its samples, and how many samples a triangle has."""

from typing import Any, List, NamedTuple, Optional, SupportsIndex, Tuple

from ._arguments import flag, number, shown
from ._declarations import CError, CEvent, CFragment, CHistoryRequest, CSampleCounts, CSampleInfo, CStored
from ._draw_list import DrawList, as_bytes, read, read_image_info
from ._errors import PixelError, SampleError, TriangleError, adding
from ._ffi import library
from ._records import UNIT
from ._threads import leave, with_stack

Color = Tuple[int, int, int]

# The names of an event's result, by its number in C, and those of its reasons, by their bits.
RESULTS = ("missed", "depth_failed", "drawn")
REASONS = ("culled", "zero_area", "not_covered", "outside_scissor", "masked", "depth_failed")
# How a reason is printed, if not by its name. That of the depth test has the stored depth behind it.
PRINTED = {
    "zero_area": "zero area", "not_covered": "not covered", "outside_scissor": "outside the scissor",
    "depth_failed": "fails the depth test against",
}
# As many events as the array of a first call holds. Few samples have more.
FEW = 64
DEPTHS = 1  # the output of a list that shows depths


class Stored(NamedTuple):
    """What a sample stores."""

    color: Color
    depth: int

    def __str__(self) -> str:
        return f"{self.color} depth {self.depth}"


class Fragment(NamedTuple):
    """What a triangle has at a sample, each value rounded down."""

    color: Color
    alpha: int
    depth: int

    def __str__(self) -> str:
        return f"fragment {self.color} alpha {self.alpha} depth {self.depth}"


class Event(NamedTuple):
    """What a triangle did to a sample. `result` is "drawn", "depth_failed" or "missed", and `reasons` has every reason
    that holds, of "culled", "zero_area", "not_covered", "outside_scissor", "masked" and "depth_failed". `fragment` is
    None if the triangle does not cover the sample."""

    draw: int
    triangle: int
    result: str
    reasons: Tuple[str, ...]
    fragment: Optional[Fragment]
    before: Stored
    after: Stored

    def __str__(self) -> str:
        fragment = f"  {self.fragment}" if self.fragment else ""
        parts = [f"draw {self.draw:>4} triangle {self.triangle:>5}  {self.result.replace('_', ' '):<12}{fragment}"]
        for reason in self.reasons:
            against = f" {self.before.depth}" if reason == "depth_failed" else ""
            parts += [PRINTED.get(reason, reason) + against]
        parts += [f"now {self.after}"] if self.result == "drawn" else []
        return "; ".join(parts)


class SampleHistory(NamedTuple):
    """The history of one sample: its number in the pixel, its position in 1/256 pixel, and what it stores before and
    after the events."""

    sample: int
    position: Tuple[int, int]
    begin: Stored
    events: Tuple[Event, ...]
    end: Stored

    def __str__(self) -> str:
        x, y = (z / UNIT for z in self.position)
        lines = [f"sample {self.sample} at ({x:.3f}, {y:.3f})", f"  begins {self.begin}"]
        lines += [f"  {event}" for event in self.events]
        return "\n".join([*lines, f"  ends {self.end}"])


class PixelHistory(NamedTuple):
    """The histories of a pixel's samples. `color` is the resolved colour, or None of a list whose output is depths;
    `depth` is then the depth of sample 0, and else None."""

    x: int
    y: int
    color: Optional[Color]
    depth: Optional[int]
    samples: Tuple[SampleHistory, ...]

    def __str__(self) -> str:
        end = f"depth {self.depth}" if self.color is None else f"colour {self.color}"
        return "\n".join([f"pixel ({self.x}, {self.y})", *map(str, self.samples), end])


class TriangleSamples(NamedTuple):
    """How many samples of the picture a triangle covers, how many it changes, and how many still show it
    after all triangles."""

    draw: int
    triangle: int
    covered: int
    changed: int
    shown: int

    def __str__(self) -> str:
        return (
            f"draw {self.draw} triangle {self.triangle} covers {self.covered}, changes "
            f"{self.changed}, shown by {self.shown} samples"
        )


@with_stack
def why(
    draw_list: DrawList, x: SupportsIndex, y: SupportsIndex, sample: Optional[SupportsIndex] = None,
    all_triangles: bool = False,
) -> PixelHistory:
    """Returns the history of the samples of the pixel in column `x` and row `y`, or of one of them: an event for
    each triangle that covers the sample, or for each triangle. `draw_list` is a text or its bytes, or a value that
    json writes as one. Print what is returned, or take its parts. Each sample is a call of the library, which
    reads the whole list.

    Raises a PixelError or a SampleError, which are IndexErrors, if the picture has no such pixel or the pixel no such
    sample, and another Error, as `draw` does, of a list that is not drawn.
    """
    data, column, row, is_all = (
        as_bytes(draw_list), number("x", x), number("y", y), bool(flag("all_triangles", all_triangles))
    )
    chosen = 0 if sample is None else number("sample", sample)
    with adding(PixelError, lambda _error: pixel_values(data, x, y)), adding(
        SampleError, lambda _error: sample_values(data, sample)
    ):
        found, info = sample_history(data, column, row, chosen, is_all)
    samples: Tuple[SampleHistory, ...] = (found,)
    others = [s for s in range(info.samples) if s != chosen]
    if sample is None:
        samples += tuple(sample_history(data, column, row, s, is_all)[0] for s in others)
        ends = {each.sample: each.end for each in samples}
    else:
        ends = {s: stored_of(read_events(data, column, row, s, False, 0)[1].end) for s in others}
        ends[chosen] = found.end
    if info.output == DEPTHS:
        return PixelHistory(column, row, None, ends[0].depth, samples)
    return PixelHistory(column, row, resolved([end.color for end in ends.values()]), None, samples)


@with_stack
def triangle_samples(draw_list: DrawList, draw: SupportsIndex, triangle: SupportsIndex) -> TriangleSamples:
    """Returns how many samples of the picture this triangle of this draw covers, how many it changes, and how many
    still show it: it is the last triangle that changes them. Both numbers count from 0; a strip and quads count the
    triangles as which they are drawn. An interrupt need not wait for the counts: they go on alone, and the interpreter
    ends after them.

    Raises a TriangleError, which is an IndexError, if the list has no such triangle, and another Error of a
    list that is not drawn.
    """
    data, counts = as_bytes(draw_list), CSampleCounts()
    place = number("draw", draw), number("triangle", triangle)
    asked = f"triangle {shown(triangle)} of draw {shown(draw)}"
    with adding(TriangleError, lambda _error: f": expected one of the list, got {asked}"):
        leave(lambda: library().trirast_list_triangle_samples(data, len(data), *place, counts, CError()))
    return TriangleSamples(*place, counts.covered, counts.changed, counts.shown)


def pixel_values(data: bytes, x: SupportsIndex, y: SupportsIndex) -> str:
    """The pixels that there are, and the one that was asked for."""
    info = read_image_info(data)
    return f": expected x 0 to {info.width - 1} and y 0 to {info.height - 1}, got {shown(x)} and {shown(y)}"


def sample_values(data: bytes, sample: Optional[SupportsIndex]) -> str:
    """The same of samples, of which each pixel has as many as the first."""
    info = read_events(data, 0, 0, 0, False, 0)[1]
    return f": expected 0 to {info.samples - 1}, got {shown(sample)}"


def resolved(colors: List[Color]) -> Color:
    """The mean of the colours of a pixel's samples, halves rounded up."""
    red, green, blue = ((2 * sum(channel) + len(colors)) // (2 * len(colors)) for channel in zip(*colors))
    return red, green, blue


def read_events(data: bytes, x: int, y: int, sample: int, is_all: bool, capacity: int) -> Tuple[Any, CSampleInfo]:
    """The first events of a sample's history, at most this many, and what the library says of the sample."""
    request = CHistoryRequest(0, 0, 0, x, y, sample, is_all)
    events, info = (CEvent * capacity)(), CSampleInfo()
    read(data, lambda: library().trirast_list_history(data, len(data), request, events, capacity, info, CError()))
    return events, info


def sample_history(data: bytes, x: int, y: int, sample: int, is_all: bool) -> Tuple[SampleHistory, CSampleInfo]:
    """The whole history of a sample, and what the library says of the sample."""
    events, info = read_events(data, x, y, sample, is_all, FEW)
    if info.event_count > FEW:
        events, info = read_events(data, x, y, sample, is_all, info.event_count)
    listed = tuple(event_of(event) for event in events[: info.event_count])
    return SampleHistory(sample, (info.x, info.y), stored_of(info.begin), listed, stored_of(info.end)), info


def stored_of(given: CStored) -> Stored:
    return Stored((given.red, given.green, given.blue), given.depth)


def fragment_of(given: CFragment) -> Fragment:
    return Fragment((given.red, given.green, given.blue), given.alpha, given.depth)


def event_of(given: CEvent) -> Event:
    reasons = tuple(name for bit, name in enumerate(REASONS) if given.reasons >> bit & 1)
    fragment = fragment_of(given.fragment) if given.covered else None
    numbers = (given.draw, given.triangle, RESULTS[given.result], reasons)
    return Event(*numbers, fragment, stored_of(given.before), stored_of(given.after))
