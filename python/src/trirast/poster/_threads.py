"""The engine that needs nothing else: threads of this process. The library and numpy release Python's
lock as they work.

A thread takes some windows of a row together and draws them where the row lies in memory, so that it
seldom waits for the lock.
"""

from __future__ import annotations

import threading
from bisect import bisect_right
from collections import deque
from concurrent.futures import FIRST_EXCEPTION, Future, wait
from typing import Deque, Iterator, List, Tuple

from ._index import Index
from ._part import part_of
from ._pool import Pool
from ._progress import Step
from ._scene import Pixels, Scene
from ._window_pixels import put_pixels
from ._windows import Span, Windows

# How many rows of windows are drawn at once, so that the last windows of one keep no thread waiting.
AHEAD = 2
# A thread takes as many windows together as weigh this, at least one: it draws for some milliseconds. A triangle or a
# polygon weighs 1, and so do 256 pixels.
WEIGHT = 1 << 14
PIXELS = 256
# Into how many spans for each thread a row is cut at least.
SPANS = 2


def rows_by_threads(
    scene: Scene, index: Index, windows: Windows, first: int, workers: int, step: Step
) -> Iterator[Pixels]:
    """Draws the rows of windows from the row `first` on by threads, and gives their pixels back in their order.

    A row is the caller's until the second row after it is asked for. Then its memory is drawn into again.
    """
    pool = Pool(workers)
    memory = (
        [scene.sheet.blank(windows.row_height(first), windows.width) for _ in range(AHEAD + 1)]
        if first < windows.rows else []
    )
    under_way: Deque[Tuple[Pixels, List[Future[None]]]] = deque()
    is_stopped = threading.Event()

    def draw_span(span: Span, row: Pixels) -> None:
        """Draws some windows into the pixels of their row."""
        put_pixels(part_of(scene, index, span), row[:, span.area.left : span.area.right], is_stopped.is_set)
        step(span)

    try:
        for row in range(first, windows.rows):
            pixels = memory[row % len(memory)][: windows.row_height(row)]
            spans = spans_of(index, windows, row, workers)
            under_way.append((pixels, [pool.submit(draw_span, span, pixels) for span in spans]))
            if len(under_way) == AHEAD:
                yield whole(*under_way.popleft())
        while under_way:
            yield whole(*under_way.popleft())
    finally:
        is_stopped.set()
        pool.shutdown(cancel_futures=True)


def spans_of(index: Index, windows: Windows, row: int, workers: int) -> Iterator[Span]:
    """The windows of a row in pieces of work, from the left."""
    before = index.members_before(row)
    for column in range(windows.columns + 1):
        before[column] += column * windows.side * windows.row_height(row) // PIXELS
    most = min(WEIGHT, (before[-1] - before[0]) // (SPANS * workers))
    # A window to which not each triangle of the scene can be moved looks at its own.
    if not index.is_near(windows.span(row, 0, windows.columns).area):
        most = 0
    first = 0
    while first < windows.columns:
        end = max(first + 1, bisect_right(before, before[first] + most) - 1)
        yield windows.span(row, first, end)
        first = end


def whole(pixels: Pixels, drawn: List[Future[None]]) -> Pixels:
    """The pixels of a row, once its spans are drawn."""
    # To wait for each by itself would need Python's lock each time.
    wait(drawn, return_when=FIRST_EXCEPTION)
    for each in drawn:
        each.result()
    return pixels
