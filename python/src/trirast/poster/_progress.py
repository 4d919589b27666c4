"""A bar on standard error with pixels done, their rate and time left. There is none if that is no
terminal, or closed."""

from __future__ import annotations

import contextlib
import sys
import threading
from typing import Callable, Iterator

from ._windows import Span

Step = Callable[[Span], None]


@contextlib.contextmanager
def progress(pixels: int, done: int, is_wanted: bool) -> Iterator[Step]:
    """A call for windows that are drawn, which any thread makes. `done` pixels of all are there already."""
    if not is_wanted or sys.stderr is None or not sys.stderr.isatty():
        yield lambda span: None
        return
    try:
        from tqdm import tqdm
    except ImportError:
        yield lambda span: None
        return
    lock = threading.Lock()
    with tqdm(total=pixels, initial=done, unit="pixel", unit_scale=True) as bar:

        def step(span: Span) -> None:
            with lock:
                bar.update(span.area.pixels)

        yield step
