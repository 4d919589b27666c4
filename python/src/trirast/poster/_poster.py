"""A poster from a scene to its files."""

from __future__ import annotations

import contextlib
import operator
import os
import threading
import zlib
from concurrent.futures import Future
from functools import partial
from typing import Any, Callable, Iterable, Iterator, List, Optional, Sequence, SupportsFloat

import numpy as np

from .._png import PNG, checked_dpi
from ._dask import Drawn, draw_by_dask
from ._errors import ThreadError
from ._index import Index
from ._journal import Journal
from ._marks import marked
from ._part import part_of
from ._places import Path, Places, places_of
from ._png_writer import PIECE, PngWriter
from ._pool import Pool
from ._ppm_writer import PpmWriter
from ._progress import Step, progress
from ._scene import Pixels, Scene, Sheet, digest_of, with_samples
from ._strips import cut_to_windows
from ._threads import rows_by_threads
from ._tiff_writer import TIFF, TiffWriter
from ._tiles_writer import TilesWriter, are_whole
from ._windows import Windows
from ._writers import Writer

SIDE = 512
# Rows of pixels that are written together: a multiple of a piece of a PNG file.
TOGETHER = 16 * PIECE


def draw_poster(
    scene: Scene,
    out: Optional[Path] = None,
    *,
    tiles: Optional[Path] = None,
    samples: Optional[int] = None,
    dpi: Optional[SupportsFloat] = None,
    window: int = SIDE,
    workers: Optional[int] = None,
    scheduler: Optional[str] = None,
    resume: bool = False,
    show_progress: bool = False,
) -> None:
    """Draws a scene, up to 32,768 pixels wide and high, to a file or to a folder of tiles or to both.

    `out` is a PNG file if its name ends in .png, in small or capital letters, a TIFF file if in .tif or .tiff, which
    tifffile writes, and a PPM file (of depths a PGM file) if it ends in .ppm or .pgm or has no end; `tiles` is a new
    folder. `samples` is the number of samples of a pixel in place of the scene's, one of
    trirast.Canvas.SAMPLE_COUNTS. `dpi` is the number of pixels per inch, which PNG and TIFF files alone have.
    `window` is the side in pixels of the squares that are drawn by themselves, 64 to 4096; `workers` how many draw at
    once (one a core). These two do not change a byte. Without `scheduler` threads of this process draw; with "local"
    Dask's processes, and with an address the workers of that cluster. `resume` goes on with what a stopped run left.
    Under the final names are whole files alone.

    Raises PosterError and trirast.Error, ValueError at a number that is out of range and at `dpi` without such a file,
    and OSError if a file cannot be written.
    """
    places = places_of(out, tiles, scene.source)
    dots = checked_dpi(dpi, places.file, (PNG, *TIFF))
    if samples is not None:
        scene = with_samples(scene, samples)
    count = os.cpu_count() or 1 if workers is None else operator.index(workers)
    if count < 1:
        raise ValueError(f"workers: expected at least 1, got {count}")
    windows = Windows(scene.sheet, operator.index(window))
    with contextlib.ExitStack() as stack, thread_errors():
        digests = stack.enter_context(Pool(count)).map(digest_of, scene.parts())
        given, scene = scene, cut_to_windows(scene, windows, count)
        index = Index.of(scene, windows, count)
        checksum = given.checksum_of(digests)
        journal = Journal(places.journal)
        stack.callback(journal.close)
        tags = () if given.place is None else given.place.tags
        writers = list(writers_of(scene.sheet, checksum, places, dots, journal.is_whole, resume, count, stack, tags))
        run = {
            "list": checksum, "window": windows.side, "out": places.file is not None, "tiles": places.folder is not None
        }
        journal.begin(run, resume)
        if not writers:
            journal.remove()
            return
        for writer in writers:
            writer.begin()
        first = kept_rows(journal, windows, writers)
        pixels, done = windows.pixels_above(windows.rows), windows.pixels_above(first)
        step = stack.enter_context(progress(pixels, done, show_progress))
        if scheduler is None:
            rows = rows_by_threads(scene, index, windows, first, count, step)
        else:
            # No more processes than windows.
            most = min(count, (windows.rows - first) * windows.columns)
            rows = rows_of(
                draw_by_dask(windows.from_row(first), partial(part_of, scene, index), most, scheduler), windows,
                scene.sheet, step,
            )
        stack.callback(rows.close)  # type: ignore[attr-defined]
        write_rows(marked(rows, given.marks, first * windows.side), journal, writers)
        finish(journal, writers)


@contextlib.contextmanager
def thread_errors() -> Iterator[None]:
    """Makes a ThreadError of the error that Python raises if it cannot start a thread."""
    try:
        yield
    except RuntimeError as error:
        if "start new thread" not in str(error):
            raise
        raise ThreadError(
            f"workers: expected a thread to start, got {error}; a smaller number needs fewer"
        ) from error


def writers_of(
    sheet: Sheet, checksum: str, places: Places, dpi: Optional[float], is_whole: bool, resume: bool, threads: int,
    stack: contextlib.ExitStack, tags: Sequence[Any] = (),
) -> Iterator[Writer]:
    """The writers of a poster, which the stack closes. There is none of tiles that a resumed run left whole."""
    makers: List[Callable[[], Writer]] = []
    if places.folder is not None and not (resume and are_whole(places.folder, sheet, checksum)):
        makers.append(partial(TilesWriter, places.folder, sheet, checksum, resume, threads))
    if places.file is not None and places.file.lower().endswith(PNG):
        makers.append(partial(PngWriter, places.file, sheet, dpi, is_whole, threads))
    elif places.file is not None and places.file.lower().endswith(TIFF):
        makers.append(partial(TiffWriter, places.file, sheet, dpi, is_whole, threads, tags))
    elif places.file is not None:
        makers.append(partial(PpmWriter, places.file, sheet, is_whole))
    for maker in makers:
        writer = maker()
        stack.callback(writer.close)
        yield writer


def finish(journal: Journal, writers: List[Writer]) -> None:
    """Gives whole pictures their names, and removes the journal."""
    journal.whole()
    for writer in writers:
        writer.finish()
    journal.remove()


def kept_rows(journal: Journal, windows: Windows, writers: List[Writer]) -> int:
    """How many rows of windows a stopped run left: those that each writer has, with the checksums of the journal. A
    damaged journal may have more than there are."""
    kept = journal.rows[: windows.rows]
    for row, checksum in enumerate(kept):
        read = [writer.read(windows.row_height(row)) for writer in writers]
        rows = [each for each in read if each is not None]
        if len(rows) < len(read) or any(checksum_of(each) != checksum for each in rows):
            return row
        for writer, each in zip(writers, rows):
            writer.keep(each)
        journal.kept(checksum)
    return len(kept)


def checksum_of(pixels: Pixels) -> str:
    """A checksum (CRC-32) of pixels, row after row."""
    return f"{zlib.crc32(np.ascontiguousarray(pixels).data):08x}"


def rows_of(drawn: Iterable[Drawn], windows: Windows, sheet: Sheet, step: Step) -> Iterator[Pixels]:
    """Whole rows of windows, of windows in their order."""
    row: Pixels = np.zeros(0)
    for window, pixels in drawn:
        if window.column == 0:
            row = sheet.blank(window.height, sheet.width)
        row[:, window.left : window.left + window.width] = pixels
        step(window.span)
        if window.column == windows.columns - 1:
            yield row


def write_rows(rows: Iterable[Pixels], journal: Journal, writers: List[Writer]) -> None:
    """Writes rows by a thread of its own, while the next row is drawn. After an error or an interrupt the rest of a row
    is left out."""
    is_stopped = threading.Event()

    def write(row: Pixels) -> None:
        for first in range(0, len(row), TOGETHER):
            for writer in writers:
                if is_stopped.is_set():
                    return
                writer.write(row[first : first + TOGETHER])
        journal.kept(checksum_of(row))

    with Pool(1) as pool:
        last: Optional[Future[None]] = None
        try:
            for row in rows:
                if last:
                    last.result()
                last = pool.submit(write, row)
            if last:
                last.result()
        finally:
            is_stopped.set()
