"""The command `python3 -m trirast.poster`."""

from __future__ import annotations

import argparse
import os
import shutil
import sys
import tempfile
from contextlib import contextmanager
from typing import Iterator, List, Optional

from .._errors import Error
from .._png import PNG
from ._arrays import scene_of
from ._dask import quiet_for_good
from ._errors import OutputError, PosterError
from ._georeference import write_world_file
from ._poster import SIDE, draw_poster
from ._scene import SAMPLES, Scene
from ._tiff_writer import TIFF

# The status of a program that Ctrl-C ended, as shells give it.
INTERRUPTED = 130
# The name of standard output.
STANDARD = "-"


def side(text: str) -> int:
    """The pixels of a window's side. Raises ArgumentTypeError at a text that is no integer, as the window of a map."""
    try:
        return int(text)
    except ValueError:
        raise argparse.ArgumentTypeError(
            f"expected the pixels of a side, as 512, got {text!r}; a map's window is a key of its style"
        ) from None


def arguments(words: Optional[List[str]] = None) -> argparse.Namespace:
    parser = argparse.ArgumentParser(
        prog="python3 -m trirast.poster",
        description="Draws a draw list or a map of up to 32,768 pixels a side, in chunks.",
    )
    parser.add_argument(
        "list", metavar="LIST", help="a draw list, arrays of numpy (.npz), or a map (.geojson, .gpkg, .shp ..)"
    )
    parser.add_argument(
        "-o", dest="out", metavar="OUT",
        help="the image: PNG if the name ends in .png, TIFF if in .tif or .tiff, PPM (PGM of "
        "depths) if in .ppm, .pgm or nothing; - writes a PNG file to standard output",
    )
    parser.add_argument(
        "--style", metavar="STYLE.json", help="how a map is drawn: window, projection, colours"
    )
    parser.add_argument(
        "--tiles", metavar="FOLDER", help="a new folder of PNG tiles z/x/y.png with a page that shows them"
    )
    parser.add_argument(
        "--samples", type=int, choices=sorted(SAMPLES), help="samples per pixel, instead of the list's"
    )
    parser.add_argument(
        "--world-file", action="store_true", help="also write a map's georeference: a world file and a .prj"
    )
    parser.add_argument("--dpi", type=float, help="pixels per inch, stored in PNG and TIFF files")
    parser.add_argument(
        "--window", type=side, default=SIDE, metavar="SIDE",
        help=f"a chunk's side in pixels (default {SIDE}); a map's window is a key of its style",
    )
    parser.add_argument("--workers", type=int, metavar="N", help="chunks drawn at once (default: one per core)")
    parser.add_argument(
        "--scheduler", metavar="local|ADDRESS", help="draw with Dask: processes here, or a cluster's scheduler"
    )
    parser.add_argument("--resume", action="store_true", help="resume an interrupted run")
    options = parser.parse_args(words)
    if options.out is None and options.tiles is None:
        parser.error("one of -o and --tiles is needed")
    if options.workers is not None and options.workers < 1:
        parser.error("--workers: at least 1")
    if options.out == STANDARD and (options.resume or options.tiles or options.world_file):
        parser.error("-o -: standard output has no --resume, --tiles or --world-file")
    return options


def main(words: Optional[List[str]] = None) -> int:
    """Draws a poster, and says so in one line on standard error. Returns 1 after an error, which such a line names, and
    130 after Ctrl-C. Exits with 2 if the arguments are wrong."""
    options = arguments(words)
    try:
        scene = scene_of(options.list, options.style)
        if options.scheduler is not None:
            quiet_for_good()
        with place_of(options.out) as out:
            draw_poster(
                scene, out, tiles=options.tiles, samples=options.samples, dpi=options.dpi, window=options.window,
                workers=options.workers, scheduler=options.scheduler, resume=options.resume, show_progress=True,
            )
        if options.world_file:
            write_where(options.out, scene)
    except Exception as error:
        # Also one that nobody thought of: a user reads one line. python3 -X dev shows where it came from.
        if sys.flags.dev_mode and not isinstance(error, (Error, PosterError, OSError, ValueError, MemoryError)):
            raise
        say(f"{type(error).__name__}: {' '.join(str(error).split())}")
        return 1
    except KeyboardInterrupt:
        is_anew = options.out is not None and options.out.lower().endswith(TIFF)
        say("stopped; a TIFF file begins anew" if is_anew else "stopped; --resume goes on")
        return INTERRUPTED
    drawn = " and ".join(filter(None, (options.out, options.tiles)))
    say(f"{drawn}: {scene.sheet.width} by {scene.sheet.height} pixels{scene.summary}")
    return 0


@contextmanager
def place_of(out: Optional[str]) -> Iterator[Optional[str]]:
    """The file to draw to. What goes to standard output is a file of its own until it is whole."""
    if out != STANDARD:
        yield out
        return
    with tempfile.TemporaryDirectory() as folder:
        path = os.path.join(folder, f"poster{PNG}")
        yield path
        with open(path, "rb") as file:
            shutil.copyfileobj(file, sys.stdout.buffer)
            sys.stdout.buffer.flush()


def write_where(out: Optional[str], scene: Scene) -> None:
    """Writes where a map lies. Raises OutputError if there is no file or no map."""
    if out is None or scene.place is None:
        missing = "no file" if out is None else "no map"
        raise OutputError(f"--world-file: expected a map, and a file by -o, got {missing}")
    write_world_file(out, scene.place)


def say(line: str) -> None:
    """Writes a line to standard error, if it is not closed."""
    if sys.stderr is not None:
        print(f"poster: {line}", file=sys.stderr)
