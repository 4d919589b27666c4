"""Where a poster goes: the names that a run uses, which are looked at before the first pixel."""

from __future__ import annotations

import os
import stat
from typing import Any, NamedTuple, Optional, Union

from ._errors import NOT_REGULAR, OTHER_NAME, OutputError

Path = Union[str, bytes, "os.PathLike[Any]"]
# What a picture or a folder of tiles is before it is whole, and the journal of its run.
PART, JOURNAL = ".part", ".resume"


class Places(NamedTuple):
    """The file and the folder to which a poster goes, of which one may be `None`."""

    file: Optional[str]
    folder: Optional[str]

    @property
    def journal(self) -> str:
        """Where the journal of the run lies."""
        return f"{self.file or self.folder}{JOURNAL}"


# The ends of a picture's name, in small letters.
ENDS = (".png", ".tif", ".tiff", ".ppm", ".pgm", "")


def places_of(out: Optional[Path], tiles: Optional[Path], source: Optional[str]) -> Places:
    """The places of a run that reads the file `source`. Raises OutputError if what is there would be lost
    or is in the way."""
    places = Places(*(None if path is None else without_slash(os.fsdecode(path)) for path in (out, tiles)))
    if places.file is None and places.folder is None:
        raise ValueError("out, tiles: expected a file, a folder of tiles, or both, got neither")
    if "" in places:
        raise OutputError("out, tiles: expected a name, got an empty one")
    check_names(places)
    # The error names the folder, and not the first file that the run would make.
    os.stat(os.path.dirname(places.journal) or ".")
    if places.file is not None:
        check_file(places.file)
        if source is not None and is_same(places.file, source):
            raise OutputError(f"{places.file}: expected another file than the list, got the list; {OTHER_NAME}")
    for path in (places.journal, *([places.file + PART] if places.file else ())):
        check_file(path)
    if places.file is not None and os.path.splitext(places.file)[1].lower() not in ENDS:
        raise OutputError(
            f"{places.file}: expected a name that ends in .png, .tif, .tiff, .ppm or of depths in .pgm, or has no end, "
            "got another"
        )
    return places


def without_slash(path: str) -> str:
    """A path without a last slash, so that what is beside a folder is not put into it."""
    return path.rstrip("/") or path


def check_names(places: Places) -> None:
    """Raises OutputError if two names of a run are one, or the file lies in the folder."""
    used = [places.journal, *(name for path in places if path for name in (path, path + PART))]
    real = [os.path.join(os.path.realpath(os.path.dirname(path)), os.path.basename(path)) for path in used]
    for number, name in enumerate(real):
        if name in real[:number]:
            raise OutputError(f"{used[number]}: expected one file of the run, got two; {OTHER_NAME}")
    if places.file and places.folder:
        folder = os.path.realpath(os.path.dirname(places.file))
        for name in (places.folder, places.folder + PART):
            if os.path.commonpath([folder, os.path.realpath(name)]) == os.path.realpath(name):
                raise OutputError(f"{places.file}: expected a file outside of {name}, got one in it; {OTHER_NAME}")


def check_file(path: str) -> None:
    """Raises OutputError if there is something under a name, and it is no regular file. A link is none."""
    try:
        mode = os.lstat(path).st_mode
    except FileNotFoundError:
        return
    if not stat.S_ISREG(mode):
        raise OutputError(f"{path}: {NOT_REGULAR}")


def is_same(path: str, other: str) -> bool:
    """Whether two names are of one file."""
    try:
        return os.path.samefile(path, other)
    except FileNotFoundError:
        return False
