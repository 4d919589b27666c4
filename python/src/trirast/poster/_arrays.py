"""Scenes in files of numpy, .npz: arrays without the limits of a draw list.

A file has `vertices`, records of trirast.VERTEX or (n, 7) integers; `triangles`, (m, 3) integers; and `draws`, a text:
a draw list as JSON, in whose draws `triangles` is a number, and `vertices` is absent. It may have polygons in addition
to these or in their place: `corners`, (n, 2) integers, `ring_ends`, `polygon_ends` and `colors`, and draws of them in
which `polygons` is a number. Records and integers that are
stored and not deflated, as numpy.savez leaves them, are copied to files without a name, which are mapped, so that
scenes larger than memory can be drawn. The file itself is not mapped: to read what somebody cuts off from it would end
the process.
"""

from __future__ import annotations

import errno
import io
import json
import math
import os
import re
import secrets
import struct
import tempfile
import zipfile
from contextlib import contextmanager, suppress
from typing import Any, Callable, IO, Iterator, Literal, Mapping, Optional

import numpy as np
from numpy.lib import format as numpy_format
from numpy.typing import NDArray

from .._errors import DrawListError, LimitError
from .._numbers import MAX_LIST_BYTES
from .._polygons import NONE, Polygons, own_corners
from ._draw_list import check_states, scene_of_list, sheet_of
from ._errors import ArraysError, MapError, of_arrays
from ._files import naming
from ._geojson import scene_of_geojson
from ._places import Path, check_file
from ._scene import CHUNK, NO_TRIANGLES, PosterDraw, Scene, own_polygons, own_triangles, own_vertices, owned
from ._sources import GEOJSON, JSON, interruptible, is_map

# Members begin at multiples of this in files that `save_arrays` writes, so that others can map them as integers.
ALIGNMENT = 64
LOCAL_HEADER = 30
# Where temporary files may be large: where others go may be memory.
LARGE = "/var/tmp"
# Bytes that are copied together, and that numpy reads of a header.
BLOCK, MAX_HEADER = 1 << 20, 10_000 + 12
# The member that has the list, and its bytes at most: as many characters of 4 bytes as a draw list has bytes.
DRAWS, MAX_DRAWS = "draws", 4 * MAX_LIST_BYTES
# How a name ends that is of arrays, in small or capital letters.
NPZ = ".npz"
# What a text of GeoJSON has, and no draw list.
GEOJSON_TYPE = re.compile(rb'"type"\s*:\s*"(?:Feature|FeatureCollection|Polygon|MultiPolygon|GeometryCollection)"')
# Its functions have no types.
npy: Any = numpy_format
# The members of a file: of triangles, and of polygons.
OF_TRIANGLES, OF_POLYGONS = ("vertices", "triangles"), ("corners", "ring_ends", "polygon_ends", "colors")


def scene_of_arrays(
    vertices: NDArray[Any], triangles: NDArray[Any], value: Any, *, polygons: Polygons = NONE, copy: bool = True
) -> Scene:
    """A scene of arrays. `value` is a draw list in whose draws `triangles` or `polygons` is a number, and
    `vertices` is absent.

    The scene has copies of the arrays, unless `copy` is false: then each window that is drawn has copies of what it
    reads, and who changes the arrays meanwhile may find another picture or an error. Raises ArraysError if an array
    does not fit, and trirast.Error if `value` is wrong.
    """
    return of_members(vertices, triangles, polygons, value, None, copy)


def scene_of_polygons(polygons: Polygons, value: Any) -> Scene:
    """A scene of polygons alone. `value` is a draw list in whose draws `polygons` is a number, or
    which has no draws: then all polygons are one, without blending.

    Raises ArraysError if an array does not fit, and trirast.Error if `value` is wrong; its text names the key, the
    value and what is allowed.
    """
    own = own_polygons(polygons)
    vertices, triangles = NO_TRIANGLES
    return of_members(vertices, triangles, own, with_draws(value, own.count), None, copy=True)


def with_draws(value: Any, polygons: int) -> Any:
    """A list with a draw of all polygons, if it has no draws."""
    return {"draws": [{"polygons": polygons}], **value} if isinstance(value, dict) else value


def of_members(
    vertices: NDArray[Any], triangles: NDArray[Any], polygons: Polygons, value: Any, source: Optional[str], copy: bool
) -> Scene:
    check_states(value)
    draws = [draw_of(draw) for draw in value["draws"]]
    return Scene(sheet_of(value), vertices, triangles, draws, source, copy, polygons)


def draw_of(draw: Mapping[str, Any]) -> PosterDraw:
    counts = {key: draw[key] for key in ("triangles", "polygons") if key in draw}
    if [type(count) for count in counts.values()] != [int] or not set(draw).isdisjoint(("vertices", "strip", "quads")):
        raise ArraysError(
            f"draws: expected the number of triangles or of polygons, got {', '.join(draw)}"
        )
    return PosterDraw(**counts, state={key: value for key, value in draw.items() if key not in counts})


def scene_of_file(path: str) -> Scene:
    """The scene of a .npz file. Raises ArraysError if it is none."""
    with naming(path), open(path, "rb") as file:
        found, value = read_file(path, file)
    vertices, triangles = (found.get(name, empty) for name, empty in zip(OF_TRIANGLES, NO_TRIANGLES))
    corners, ring_ends, polygon_ends, colors = (found.get(name, empty) for name, empty in zip(OF_POLYGONS, NONE.arrays))
    with of_arrays():
        corners = in_parts(corners, own_corners)
    polygons = own_polygons(Polygons(corners, ring_ends, polygon_ends, colors), copy=False)
    vertices = in_parts(vertices, lambda part: own_vertices(part, copy=False))
    triangles = in_parts(triangles, lambda part: own_triangles(part, copy=False))
    return owned(of_members(vertices, triangles, polygons, value, path, copy=False))


def read_file(path: str, file: IO[bytes]) -> tuple[dict[str, NDArray[Any]], Any]:
    """The arrays of a .npz file and its list. Raises ArraysError if it has not these members, in any of the ways in
    which zipfile and numpy say so."""
    try:
        with zipfile.ZipFile(file) as archive:
            names = archive.namelist()
            kinds = [kind for kind in (OF_TRIANGLES, OF_POLYGONS) if f"{kind[0]}.npy" in names] or [OF_TRIANGLES]
            found = {name: member(archive, name) for kind in kinds for name in kind}
            draws = member(archive, DRAWS)
        text = draws.item() if draws.ndim == 0 else draws.tobytes()
        return found, json.loads(text, object_hook=interruptible)
    except Exception as error:
        # To look before a file's beginning is an error of the system.
        if isinstance(error, MemoryError) or isinstance(error, OSError) and error.errno != errno.EINVAL:
            raise
        # A file may have any bytes. These modules raise errors of ten classes for them, of which they document few.
        raise ArraysError(f"{path}: expected the arrays of a poster, got {type(error).__name__}: {error}") from error


def member(archive: zipfile.ZipFile, name: str) -> NDArray[Any]:
    """An array of a .npz file: a mapped copy, or if it is that of draws, read. zipfile compares its checksum, the
    CRC-32, where it is read to its end. No more of it is inflated than its header says."""
    info = archive.getinfo(name + ".npy")
    if info.compress_type not in (zipfile.ZIP_STORED, zipfile.ZIP_DEFLATED):
        raise ValueError(f"{name}: expected a stored or a deflated one, got method {info.compress_type} of zip")
    with archive.open(info) as opened:
        head = io.BytesIO(opened.read(MAX_HEADER))
        shape, fortran, dtype = header_of(head)
        size = math.prod(shape) * dtype.itemsize
        order: Literal["C", "F"] = "F" if fortran else "C"
        if min(shape, default=0) < 0 or head.tell() + size != info.file_size:
            raise ValueError(f"{name}: expected {size} bytes, got {info.file_size - head.tell()}")
        if name == DRAWS and size > MAX_DRAWS:
            raise ValueError(f"{name}: expected at most {MAX_DRAWS} bytes, got {size}")
        if name == DRAWS:
            return np.ndarray(shape, dtype, head.read() + opened.read(), order=order)
        if not is_mapped(dtype) or not size:
            # A scene has none of this kind: the error says so by the shape and the type alone.
            return np.broadcast_to(np.zeros((), dtype), shape)
        with unnamed_file() as copy:
            copy_part(head, opened, copy)
            found: NDArray[Any] = np.memmap(copy, dtype, "c", 0, shape, order)
            return found


def is_mapped(dtype: np.dtype[Any]) -> bool:
    """Whether an array of this type is mapped: of integers, or of records."""
    return dtype.kind in "iub" or dtype.names is not None and not dtype.hasobject


def copy_part(head: IO[bytes], rest: IO[bytes], copy: IO[bytes]) -> None:
    """Copies what is left of a member's beginning, and its rest."""
    for part in (head, rest):
        while block := part.read(BLOCK):
            copy.write(block)
    copy.flush()


@contextmanager
def unnamed_file() -> Iterator[IO[bytes]]:
    """A file without a name, which nobody else can change. A mapping stays when it is closed."""
    folder = os.environ.get("TMPDIR") or (LARGE if os.path.isdir(LARGE) else tempfile.gettempdir())
    with naming(folder), tempfile.TemporaryFile(dir=folder) as file:
        yield file


def in_parts(array: NDArray[Any], own: Callable[[NDArray[Any]], NDArray[Any]]) -> NDArray[Any]:
    """An array as a scene has it. If it has many rows, and others than a scene, its parts are put into a file that is
    mapped, so that it is not whole in memory."""
    if len(array.shape) == 0 or len(array) <= CHUNK or np.may_share_memory(array, own(array[:1])):
        return own(array)
    with unnamed_file() as file:
        for first in range(0, len(array), CHUNK):
            part = own(array[first : first + CHUNK])
            file.write(part.view(np.uint8).data)
        file.flush()
        return np.memmap(file, part.dtype, "c", 0, (len(array), *part.shape[1:]))


def header_of(file: IO[bytes]) -> tuple[tuple[int, ...], bool, np.dtype[Any]]:
    """Shape, order and type of the array of a .npy file, which is left where its numbers begin."""
    version = npy.read_magic(file)
    read = npy.read_array_header_1_0 if version == (1, 0) else npy.read_array_header_2_0
    shape, fortran, dtype = read(file)
    return shape, fortran, dtype


def save_arrays(
    path: Path, vertices: NDArray[Any], triangles: NDArray[Any], value: Any, *, polygons: Polygons = NONE
) -> None:
    """Writes a .npz file for `scene_of`: members stored, and aligned, vertices as records. It gets its name when it is
    whole, so the arrays may be those of a file of that name."""
    arrays = {
        "vertices": own_vertices(vertices, copy=False), "triangles": triangles, "draws": np.array(json.dumps(value))
    }
    if polygons.count:
        arrays.update(zip(OF_POLYGONS, own_polygons(polygons, copy=False).arrays))
    save_members(path, arrays)


def save_polygons(path: Path, polygons: Polygons, value: Any) -> None:
    """Writes a .npz file of polygons alone in the same way. `value` is as for `scene_of_polygons`."""
    arrays = dict(zip(OF_POLYGONS, own_polygons(polygons, copy=False).arrays))
    save_members(path, {**arrays, "draws": np.array(json.dumps(with_draws(value, polygons.count)))})


def save_members(path: Path, arrays: Mapping[str, NDArray[Any]]) -> None:
    name = os.fsdecode(path)
    check_file(name)
    new = f"{name}.{secrets.token_hex(8)}"
    try:
        with naming(name), open(new, "xb") as file:
            write_members(file, arrays)
        os.replace(new, name)
    except BaseException:
        with suppress(FileNotFoundError):
            os.remove(new)
        raise


def write_members(file: IO[bytes], arrays: Mapping[str, NDArray[Any]]) -> None:
    with zipfile.ZipFile(file, "w", zipfile.ZIP_STORED) as archive:
        for name, array in arrays.items():
            info = zipfile.ZipInfo(name + ".npy")
            # An extra field of an unknown kind pads the header (APPNOTE.TXT, 4.5.1).
            at = archive.start_dir + LOCAL_HEADER + len(info.filename) + 4 + 20
            info.extra = struct.pack("<HH", 0x7472, -at % ALIGNMENT) + bytes(-at % ALIGNMENT)
            with archive.open(info, "w", force_zip64=True) as member_file:
                npy.write_array(member_file, np.ascontiguousarray(array), allow_pickle=False)


def scene_of(path: Path, style: Optional[Path] = None) -> Scene:
    """The scene of a file, by the end of its name in small or capital letters: arrays (.npz), a map in a style, which
    is a file too (.geojson, .gpkg and others; with a style also .json, since no draw list has one), else a draw
    list."""
    name = os.fsdecode(path)
    is_known = is_map(name)
    if style is not None and not is_known and not name.lower().endswith(JSON):
        raise MapError(f"style: expected a map whose name ends in {GEOJSON} or {JSON}, got {name}; leave it out")
    if style is not None or is_known:
        return scene_of_geojson(name, None if style is None else os.fsdecode(style))
    if name.lower().endswith(NPZ):
        return scene_of_file(name)
    with open(name, "rb") as file:
        # The library refuses a longer one, of which no more is read.
        data = file.read(MAX_LIST_BYTES + 1)
    try:
        return scene_of_list(data, name)
    except (DrawListError, LimitError) as error:
        if GEOJSON_TYPE.search(data):
            raise MapError(
                f"{name}: expected a draw list, got what looks like GeoJSON; "
                f"let its name end in {GEOJSON}, or give a style"
            ) from error
        raise
