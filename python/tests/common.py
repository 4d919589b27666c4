"""What the tests share: a triangle as a draw list and as arrays, its file, numpy where it is, and
programs that may crash."""

import importlib
import importlib.util
import os
import struct
import subprocess
import sys
import textwrap
import zlib
from contextlib import contextmanager
from typing import Any, Dict, Iterator, List, Sequence, Tuple

import trirast

VERTICES: List[List[int]] = [
    [128, 128, 0, 255, 255, 255, 255],
    [640, 128, 0, 255, 255, 255, 255],
    [128, 640, 0, 255, 255, 255, 255],
]
DRAW_LIST: Any = {"width": 3, "height": 3, "draws": [{"vertices": VERTICES, "triangles": [[0, 1, 2]]}]}
# The other centres of the upper left half lie on the hypotenuse, which is a right edge.
PIXELS = b"\xff\xff\xff" * 2 + b"\0\0\0" + b"\xff\xff\xff" + b"\0\0\0" * 5
FILE = b"P6\n3 3\n255\n" + PIXELS

NUMPY: Any = importlib.import_module("numpy") if importlib.util.find_spec("numpy") else None
PYTHON = os.path.dirname(os.path.dirname(os.path.abspath(__file__)))
SECONDS = 120


def run(text: str, under: Sequence[str] = (), **more: str) -> "subprocess.CompletedProcess[bytes]":
    """Runs a program over the package in a process of its own, by a command whose last words it is."""
    environment = {**os.environ, "PYTHONPATH": os.path.join(PYTHON, "src"), **more}
    command = [*under, sys.executable, "-c", textwrap.dedent(text)]
    return subprocess.run(command, env=environment, capture_output=True, timeout=SECONDS)


@contextmanager
def without(name: str) -> Iterator[None]:
    """Lets the import of a module fail meanwhile. Other modules that are imported meanwhile stay, unlike by
    mock.patch.dict: Dask has exceptions pickled by functions of tblib, and pickle refuses these if tblib is
    imported a second time."""
    modules: Dict[str, Any] = sys.modules
    kept = {name: modules[name]} if name in modules else {}
    modules[name] = None
    try:
        yield
    finally:
        del modules[name]
        modules.update(kept)


def bytes_of(buffer: Any) -> bytes:
    return memoryview(buffer).tobytes()


def chunks(file: bytes) -> List[Tuple[bytes, bytes]]:
    """The chunks of a PNG file: kind and data. Each CRC must be right."""
    assert file[:8] == b"\x89PNG\r\n\x1a\n"
    at, found = 8, []
    while at < len(file):
        (length,) = struct.unpack(">I", file[at : at + 4])
        kind, data, crc = struct.unpack(f">4s{length}sI", file[at + 4 : at + 12 + length])
        assert crc == zlib.crc32(kind + data), kind
        found.append((kind, data))
        at += 12 + length
    return found


def drawn(vertices: Any, triangles: Any = None, **more: Any) -> bytes:
    """The pixels of 3 by 3 on black."""
    canvas = trirast.Canvas(3, 3)
    canvas.clear()
    canvas.draw(vertices, triangles, **more)
    return bytes_of(canvas.rgb())
