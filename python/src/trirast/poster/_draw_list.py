"""Draw lists as scenes: the format of docs/draw-list.md, with sides and scissors of up to 32,768 pixels."""

from __future__ import annotations

import json
import re
from contextlib import contextmanager
from typing import Any, Iterator, Optional

import numpy as np
from numpy.typing import NDArray

from .._draw import EVERY_SAMPLE
from .._draw_list import DrawList, as_bytes, image_info
from .._errors import DrawListError, adding
from .._numbers import MAX_SIDE as LIST_SIDE
from .._vertices import VERTEX, records_of
from ._list_keys import fault_of
from ._scene import MAX_SIDE, SAMPLES, PosterDraw, Scene, Sheet, owned

# The library reads lists of at most this many draws.
LIST_DRAWS = 1024
# The greatest sample mask of a list.
LIST_MASK = 15
PRIMITIVES = ("triangles", "strip", "quads")
# Keys that draws of polygons have and lists do not.
OF_POLYGONS = ("polygons", "rule")
SHEET_KEYS = ("width", "height", "samples", "clear_depth", "output")
# Of a text: a side's key and its digits, a scissor's key and its numbers, and the digits of a number
# that has nothing else.
SIDES = re.compile(rb'("(?:width|height)"[ \t\r\n]*:[ \t\r\n]*)([1-9][0-9]*)(?![0-9.eE])')
SCISSOR = re.compile(rb'("scissor"[ \t\r\n]*:[ \t\r\n]*\[)([-+0-9.eE, \t\r\n]*)')
NUMBER = re.compile(rb"(?<![-+0-9.eE])[1-9][0-9]*(?![0-9.eE])")


def scene_of_list(data: DrawList, source: Optional[str] = None) -> Scene:
    """The scene of a draw list, in any form that `trirast.draw` takes, as its JSON text. `source` is the file that it
    was read from.

    Raises trirast.Error as the library does for the same list with sides of at most 4096.
    """
    value = checked(as_bytes(data))
    draws, vertices, triangles = [], [np.zeros(0, VERTEX)], [np.zeros((0, 3), np.int32)]
    base = 0
    for draw in value["draws"]:
        mine = triangles_of(draw)
        vertices.append(np.frombuffer(records_of(draw["vertices"]), VERTEX))
        triangles.append(mine + np.int32(base))
        base += len(draw["vertices"])
        draws.append(PosterDraw(len(mine), state_of(draw)))
    return owned(Scene(sheet_of(value), np.concatenate(vertices), np.concatenate(triangles), draws, source, copy=False))


def checked(data: bytes) -> Any:
    """The value of a list. The library makes all checks, of the same text with smaller numbers where a poster may
    have greater ones."""
    image_info(cut(data))
    return json.loads(data)


def cut(data: bytes) -> bytes:
    """A text as long as a list's, in which each side and each edge of a scissor from 4097 to 32,768 is 4096.

    It looks for keys as they are written. Where such a key is part of a text, the list is refused with this
    change and without it.
    """
    within = SIDES.sub(lambda found: found[1] + cut_number(found[2]), data)
    return SCISSOR.sub(lambda found: found[1] + NUMBER.sub(lambda number: cut_number(number[0]), found[2]), within)


def cut_number(digits: bytes) -> bytes:
    """A number in its digits. It is lowered if it is more than a list has and not more than a poster has."""
    return (
        b"%d" % LIST_SIDE + b" " * (len(digits) - 4)
        if len(digits) < 6 and LIST_SIDE < int(digits) <= MAX_SIDE else digits
    )


def sheet_of(value: Any) -> Sheet:
    given = {key: value[key] for key in SHEET_KEYS if key in value}
    red, green, blue = value.get("clear", (0, 0, 0))
    return Sheet(**given, clear=(red, green, blue))


def state_of(draw: Any) -> dict[str, Any]:
    return {key: value for key, value in draw.items() if key != "vertices" and key not in PRIMITIVES}


def triangles_of(draw: Any) -> NDArray[np.int32]:
    """A draw's triangles in the order in which they are drawn."""
    if "triangles" in draw:
        return np.array(draw["triangles"], np.int32).reshape(-1, 3)
    if "quads" in draw:
        quads = np.array(draw["quads"], np.int32).reshape(-1, 4)
        halves: NDArray[np.int32] = quads[:, [0, 1, 2, 2, 3, 0]].reshape(-1, 3)
        return halves
    strip = np.array(draw["strip"], np.int32)
    triangles: NDArray[np.int32] = (
        np.stack((strip[:-2], strip[1:-1], strip[2:]), 1) if len(strip) > 2 else np.zeros((0, 3), np.int32)
    )
    # Each second triangle has its last two corners exchanged, so that a strip keeps its orientation.
    triangles[1::2] = triangles[1::2, [0, 2, 1]]
    return triangles


def check_states(value: Any) -> None:
    """Raises trirast.Error if a list without vertices and triangles is none: what arrays say once, and the states of
    draws. Its pixels may have as many samples as those of a canvas, and its sample masks 16 bits. The text names the
    key, its value, and what it may be."""
    draws = value.get("draws") if isinstance(value, dict) else None
    with adding(DrawListError, lambda _error: fault_of(value) and f": {fault_of(value)}"):
        if not isinstance(draws, list):
            image_info(json.dumps(value).encode())
            return
        for first in range(0, max(1, len(draws)), LIST_DRAWS):
            bare = [bare_draw(draw) if isinstance(draw, dict) else draw for draw in draws[first : first + LIST_DRAWS]]
            with counting_from(first):
                image_info(cut(json.dumps({**value, **listed_samples(value), "draws": bare}).encode()))


@contextmanager
def counting_from(first: int) -> Iterator[None]:
    """Counts the draw of a DrawListError that is raised within from this draw on."""
    try:
        yield
    except DrawListError as error:
        if error.draw is not None:
            before, error.draw = error.draw, first + error.draw
            error.args = (str(error).replace(f" in draw {before}", f" in draw {error.draw}"),)
        raise


def bare_draw(draw: Any) -> Any:
    """The state of a draw as the draw of a list, without triangles."""
    mask = draw.get("sample_mask")
    listed = {"sample_mask": LIST_MASK} if type(mask) is int and LIST_MASK < mask <= EVERY_SAMPLE else {}
    of_all = {key: value for key, value in draw.items() if key not in OF_POLYGONS}
    return {**of_all, **listed, "vertices": [], "triangles": []}


def listed_samples(value: Any) -> Any:
    """What stands in a list for a number of samples that only a canvas has."""
    samples = value.get("samples")
    return {"samples": 4} if type(samples) is int and samples in SAMPLES else {}
