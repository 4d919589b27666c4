"""The Python package, each picture and each error against the program's."""

from __future__ import annotations

import importlib
import importlib.util
import json
import os
import threading
from array import array
from typing import Any, Callable, Iterator

import trirast

from tools import answers
from tests.cases import Case, CheckError, MissingError, case, must
from tools.draw_list import Draw, DrawList
from tests.library.commands import OUT
from tests.library.lists import Lists, read_lists
from tools.places import bytes_of

# A tile size and the threads: each list is drawn by one of these pairs.
SIZES_AND_THREADS = ((8, 1), (16, 2), (32, 4), (64, 100))
BAD_TILE_SIZES = (0, 7, -8, 33, 1 << 32, (1 << 32) + 32)
MAX_LIST = 67108864
ONE_PIXEL: DrawList = {"width": 1, "height": 1, "draws": []}


def file_of(picture: trirast.Picture) -> bytes:
    return picture.header + picture.bytes


# ---- Pictures


def draw_of(draw: Draw) -> trirast.Draw:
    """A draw from the arrays of a draw list's draw."""
    keep = "".join(letter for letter, is_written in zip("rgb", draw.get("write", ())) if not is_written)
    return trirast.Draw(keep=keep, **{key: value for key, value in draw.items() if key != "write"})


def canvas_pixels(scene: DrawList) -> bytes:
    """The pixels of the picture that a canvas has of a draw list's arrays."""
    canvas = trirast.Canvas(scene["width"], scene["height"], scene.get("samples", 1))
    canvas.clear(scene.get("clear", (0, 0, 0)), scene.get("clear_depth", 65535))
    canvas.draw_batch([draw_of(draw) for draw in scene["draws"]])
    if scene.get("output") != "depth":
        return memoryview(canvas.rgb()).tobytes()
    depths = array("H", memoryview(canvas.depth()).tobytes())
    depths.byteswap()
    return depths.tobytes()


def check_picture(text: bytes, wanted: bytes, tile_size: int, threads: int) -> None:
    """A list is drawn to the program's bytes from each form: bytes, a text, a value and arrays."""
    value = json.loads(text)
    for given in (text, text.decode(), bytearray(text), value):
        picture = trirast.draw(given, tile_size, threads)
        must(file_of(picture) == wanted, f"other bytes for {text[:200]!r}")
    must(trirast.draw_file(text, tile_size) == wanted, f"another file for {text[:200]!r}")
    must(canvas_pixels(value) == picture.bytes, f"other bytes of arrays for {text[:200]!r}")
    path = os.path.join(OUT, "picture.pgm" if picture.is_depth else "picture.ppm")
    picture.save(path)
    must(bytes_of(path) == wanted, f"another file was saved for {text[:200]!r}")
    info = trirast.image_info(text)
    must((info.width, info.height, info.file_bytes) == (picture.width, picture.height, len(wanted)), "another size")


def check_pictures(lists: Lists) -> str:
    """Each list is drawn as the program draws it, with several tile sizes and threads."""
    for number, (text, wanted) in enumerate(lists.drawn):
        check_picture(text, wanted, *SIZES_AND_THREADS[number % len(SIZES_AND_THREADS)])
    return f"{len(lists.drawn)} lists"


def check_threads(lists: Lists) -> None:
    """Four threads draw at the same time, each with threads of its own."""
    wrong: list[bytes] = []

    def draw_all(first: int) -> None:
        for text, wanted in lists.drawn[first:] + lists.drawn[:first]:
            if file_of(trirast.draw(text, threads=2)) != wanted:
                wrong.append(text[:200])

    threads = [threading.Thread(target=draw_all, args=(7 * number,)) for number in range(4)]
    for thread in threads:
        thread.start()
    for thread in threads:
        thread.join()
    must(not wrong, f"other bytes for {wrong[:1]}")


# ---- Errors


def raised(call: Callable[..., Any], *arguments: Any, **more: Any) -> Exception | None:
    """The error that a call raises, or `None`."""
    try:
        call(*arguments, **more)
    except Exception as error:  # of any class, since the class is what is checked
        return error
    return None


def check_refused(text: bytes, line: str, threads: int) -> None:
    """A refused list raises a DrawListError, with number, name and draw of the program's line."""
    error = raised(trirast.draw, text, threads=threads)
    if not isinstance(error, trirast.DrawListError):
        raise CheckError(f"{line}: {error!r}")
    must(line == answers.line_of(error), f"{line}: {vars(error)}")


def check_errors(lists: Lists) -> str:
    """Each error of the program is an exception of its class."""
    for text, line in lists.refused:
        for threads in (1, 4):
            check_refused(text, line.decode(), threads)
    calls: tuple[Callable[..., Any], ...] = (trirast.draw, trirast.draw_file)
    for size in BAD_TILE_SIZES:
        for call in calls:
            error = raised(call, ONE_PIXEL, tile_size=size)
            must(isinstance(error, trirast.TileSizeError), f"a tile size of {size}: {error!r}")
    must(isinstance(raised(trirast.draw, ONE_PIXEL, threads=0), ValueError), "no threads drew")
    must(isinstance(raised(trirast.draw, b" " * (MAX_LIST + 1)), trirast.LimitError), "a long list was drawn")
    depth = trirast.draw({**ONE_PIXEL, "output": "depth"})
    must(isinstance(raised(depth.save_ppm, os.devnull), ValueError), "depths were saved as PPM")
    must(isinstance(raised(depth.depth, 1, 0), IndexError) and depth.depth(0, 0) == 65535, "another depth")
    return f"{len(lists.refused)} lists refused"


# ---- The package's tests


def of_lists(check: Callable[[Lists], object]) -> None:
    check(read_lists("all.txt"))


# ---- numpy


def colours_and_depths() -> tuple[trirast.Picture, trirast.Picture]:
    scene: DrawList = {"width": 3, "height": 2, "clear": [1, 2, 3], "clear_depth": 258, "draws": []}
    return trirast.draw(scene), trirast.draw({**scene, "output": "depth"})


def check_array_interface() -> None:
    """A picture has the members of numpy's array protocol, without numpy."""
    for picture, shape, kind in zip(colours_and_depths(), ((2, 3, 3), (2, 3)), ("|u1", ">u2")):
        offered = picture.__array_interface__
        must((offered["version"], offered["shape"], offered["typestr"]) == (3, shape, kind), f"{offered}")
        must(bytes(offered["data"]) == picture.bytes, "other bytes")


def check_numpy() -> None:
    """numpy reads pictures of colours and of depths."""
    if importlib.util.find_spec("numpy") is None:
        raise MissingError("numpy")
    numpy: Any = importlib.import_module("numpy")
    colours, depths = (numpy.asarray(picture) for picture in colours_and_depths())
    must(colours.shape == (2, 3, 3) and colours[1, 2].tolist() == [1, 2, 3], "another picture of colours")
    must(depths.shape == (2, 3) and depths[1, 2] == 258, "another picture of depths")


def check_numpy_canvas() -> None:
    """A canvas takes numpy's arrays, and gives them."""
    if importlib.util.find_spec("numpy") is None:
        raise MissingError("numpy")
    numpy: Any = importlib.import_module("numpy")
    canvas = trirast.Canvas(3, 2, samples=4)
    canvas.clear((1, 2, 3), 258)
    colours, depths, ids = canvas.rgb(), canvas.depth(3), canvas.ids()
    must((colours.shape, colours.dtype, colours[1, 2].tolist()) == ((2, 3, 3), numpy.uint8, [1, 2, 3]), "other colours")
    must((depths.shape, depths.dtype, depths[1, 2]) == ((2, 3), numpy.uint16, 258), "other depths")
    must((ids.shape, ids.dtype, ids[1, 2]) == ((2, 3), numpy.uint32, 1 + 256 * 2 + 65536 * 3), "other ids")
    image = numpy.arange(24, dtype=numpy.uint8).reshape(2, 3, 4)
    canvas.load(image)
    must(
        (canvas.rgba()[:, :, :3] == image[:, :, :3]).all() and canvas.depth()[0, 0] == 258, "another picture was loaded"
    )
    vertices = numpy.array(
        [[0, 0, 0, 9, 9, 9, 255], [2048, 0, 0, 9, 9, 9, 255], [0, 2048, 0, 9, 9, 9, 255]], dtype=numpy.int32
    )
    canvas.draw(vertices, numpy.array([[0, 1, 2]], dtype=numpy.uint32))
    must((canvas.rgb(numpy.empty((2, 3, 3), numpy.uint8)) == 9).all(), "other pixels")


def cases() -> Iterator[Case]:
    yield case("Python draws the program's bytes, of lists and of arrays", of_lists, check_pictures)
    yield case("Python raises the program's errors", of_lists, check_errors)
    yield case("Python draws in four threads at the same time", of_lists, check_threads)
    yield case("Python offers numpy's array protocol", check_array_interface)
    yield case("numpy takes a picture", check_numpy)
    yield case("numpy takes and gives what a canvas has", check_numpy_canvas)
