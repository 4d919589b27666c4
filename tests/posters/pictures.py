"""Posters of generated lists against the program, byte for byte: windows, workers, engines, files and tiles.

    PYTHONPATH=python/src python3 -m tests.posters.pictures --folder FOLDER [--lists 60] [--dask-lists 16]
"""

from __future__ import annotations

import copy
import io
import json
import os
import random
import shutil
from typing import Any, Iterator, Optional
from unittest import mock

import numpy as np
from PIL import Image

import trirast
from trirast import poster
from trirast.poster import _threads

from tests.reference import generated_lists
from tests.cases import Case, CheckError, case, must
from tools.draw_list import DrawList
from tests.posters import lists
from tests.posters.common import Options, content, dask, generated, local_cluster, program_file

TILE = 256
# The pictures are our own, whatever their size.
Image.MAX_IMAGE_PIXELS = None
# How much windows weigh that a thread takes together: as much as the package says, or little.
WEIGHTS = (_threads.WEIGHT, 300)


# ---- Lists up to 4096 pixels


def draw(scene: poster.Scene, path: str, **how: Any) -> bytes:
    """The file of a poster. Nothing else is left beside it."""
    poster.draw_poster(scene, path, **how)
    must(
        not os.path.exists(path + ".part") and not os.path.exists(path + ".resume"), "files are left beside the poster"
    )
    return content(path)


def as_arrays(scene: DrawList, path: str) -> poster.Scene:
    """A list as a file of arrays, read again."""
    whole = poster.scene_of_list(json.dumps(scene).encode())
    value = {key: each for key, each in scene.items() if key != "draws"}
    value["draws"] = [{**draw.state, "triangles": draw.triangles} for draw in whole.draws]
    poster.save_arrays(path, whole.vertices, whole.triangles, value)
    return poster.scene_of(path)


def check_list(seed: int, folder: str, scheduler: Optional[str], workers: int) -> None:
    """The poster of a generated list is the program's file, as PPM or PNG, from a list or from arrays."""
    value, side = generated(seed)
    wanted = program_file(value)
    path = os.path.join(folder, "list.ppm")
    scene = (
        as_arrays(value, os.path.join(folder, "list.npz"))
        if seed % 2 else poster.scene_of_list(json.dumps(value).encode())
    )
    with mock.patch.object(_threads, "WEIGHT", WEIGHTS[seed // 4 % 2]):
        got = draw(scene, path, window=side, workers=workers, scheduler=scheduler)
    must(got == wanted, f"seed {seed}, window {side}, {workers} workers, weight {WEIGHTS[seed // 4 % 2]}: other bytes")
    if seed % 5 == 0:
        png = draw(scene, os.path.join(folder, "list.png"), window=side, workers=workers, scheduler=scheduler)
        must(
            png_pixels(png) == wanted[-len(png_pixels(png)) :],
            f"seed {seed}, window {side}: other pixels in the PNG file",
        )


def check_by_threads(options: Options) -> str:
    for seed in range(options.lists):
        check_list(seed, options.folder, None, 1 + seed % 4)
    return f"{options.lists} lists"


def check_by_dask(options: Options) -> str:
    for workers in (1, 2, 3, 4):
        with local_cluster(workers) as address:
            for seed in range(workers - 1, options.dask_lists, 4):
                check_list(seed, options.folder, address, workers)
    return f"{options.dask_lists} lists"


def check_local(options: Options) -> None:
    """The engine starts a cluster of its own."""
    dask()
    value, side = generated("local")
    scene = poster.scene_of_list(json.dumps(value).encode())
    got = draw(scene, os.path.join(options.folder, "local.ppm"), window=side, workers=2, scheduler="local")
    must(got == program_file(value), "other bytes")


# ---- Posters past 4096 pixels


def moved(scene: DrawList, left: int, top: int, width: int, height: int) -> DrawList:
    """A part of a list's picture as a list of its own: vertices and scissors moved by whole pixels."""
    part = copy.deepcopy(scene)
    part["width"], part["height"] = width, height
    for draw in part["draws"]:
        for vertex in draw["vertices"]:
            vertex[0] -= 256 * left
            vertex[1] -= 256 * top
        sides = draw.get("scissor", [0, 0, scene["width"], scene["height"]])
        edges = zip(sides, (left, top, left, top), (width, height, width, height))
        draw["scissor"] = [min(max(side - first, 0), size) for side, first, size in edges]
    return part


def a_wide_list(pick: random.Random) -> DrawList:
    """A list past 4096 pixels, all of whose vertices can be moved to each part."""
    scene = lists.a_list(pick)
    scene["width"], scene["height"] = pick.randint(4097, 9000), pick.randint(300, 600)
    if pick.random() < 0.5:
        scene["width"], scene["height"] = scene["height"], scene["width"]
    scene["draws"] = []
    for _ in range(4):
        vertices = lists.a_cloud(pick, scene["width"], scene["height"], [0, 100, 65535])
        triangles = [[pick.randrange(len(vertices)) for _ in range(3)] for _ in range(30)]
        state = generated_lists.a_state(pick, scene["width"], scene["height"])
        scene["draws"].append({**state, "vertices": vertices, "triangles": triangles})
    return scene


def check_wide(options: Options) -> str:
    """Posters past 4096 pixels are, part by part, what the program draws of the moved list."""
    count = max(4, options.lists // 10)
    for seed in range(count):
        pick = random.Random(f"wide {seed}")
        scene = a_wide_list(pick)
        got = draw(
            poster.scene_of_list(json.dumps(scene).encode()), os.path.join(options.folder, "wide.ppm"),
            window=pick.choice((256, 300, 512)),
        )
        header = b"P5\n%d %d\n65535\n" if scene.get("output") == "depth" else b"P6\n%d %d\n255\n"
        header %= (scene["width"], scene["height"])
        must(got.startswith(header), f"seed {seed}: another header")
        pixels = np.frombuffer(got[len(header) :], np.uint8).reshape(scene["height"], scene["width"], -1)
        for left in range(0, scene["width"], 3000):
            for top in range(0, scene["height"], 3000):
                width, height = min(3000, scene["width"] - left), min(3000, scene["height"] - top)
                wanted = program_file(moved(scene, left, top, width, height))
                part = pixels[top : top + height, left : left + width].tobytes()
                must(wanted.endswith(part), f"seed {seed}: other bytes in the part at {left}, {top}")
    return f"{count} lists"


# ---- PNG and tiles


def png_pixels(file: bytes) -> bytes:
    """The bytes of the pixels of a PNG file, as Pillow reads them; of depths the high byte first. Each CRC is right."""
    with Image.open(io.BytesIO(file)) as image:
        image.verify()
    with Image.open(io.BytesIO(file)) as image:
        pixels = np.asarray(image)
    return bytes(pixels.astype(np.uint8 if pixels.ndim == 3 else ">u2").tobytes())


def mean_of_four(pixels: Any) -> Any:
    """The next coarser level, by another way than the package's: each pixel is the sum of four plus 2, divided by 4."""
    height, width = (pixels.shape[0] + 1) // 2, (pixels.shape[1] + 1) // 2
    rows = np.minimum(np.arange(2 * height), pixels.shape[0] - 1)
    columns = np.minimum(np.arange(2 * width), pixels.shape[1] - 1)
    padded = pixels[rows][:, columns].astype(np.int64)
    return (padded.reshape(height, 2, width, 2, -1).sum((1, 3)) + 2) // 4


def check_tile_folder(folder: str, pixels: Any) -> int:
    """The tiles of a folder are those of a picture, level by level, and there are no others. Returns their number."""
    level = 0
    while TILE << level < max(pixels.shape[:2]):
        level += 1
    names = {"index.html"}
    while True:
        for y in range(0, pixels.shape[0], TILE):
            for x in range(0, pixels.shape[1], TILE):
                name = os.path.join(str(level), str(x // TILE), f"{y // TILE}.png")
                names.add(name)
                tile = pixels[y : y + TILE, x : x + TILE].astype(np.uint8)
                must(png_pixels(content(os.path.join(folder, name))) == tile.tobytes(), f"tile {name} has other pixels")
        if level == 0:
            break
        pixels, level = mean_of_four(pixels), level - 1
    there = {
        os.path.relpath(os.path.join(place, name), folder) for place, _, files in os.walk(folder) for name in files
    }
    must(there == names, f"other files: {sorted(there ^ names)[:5]}")
    return len(names) - 1


def check_tiles(options: Options) -> str:
    """Tiles of the finest level are the poster's pixels, and those of each coarser one the mean of four."""
    count = 0
    for seed, (width, height, side) in enumerate(
        ((1, 1, 64), (256, 256, 256), (257, 900, 100), (1500, 1100, 512), (2049, 77, 64))
    ):
        value = {**generated(f"tiles {seed}")[0], "width": width, "height": height, "output": "color"}
        folder = os.path.join(options.folder, "tiles")
        shutil.rmtree(folder, ignore_errors=True)
        poster.draw_poster(poster.scene_of_list(json.dumps(value).encode()), tiles=folder, window=side)
        pixels = np.frombuffer(program_file(value)[-3 * width * height :], np.uint8).reshape(height, width, 3)
        count += check_tile_folder(folder, pixels)
    return f"{count} tiles"


# ---- What is refused


def check_guard_band(options: Options) -> None:
    """A triangle that cannot be moved into a window that it meets is refused by name, and no file is made."""
    vertices = [
        [-8388608, 0, 0, 9, 9, 9, 9], [8388607, 0, 0, 9, 9, 9, 9], [8388607, 99999, 0, 9, 9, 9, 9],
        [0, 0, 0, 9, 9, 9, 9],
    ]
    value: DrawList = {
        "width": 4096, "height": 4096, "draws": [{"vertices": vertices, "triangles": [[3, 3, 3], [0, 1, 2]]}]
    }
    path = os.path.join(options.folder, "refused.ppm")
    must(
        draw(poster.scene_of_list(json.dumps(value).encode()), path, window=1024) == program_file(value), "other bytes"
    )
    os.remove(path)
    scene = poster.scene_of_list(json.dumps({**value, "width": 32768}).encode())
    try:
        poster.draw_poster(scene, path, window=1024)
    except poster.GuardBandError as error:
        must(error.triangle == 1, f"triangle {error.triangle} is named")
    else:
        raise CheckError("drawn, though a vertex leaves the guard band")
    must(not [name for name in os.listdir(options.folder) if name.startswith("refused")], "a file is there")


def check_broken_lists(options: Options) -> str:
    """A broken list has the error of the library."""
    count = 0
    for number in range(10 * options.lists):
        text = generated_lists.broken_text(5, number)
        try:
            trirast.image_info(text)
        except trirast.Error as error:
            wanted = str(error)
        else:
            continue
        if b"4097" in text:
            # A side or an edge that only a poster has.
            continue
        try:
            poster.scene_of_list(text)
        except trirast.Error as error:
            must(str(error) == wanted, f"{text[:200]!r}: {error} and not {wanted}")
        else:
            raise CheckError(f"read: {text[:200]!r}")
        count += 1
    return f"{count} lists"


def cases(options: Options) -> Iterator[Case]:
    yield case("posters of lists by threads", check_by_threads, options)
    yield case("posters of lists by Dask", check_by_dask, options)
    yield case("posters by Dask's own processes", check_local, options)
    yield case("posters past 4096 pixels", check_wide, options)
    yield case("tiles", check_tiles, options)
    yield case("a triangle that cannot be moved", check_guard_band, options)
    yield case("broken lists", check_broken_lists, options)
