"""The page of a folder of tiles, opened in headless Chromium, zoomed and dragged: each screenshot against the picture.

    PYTHONPATH=python/src python3 -m tests.posters.page --folder FOLDER

Where a pixel of a level is a pixel of the page, the screenshot has to have the level's pixels. The
screenshots are left in FOLDER.
"""

from __future__ import annotations

import io
import json
import os
import shutil
import time
from typing import Any, Iterator

import numpy as np
from PIL import Image

from trirast import poster

from tests.cases import Case, case, must
from tools.places import text_of
from tests.posters.browser import Page, page_of
from tests.posters.common import Options, program_file
from tests.posters.pictures import mean_of_four

WIDTH, HEIGHT = 900, 640
SECONDS = 60
# The part of the page that the buttons cover.
NAVIGATION = (260, 60)


def levels_of(pixels: Any) -> list[Any]:
    """The picture, and each coarser level."""
    levels = [pixels]
    while max(levels[-1].shape[:2]) > 256:
        levels.append(mean_of_four(levels[-1]).astype(np.uint8))
    return levels


def wait_for_tiles(page: Page) -> None:
    """Waits until all tiles that the page shows are loaded."""
    end = time.monotonic() + SECONDS
    while not page.run(
        "[...document.images].length > 0 && [...document.images].every((i) => i.complete && i.naturalWidth)"
    ):
        must(time.monotonic() < end, "tiles are not loaded")
        time.sleep(0.05)


def check_view(page: Page, levels: list[Any], path: str) -> int:
    """The page shows the picture where it says that it lies. Returns the number of pixels that were compared."""
    wait_for_tiles(page)
    scale, left, top = page.run("[scale, left, top_]")
    finer = round(-np.log2(scale))
    must(0 <= finer < len(levels) and 2.0**-finer == scale, f"scale {scale}")
    screenshot = page.screenshot()
    with open(path, "wb") as file:
        file.write(screenshot)
    shown = np.asarray(Image.open(io.BytesIO(screenshot)).convert("RGB"))
    must(shown.shape == (HEIGHT, WIDTH, 3), f"a screenshot of {shown.shape}")
    level = levels[finer]
    columns, rows = np.arange(WIDTH) - round(left), np.arange(HEIGHT) - round(top)
    within = ((rows >= 0) & (rows < level.shape[0]))[:, None] & ((columns >= 0) & (columns < level.shape[1]))[None]
    within[: NAVIGATION[1], : NAVIGATION[0]] = False
    wanted = level[np.clip(rows, 0, level.shape[0] - 1)][:, np.clip(columns, 0, level.shape[1] - 1)]
    differ = within & (shown != wanted).any(2)
    must(not differ.any(), f"{int(differ.sum())} of {int(within.sum())} pixels differ in {os.path.basename(path)}")
    return int(within.sum())


def set_scale(page: Page, scale: float) -> None:
    """Zooms by the page's own function to a scale, and to whole pixels."""
    page.run(f"zoom({scale} / scale, 0, 0); left = Math.round(left); top_ = Math.round(top_); show()")


def check_page(folder: str) -> str:
    """The page is looked at as it opens, zoomed by the wheel, dragged, and at three levels."""
    value = json.loads(text_of("examples", "mesh.json"))
    pixels = np.frombuffer(program_file(value)[-3 * value["width"] * value["height"] :], np.uint8).reshape(
        value["height"], value["width"], 3
    )
    tiles = os.path.join(folder, "page")
    shutil.rmtree(tiles, ignore_errors=True)
    poster.draw_poster(poster.scene_of_list(json.dumps(value).encode()), tiles=tiles, window=200)
    levels, compared = levels_of(pixels), 0
    with page_of(os.path.join(tiles, "index.html"), WIDTH, HEIGHT) as page:
        wait_for_tiles(page)
        page.run("whole()")
        wait_for_tiles(page)
        with open(os.path.join(folder, "page_whole.png"), "wb") as file:
            file.write(page.screenshot())
        before = page.run("scale")
        page.mouse("mouseWheel", 450, 320, deltaX=0, deltaY=-300)
        must(abs(page.run("scale") / before - 2) < 1e-6, "the wheel does not zoom by two")
        for finer in range(min(3, len(levels))):
            set_scale(page, 2.0**-finer)
            page.run("left = 30; top_ = 70; show()")
            compared += check_view(page, levels, os.path.join(folder, f"page_level{finer}.png"))
            page.drag((450, 320), (-210, -120))
            must(page.run("[left, top_]") == [-180, -50], f"dragged to {page.run('[left, top_]')}")
            compared += check_view(page, levels, os.path.join(folder, f"page_level{finer}_dragged.png"))
        page.call("Input.dispatchKeyEvent", type="keyDown", key="0")
        must(abs(page.run("scale") - before) < 1e-9, "the key 0 does not show the whole poster")
        loaded = page.run("[...document.images].map((each) => each.src)")
        must(
            bool(loaded) and all(name.startswith("file:///") for name in loaded),
            f"other files were loaded: {loaded[:3]}",
        )
    return f"{compared} pixels of screenshots compared"


def cases(options: Options) -> Iterator[Case]:
    yield case("the page of tiles in Chromium", check_page, options.folder)
