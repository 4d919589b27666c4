"""Runs matplotlib's own tests by trirast.matplotlib, and compares its figures with Agg's. A plugin of
pytest, and a summary:

    cd out && PYTHONPATH=..:../python/src /usr/bin/python3 -m pytest -c /dev/null --rootdir . -p bench.suite \\
        -p no:cacheprovider --report suite.json [--by agg] \\
        /usr/lib/python3/dist-packages/matplotlib/tests/test_axes.py [more files]
    PYTHONPATH=python/src /usr/bin/python3 -m bench.suite out/suite.json

All figures are drawn by this package's renderer in place of Agg's. A test with a baseline image, which Debian does not
ship, draws its figure by Agg twice and by this package once; the pictures are compared, and a line of JSON for each
goes to the report, with --pictures FOLDER also a picture of both and their difference. Tests of two equal figures run
as they are. With --by agg all is Agg's: for failures that have other causes.
"""

from __future__ import annotations

import json
import sys
from pathlib import Path
from typing import Any, Dict

import numpy as np

STATE: Dict[str, Any] = {"ours": True, "report": None, "pictures": None, "test": ""}


def pytest_addoption(parser: Any) -> None:
    parser.addoption("--report", default=None)
    parser.addoption("--pictures", default=None)
    parser.addoption("--by", default="trirast", choices=("trirast", "agg"))


def pytest_configure(config: Any) -> None:
    import matplotlib

    matplotlib.use("agg")
    from matplotlib.backends.backend_agg import FigureCanvasAgg
    from matplotlib.testing import decorators

    from trirast.matplotlib import FigureCanvasTrirast

    STATE["ours"] = config.getoption("--by") == "trirast"
    STATE["report"], STATE["pictures"] = config.getoption("--report"), config.getoption("--pictures")
    by_agg: Any = FigureCanvasAgg.get_renderer
    ours: Any = FigureCanvasTrirast.get_renderer

    def get_renderer(canvas: Any, *given: Any, **named: Any) -> Any:
        return (ours if STATE["ours"] and type(canvas) is FigureCanvasAgg else by_agg)(canvas, *given, **named)

    FigureCanvasAgg._drawn_for = None
    FigureCanvasAgg.get_renderer = get_renderer
    decorators._ImageComparisonBase.compare = compare


def pytest_runtest_setup(item: Any) -> None:
    STATE["test"] = item.nodeid


def picture(figure: Any, ours: bool, path: Path, options: Any) -> Any:
    from PIL import Image

    STATE["ours"] = ours
    figure.canvas._lastKey = figure.canvas._drawn_for = None
    figure.savefig(path, **options)
    return np.array(Image.open(path).convert("RGBA")).astype(int)


def compare(self: Any, fig: Any, baseline: str, extension: str, *, _lock: bool = False) -> None:
    """Takes the place of matplotlib's comparison with a baseline image."""
    import pytest
    from matplotlib.testing.decorators import remove_ticks_and_titles

    if extension != "png":
        pytest.skip("no picture of pixels")
    if self.remove_text:
        remove_ticks_and_titles(fig)
    path = (self.result_dir / baseline).with_suffix(".png")
    was = STATE["ours"]
    try:
        agg, ours, again = (picture(fig, chosen and was, path, self.savefig_kwargs) for chosen in (False, True, False))
    finally:
        STATE["ours"] = was
    line = {
        "test": STATE["test"], "baseline": baseline, "agg_repeats": bool(np.array_equal(agg, again)),
        "same_shape": agg.shape == ours.shape,
    }
    if line["same_shape"]:
        difference = np.abs(agg - ours).max(2)
        flat = flat_pixels(agg) & flat_pixels(ours) & (difference > 1)
        line.update(
            pixels=int(difference.size), differ=int((difference > 0).sum()), more_than_one=int((difference > 1).sum()),
            greatest=int(difference.max()), rms=float(np.sqrt(((agg[..., :3] - ours[..., :3]) ** 2).mean())),
            flat=int(flat.sum()),
        )
        if STATE["pictures"] and line["differ"]:
            save(Path(STATE["pictures"]), baseline, agg, ours, difference)
    if STATE["report"]:
        with open(STATE["report"], "a") as report:
            report.write(json.dumps(line) + "\n")
    assert line["same_shape"]


def flat_pixels(pixels: Any) -> Any:
    """The pixels that have the colour of the eight around them."""
    found = np.ones(pixels.shape[:2], bool)
    for axis in (0, 1):
        near = (pixels == np.roll(pixels, 1, axis)).all(2)
        found &= near & np.roll(near, -1, axis)
    for axis in (0, 1):
        found &= np.roll(found, 1, axis) & np.roll(found, -1, axis)
    return found


def save(folder: Path, name: str, agg: Any, ours: Any, difference: Any) -> None:
    from PIL import Image

    folder.mkdir(parents=True, exist_ok=True)
    marked = np.repeat(255 - np.minimum(4 * difference, 255)[..., None], 4, 2)
    marked[..., 3] = 255
    Image.fromarray(np.concatenate((agg, ours, marked), 1).astype(np.uint8)).save(folder / f"{Path(name).name}.png")


def summed(line: Any) -> str:
    return f"differ {line['more_than_one']:7} of {line['pixels']:8} greatest {line['greatest']:3} rms {line['rms']:.2f}"


def main() -> None:
    with open(sys.argv[1]) as report:
        lines = [json.loads(line) for line in report]
    steady = [line for line in lines if line["same_shape"] and line["agg_repeats"]]
    print(f"{len(lines)} figures, {len(steady)} that Agg draws twice the same")
    print(f"equal bytes: {sum(not line['differ'] for line in steady)}")
    print(f"differ by 1 at most: {sum(0 < line['greatest'] <= 1 for line in steady)}")
    for limit in (0.5, 1, 2, 5, 10):
        print(f"root mean square below {limit}: {sum(line['rms'] < limit for line in steady)}")
    print("flat areas that differ by more than 1:")
    for line in sorted(steady, key=lambda line: int(line["flat"]), reverse=True):
        if line["flat"]:
            print(f"  {line['baseline']:45} flat {line['flat']:6} {summed(line)}")
    print("the largest by root mean square:")
    for line in sorted(steady, key=lambda line: float(line["rms"]), reverse=True)[:25]:
        print(f"  {line['baseline']:45} {summed(line)}")


if __name__ == "__main__":
    main()
