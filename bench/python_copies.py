"""Times what the Python package's copies of arrays cost beside drawing: a batch of 100,000 triangles on
1920 by 1080 pixels.

    PYTHONPATH=python/src python3 -m bench.python_copies [--runs 15]

It needs the library (make library) and numpy. The median of processor times, in milliseconds, on one thread.
"""

from __future__ import annotations

import argparse
import statistics
import time
from typing import Any, Callable

import numpy as np
import trirast

WIDTH, HEIGHT = 1920, 1080
TRIANGLES = 100_000
# The vertices of a grid with as many triangles.
COLUMNS, ROWS = 317, 160


def of_positions(positions: Any) -> Any:
    """Rows of vertices at positions in pixels, each in a colour of its own."""
    found = np.zeros((len(positions), 7), np.int32)
    found[:, :2] = trirast.snap(positions)
    found[:, 3:6] = np.random.default_rng(2).integers(0, 256, (len(positions), 3))
    found[:, 6] = 255
    return found


def forms(rows: Any) -> dict[str, dict[str, Any]]:
    """The same vertices in several forms: as records, as rows, and as positions and colours."""
    records = np.zeros(len(rows), trirast.VERTEX)
    for (name, _kind), values in zip(trirast.VERTEX, rows.T):
        records[name] = values
    return {
        "records": {"vertices": records},
        "rows of int32": {"vertices": rows},
        "rows of int64": {"vertices": rows.astype(np.int64)},
        "xy of int32, colors of uint8": {"vertices": rows[:, :2].copy(), "colors": rows[:, 3:].astype(np.uint8)},
    }


def mesh() -> tuple[Any, Any]:
    """Triangles that share vertices."""
    x, y = np.meshgrid(np.linspace(0, WIDTH, COLUMNS), np.linspace(0, HEIGHT, ROWS))
    index = np.arange(COLUMNS * ROWS, dtype=np.uint32).reshape(ROWS, COLUMNS)
    a, b, c, d = index[:-1, :-1], index[:-1, 1:], index[1:, 1:], index[1:, :-1]
    halves = [np.stack(corners, -1).reshape(-1, 3) for corners in ((a, b, c), (a, c, d))]
    return of_positions(np.stack((x.ravel(), y.ravel()), -1)), np.concatenate(halves)[:TRIANGLES]


def loose() -> tuple[Any, Any]:
    """Triangles of some pixels that share no vertex."""
    random = np.random.default_rng(1)
    centres = random.uniform((0, 0), (WIDTH, HEIGHT), (TRIANGLES, 2))
    corners = centres[:, None] + random.uniform(-5, 5, (TRIANGLES, 3, 2))
    return of_positions(corners.reshape(-1, 2)), np.arange(3 * TRIANGLES, dtype=np.uint32).reshape(-1, 3)


def milliseconds(call: Callable[[], Any], runs: int) -> float:
    times = []
    for _ in range(runs + 1):
        begin = time.process_time()
        call()
        times.append(1000 * (time.process_time() - begin))
    return statistics.median(times[1:])


def main() -> None:
    parser = argparse.ArgumentParser(description="Times the copies of arrays beside drawing.")
    parser.add_argument("--runs", type=int, default=15)
    runs = parser.parse_args().runs
    canvas = trirast.Canvas(WIDTH, HEIGHT, samples=4)
    canvas.clear()
    for name, (vertices, triangles) in (("mesh", mesh()), ("loose", loose())):
        for kind, given in forms(vertices).items():
            copies = milliseconds(lambda: trirast.Draw(**given, triangles=triangles), runs)
            draws = milliseconds(
                lambda: canvas.draw(**given, triangles=triangles, depth_test="less", depth_write=True), runs
            )
            print(
                f"{name:6} {kind:29}  copies {copies:7.2f}  draws {draws:7.2f}  share {100 * copies / draws:5.1f} %",
                flush=True,
            )


if __name__ == "__main__":
    main()
