"""Times a poster: the drawing alone by 1, 2 and 4 threads, and the whole command with its memory, by
threads and by Dask.

    PYTHONPATH=python/src python3 -m bench.posters MAP.npz [--window 512] [--runs 1]

It prints a line for each run: seconds, processor seconds, the load of the machine before, and the most memory of
its own (RssAnon, so without mapped files) that the process and each of its workers had. Dask's runs are left out if
it is not installed.
"""

from __future__ import annotations

import argparse
import contextlib
import importlib.util
import os
import resource
import subprocess
import sys
import tempfile
import threading
import time
from typing import Dict

from trirast import poster
from trirast.poster._index import Index
from trirast.poster._strips import cut_to_windows
from trirast.poster._threads import rows_by_threads
from trirast.poster._windows import Windows

from tools.processes import descendants

THREADS = (1, 2, 4)
EVERY = 0.02
MEGABYTE = 1000


def own_memory(process: int) -> int:
    """The memory of a process without mapped files, in kB; 0 if there is no such process."""
    with contextlib.suppress(OSError):
        with open(f"/proc/{process}/status", encoding="ascii", errors="replace") as file:
            for line in file:
                if line.startswith("RssAnon"):
                    return int(line.split()[1])
    return 0


class Memory:
    """The most memory that a process and its descendants had, while it runs."""

    def __init__(self, process: int) -> None:
        self._process = process
        self.most: Dict[int, int] = {}
        self._is_done = threading.Event()
        self._thread = threading.Thread(target=self._look, daemon=True)
        self._thread.start()

    def _look(self) -> None:
        while not self._is_done.wait(EVERY):
            for each in (self._process, *descendants(self._process)):
                self.most[each] = max(self.most.get(each, 0), own_memory(each))

    def __str__(self) -> str:
        self._is_done.set()
        self._thread.join()
        own = self.most.pop(self._process, 0) // MEGABYTE
        return f"own memory {own} MB" + (
            f", of a worker at most {max(self.most.values()) // MEGABYTE} MB" if self.most else ""
        )


def processor_seconds(who: int) -> float:
    used = resource.getrusage(who)
    return used.ru_utime + used.ru_stime


def time_drawing(path: str, window: int, threads: int) -> None:
    """Draws all windows, and writes nothing."""
    load = os.getloadavg()[0]
    scene = poster.scene_of(path)
    windows = Windows(scene.sheet, window)
    begun, used = time.perf_counter(), processor_seconds(resource.RUSAGE_SELF)
    scene = cut_to_windows(scene, windows, threads)
    index = Index.of(scene, windows, threads)
    indexed = time.perf_counter()
    for _ in rows_by_threads(scene, index, windows, 0, threads, lambda span: None):
        pass
    ended = time.perf_counter()
    print(
        f"drawing by {threads} threads: {ended - begun:.2f} s, of these the index {indexed - begun:.2f} s, "
        f"processor {processor_seconds(resource.RUSAGE_SELF) - used:.1f} s, load {load:.1f}",
        flush=True,
    )


def time_command(path: str, name: str, *more: str) -> None:
    """Runs the command."""
    load = os.getloadavg()[0]
    with tempfile.TemporaryDirectory(dir=os.environ.get("TMPDIR")) as folder:
        begun, used = time.perf_counter(), processor_seconds(resource.RUSAGE_CHILDREN)
        words = [each.replace("OUT", os.path.join(folder, "out")) for each in more]
        with subprocess.Popen([sys.executable, "-m", "trirast.poster", path, *words]) as child:
            memory = Memory(child.pid)
            status = child.wait()
        seconds = time.perf_counter() - begun
    used = processor_seconds(resource.RUSAGE_CHILDREN) - used
    print(f"{name}: status {status}, {seconds:.2f} s, processor {used:.1f} s, load {load:.1f}; {memory}", flush=True)


def main() -> None:
    parser = argparse.ArgumentParser(description="Times a poster.")
    parser.add_argument("map", metavar="MAP.npz")
    parser.add_argument("--window", type=int, default=512)
    parser.add_argument("--runs", type=int, default=1)
    options = parser.parse_args()
    side = ["--window", str(options.window)]
    for _ in range(options.runs):
        for threads in THREADS:
            time_drawing(options.map, options.window, threads)
        for kind in ("ppm", "png"):
            time_command(options.map, f"command, {kind}, 4 threads", *side, "-o", f"OUT.{kind}", "--workers", "4")
        time_command(options.map, "command, tiles, 4 threads", *side, "--tiles", "OUT", "--workers", "4")
        if importlib.util.find_spec("distributed"):
            time_command(
                options.map, "command, ppm, Dask, 4 processes", *side, "-o", "OUT.ppm", "--workers", "4", "--scheduler",
                "local",
            )


if __name__ == "__main__":
    main()
