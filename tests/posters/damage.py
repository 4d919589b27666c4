"""Runs whose files are damaged: what they end with is the picture of a run that was not stopped, or a line. They end
within seconds, and touch no other file.

    PYTHONPATH=python/src python3 -m tests.posters.damage --folder FOLDER [--kills 100] [--flips 10000]

A run of each kind of output is killed at any moment, its files are damaged, and it is resumed. And bits are flipped in
files of arrays, in journals and in parts of pictures, of runs in this process.
"""

from __future__ import annotations

import argparse
import importlib.util
import json
import os
import random
import shutil
import signal
import stat
import subprocess
import time
from collections import Counter
from contextlib import contextmanager
from typing import Any, Dict, Iterator, List, Optional
from unittest import mock

import numpy as np

import trirast
from trirast import poster
from trirast.poster import _poster
from trirast.poster._threads import rows_by_threads

from tests.cases import Case, case, must
from tests.posters.common import Options, content, folder_files
from tests.posters.kills import KINDS, LATE, Kills

# Seconds after which something hangs, and how many times those of a whole run are added on a machine that is busy.
PATIENCE, BUSY = 60, 10
# What a run may end with: all of these have a line.
ERRORS = (poster.PosterError, trirast.Error, OSError, MemoryError)
PRECIOUS = b"precious"
# The sheet of runs in this process.
SIDE, TRIANGLES, WINDOW = 300, 100, 64
TIFF = (("a.tif", None),) if importlib.util.find_spec("tifffile") else ()


class HangError(BaseException):
    """It did not end in time."""


@contextmanager
def patience(seconds: float) -> Iterator[None]:
    def give_up(*_: Any) -> None:
        raise HangError(f"it had not ended after {seconds} seconds")

    before = signal.signal(signal.SIGALRM, give_up)
    signal.setitimer(signal.ITIMER_REAL, seconds)
    try:
        yield
    finally:
        signal.setitimer(signal.ITIMER_REAL, 0)
        signal.signal(signal.SIGALRM, before)


def flipped(pick: random.Random, data: bytes) -> bytes:
    """A text with another bit, or with several."""
    found = bytearray(data)
    for _ in range(pick.choice((1, 1, 1, 1, 2, 8))):
        # Many are put where there is structure: at both ends.
        near = pick.randrange(min(len(found), 300))
        place = pick.choice((pick.randrange(len(found)), pick.randrange(len(found)), near, -1 - near))
        found[place] ^= 1 << pick.randrange(8)
    return bytes(found)


def listed(what: str, counts: Counter[str]) -> str:
    """How often each thing was seen, and how many they are."""
    return f"{sum(counts.values())} {what}; " + ", ".join(f"{name}: {count}" for name, count in sorted(counts.items()))


class Outside:
    """A file beside the runs, which none may touch."""

    def __init__(self, folder: str) -> None:
        self.path = os.path.join(folder, "precious")
        with open(self.path, "wb") as file:
            file.write(PRECIOUS)
        self._before = self._state()

    def _state(self) -> Any:
        found = os.lstat(self.path)
        return content(self.path), found.st_mode, found.st_mtime_ns

    def must_be_untouched(self) -> None:
        must(self._state() == self._before, "a file outside was touched")


# ---- Flipped bits


def a_scene(of_depths: bool) -> poster.Scene:
    pick = np.random.default_rng(1)
    middles = pick.integers(0, 256 * SIDE, (TRIANGLES, 1, 2))
    places = (middles + pick.integers(-20000, 20000, (TRIANGLES, 3, 2))).reshape(-1, 2)
    vertices = np.concatenate((places, pick.integers(0, 256, (3 * TRIANGLES, 5))), 1)
    draws = [
        {"triangles": TRIANGLES // 4, "blend": "over"},
        {"triangles": TRIANGLES - TRIANGLES // 4, "scissor": [3, 5, 290, 211], "depth_write": True},
    ]
    value = {"width": SIDE, "height": SIDE, "samples": 4, "output": "depth" if of_depths else "color", "draws": draws}
    return poster.scene_of_arrays(vertices, np.arange(3 * TRIANGLES).reshape(-1, 3), value)


class Flips:
    """What runs left that were stopped, of each kind of output and at several moments."""

    def __init__(self, folder: str) -> None:
        self.folder = os.path.join(folder, "flips")
        shutil.rmtree(self.folder, ignore_errors=True)
        os.makedirs(self.folder)
        self.outside = Outside(self.folder)
        self.pick = random.Random("flips")
        self.to = os.path.join(self.folder, "to")
        self.counts: Counter[str] = Counter()
        begun = time.monotonic()
        wanted = {kind: self.wanted(kind) for kind in (*KINDS, *TIFF)}
        self.patience = PATIENCE + BUSY * (time.monotonic() - begun) / len(wanted)
        self.left = [(kind, wanted[kind], left) for kind in wanted for left in self.stopped(kind)]

    def scene(self, kind: Any) -> poster.Scene:
        return a_scene(of_depths=kind[0] == "a.pgm")

    def draw(self, kind: Any, scene: Optional[poster.Scene] = None, **more: Any) -> None:
        out, tiles = (name and os.path.join(self.to, name) for name in kind)
        poster.draw_poster(scene or self.scene(kind), out, tiles=tiles, window=WINDOW, workers=1, **more)

    def make_anew(self, files: Optional[Dict[str, bytes]] = None) -> None:
        shutil.rmtree(self.to, ignore_errors=True)
        os.makedirs(self.to)
        for name, data in (files or {}).items():
            path = os.path.join(self.to, name)
            os.makedirs(os.path.dirname(path), exist_ok=True)
            with open(path, "wb") as file:
                file.write(data)

    def wanted(self, kind: Any) -> Dict[str, bytes]:
        self.make_anew()
        self.draw(kind)
        return folder_files(self.to)

    def stopped(self, kind: Any) -> Iterator[Dict[str, bytes]]:
        """The files of a run that was stopped after some rows, after all, and as it gave them their names."""
        def stopping(rows: Any) -> Iterator[Any]:
            for _ in range(3):
                yield next(rows)
            raise OSError("stopped")

        stop = OSError("stopped")
        patches: List[Any] = [
            mock.patch.object(_poster, "rows_by_threads", lambda *given: stopping(rows_by_threads(*given))),
            mock.patch.object(_poster, "finish", side_effect=stop), mock.patch("os.replace", side_effect=stop),
        ]
        for patch in patches:
            self.make_anew()
            try:
                with patch:
                    self.draw(kind)
            except OSError as error:
                must(error is stop or "stopped" in str(error), f"{error}")
            yield folder_files(self.to)

    def flip_left(self) -> None:
        """Flips bits of a file that a run left, and resumes it."""
        kind, wanted, left = self.pick.choice(self.left)
        name = self.pick.choice(sorted(name for name in left if ".part" in name or name.endswith(".resume")) or [""])
        if not name or not left[name]:
            return
        self.make_anew({**left, name: flipped(self.pick, left[name])})
        what = "journal" if name.endswith(".resume") else "tile or page" if "/" in name else f"part of {name[2:5]}"
        self.try_it(what, lambda: self.draw(kind, resume=True), lambda: folder_files(self.to) == wanted)

    def flip_arrays(self, files: List[bytes], wanted: bytes) -> None:
        """Flips bits of a file of arrays, and draws it."""
        kind, path = ("a.ppm", None), os.path.join(self.folder, "flipped.npz")
        with open(path, "wb") as file:
            file.write(flipped(self.pick, self.pick.choice(files)))
        self.make_anew()
        self.try_it(
            "arrays", lambda: self.draw(kind, poster.scene_of(path)),
            lambda: folder_files(self.to) == {"a.ppm": wanted},
        )

    def try_it(self, what: str, draw: Any, is_right: Any) -> None:
        """Draws, and looks at what came of it."""
        with patience(self.patience):
            try:
                draw()
            except ERRORS:
                self.counts[f"{what}: an error"] += 1
                return
        must(is_right(), f"{what}: another picture")
        self.counts[f"{what}: the picture"] += 1

    def array_files(self) -> List[bytes]:
        """The arrays of a scene, stored by this package, and stored and deflated by numpy."""
        scene, path = self.scene(("a.ppm", None)), os.path.join(self.folder, "scene.npz")
        draws = [{**draw.state, "triangles": draw.triangles} for draw in scene.draws]
        value = {"width": SIDE, "height": SIDE, "samples": 4, "draws": draws}
        poster.save_arrays(path, scene.vertices, scene.triangles, value)
        files = [content(path)]
        for save in (np.savez, np.savez_compressed):
            save(path, vertices=scene.vertices, triangles=scene.triangles, draws=np.array(json.dumps(value)))
            files.append(content(path))
        return files


def check_flips(options: Options) -> str:
    """Flips bits, of files of arrays and of what runs left."""
    flips = Flips(options.folder)
    files, wanted = flips.array_files(), flips.wanted(("a.ppm", None))["a.ppm"]
    for number in range(options.flips):
        if number % 3 == 0:
            flips.flip_arrays(files, wanted)
        else:
            flips.flip_left()
    flips.outside.must_be_untouched()
    shutil.rmtree(flips.folder)
    return listed("flips", flips.counts)


# ---- Runs that are killed and damaged


class DamagedKills(Kills):
    """Runs of one kind of output that are killed, and whose files are damaged then."""

    SIDE, TRIANGLES = 700, 3_000

    def __init__(self, folder: str, kind: Any) -> None:
        super().__init__(folder, kind)
        self.outside = Outside(self.folder)
        self.counts: Counter[str] = Counter()

    def parts(self) -> List[str]:
        """The files that a run left, without pictures that have their names."""
        found = []
        for place, _, names in os.walk(self.to):
            for name in names:
                path = os.path.join(place, name)
                if ".part" in path[len(self.to) :] or name.endswith(".resume"):
                    found.append(path)
        return sorted(found)

    def damage(self) -> str:
        """Damages a file in one of several ways. Returns how."""
        parts = self.parts()
        if not parts:
            return "nothing"
        path = self.pick.choice(parts)
        how = self.pick.choice(("flip", "flip", "cut", "blank", "longer", "removed", "link", "second name", "FIFO"))
        data = content(path)
        if how in ("removed", "link", "second name", "FIFO"):
            os.remove(path)
        if how == "link":
            os.symlink(self.outside.path, path)
        elif how == "second name":
            os.link(self.outside.path, path)
        elif how == "FIFO":
            os.mkfifo(path)
        elif how != "removed":
            self.write(path, self.changed(how, data))
        return how

    def changed(self, how: str, data: bytes) -> bytes:
        if how == "flip" and data:
            return flipped(self.pick, data)
        place = self.pick.randrange(len(data) + 1)
        if how == "longer":
            return data + self.pick.choice((bytes(1000), data[place:], os.urandom(1000)))
        if how == "cut":
            return data[:place]
        blank = bytes(min(self.pick.randrange(1000), len(data) - place))
        return data[:place] + blank + data[place + len(blank) :]

    def write(self, path: str, data: bytes) -> None:
        with open(path, "wb") as file:
            file.write(data)

    def round(self, number: int) -> None:
        self.make_anew()
        self.kill(number % LATE == LATE - 1)
        if self.pick.random() < 0.3:
            self.kill(False, "--resume")
        named = {name for name in os.listdir(self.to) if ".part" not in name and ".resume" not in name}
        how = self.damage()
        done = subprocess.run(
            [*self.command, "--resume"], stdout=subprocess.DEVNULL, stderr=subprocess.PIPE,
            timeout=PATIENCE + BUSY * self.seconds,
        )
        line = done.stderr.decode()
        must(done.returncode in (0, 1) and line.count("\n") == 1, f"{how}: status {done.returncode}: {line[-400:]}")
        if done.returncode == 0:
            must(self.regular_files() == self.wanted, f"{how}: another picture")
        else:
            now = {name for name in os.listdir(self.to) if ".part" not in name and ".resume" not in name}
            must(now == named, f"{how}: a name of a whole picture after {line}")
        self.counts[f"{how}: {'the picture' if done.returncode == 0 else line.split(':')[1].strip()}"] += 1
        self.outside.must_be_untouched()

    def regular_files(self) -> Dict[str, bytes]:
        """The files of a run, of which none may be a link or a FIFO."""
        for place, folders, names in os.walk(self.to):
            for name in (*folders, *names):
                mode = os.lstat(os.path.join(place, name)).st_mode
                must(stat.S_ISREG(mode) or stat.S_ISDIR(mode), f"{name} is no file")
        return folder_files(self.to)


def check_kills(options: Options) -> str:
    """Kills and damages runs of each kind of output in turns."""
    kinds = [DamagedKills(os.path.join(options.folder, "damage"), kind) for kind in (*KINDS, *TIFF)]
    for number in range(options.damaged):
        kinds[number % len(kinds)].round(number // len(kinds))
    counts: Counter[str] = sum((kills.counts for kills in kinds), Counter())
    shutil.rmtree(os.path.join(options.folder, "damage"))
    return listed("kills", counts)


def cases(options: Options) -> Iterator[Case]:
    yield case("flipped bits", check_flips, options)
    yield case("runs that are killed and damaged", check_kills, options)


def main() -> None:
    parser = argparse.ArgumentParser(description="Damages files of posters.")
    parser.add_argument("--folder", required=True)
    parser.add_argument("--kills", type=int, default=100)
    parser.add_argument("--flips", type=int, default=10_000)
    given = parser.parse_args()
    options = Options(given.folder, damaged=given.kills, flips=given.flips)
    for check in (check_kills, check_flips):
        begun = time.monotonic()
        print(f"{check(options)}; {time.monotonic() - begun:.0f} s", flush=True)


if __name__ == "__main__":
    main()
