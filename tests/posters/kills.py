"""Runs that are killed at any moment, once or twice: each --resume ends well, with the bytes of a run
that was not stopped.

    PYTHONPATH=python/src python3 -m tests.posters.kills --folder FOLDER [--rounds 4]

Only processes that these checks started are ended, each by its number.
"""

from __future__ import annotations

import contextlib
import os
import random
import shutil
import signal
import subprocess
import sys
import time
from typing import Any, Dict, Iterator, List, Optional, Tuple

from trirast import poster

from tests.cases import Case, case, must
from tests.posters.common import Options, content, folder_files
from tests.posters.stopped import SECONDS, write_scene

WINDOW = 64
# Each kind of output, by the names below a folder to which it goes: a file, a folder of tiles, or both.
Kind = Tuple[Optional[str], Optional[str]]
KINDS: Tuple[Kind, ...] = (
    ("a.ppm", None), ("a.pgm", None), ("a.png", None), (None, "tiles"), ("a.ppm", "tiles"), ("a.png", "tiles"),
)
# Of four rounds one kills a run as it gives its files their names.
LATE = 4


class Kills:
    """Runs of one kind of output, below a folder of their own."""

    SIDE, TRIANGLES = 1500, 10_000

    def __init__(self, folder: str, kind: Kind) -> None:
        out, tiles = kind
        self.folder = os.path.join(folder, "kills", "-".join(filter(None, kind)))
        shutil.rmtree(self.folder, ignore_errors=True)
        os.makedirs(self.folder)
        scene = os.path.join(self.folder, "scene.npz")
        write_scene(scene, side=self.SIDE, triangles=self.TRIANGLES)
        if out and out.endswith(".pgm"):
            self.of_depths(scene)
        self.to = os.path.join(self.folder, "to")
        names = [
            word
            for option, name in (("-o", out), ("--tiles", tiles)) if name
            for word in (option, os.path.join(self.to, name))
        ]
        self.command = [
            sys.executable, "-m", "trirast.poster", scene, "--window", str(WINDOW), "--workers", "2", *names
        ]
        self.journal = f"{os.path.join(self.to, out or tiles or '')}.resume"
        self.pick = random.Random(f"kills {kind}")
        self.stages: Dict[str, int] = {}
        self.make_anew()
        begun = time.monotonic()
        child = self.start()
        self.wait_for(self.journal, child)
        drawing = time.monotonic()
        must(child.wait(SECONDS) == 0, "a run failed")
        self.seconds, self.drawing, self.wanted = (
            time.monotonic() - begun, time.monotonic() - drawing, folder_files(self.to)
        )

    def of_depths(self, path: str) -> None:
        """Makes of a file of arrays one that shows depths."""
        scene = poster.scene_of(path)
        value: Dict[str, Any] = {"width": self.SIDE, "height": self.SIDE, "output": "depth", "samples": 4}
        value["draws"] = [{**draw.state, "depth_write": True, "triangles": draw.triangles} for draw in scene.draws]
        poster.save_arrays(path, scene.vertices, scene.triangles, value)

    def make_anew(self) -> None:
        shutil.rmtree(self.to, ignore_errors=True)
        os.makedirs(self.to)

    def resume(self) -> None:
        done = subprocess.run(
            [*self.command, "--resume"], stdout=subprocess.DEVNULL, stderr=subprocess.PIPE, timeout=SECONDS
        )
        must(done.returncode == 0, f"status {done.returncode}: {done.stderr.decode()[-400:]}")

    def start(self, *words: str) -> subprocess.Popen[bytes]:
        return subprocess.Popen([*self.command, *words], stdout=subprocess.DEVNULL, stderr=subprocess.DEVNULL)

    def wait_for(self, path: str, child: subprocess.Popen[bytes], text: bytes = b"") -> None:
        """Waits until a file is there and has a text, or a run ends."""
        end = time.monotonic() + SECONDS
        while child.poll() is None and time.monotonic() < end:
            with contextlib.suppress(FileNotFoundError):
                if text in content(path):
                    return

    def let_run(self, child: subprocess.Popen[bytes], seconds: float) -> None:
        """Waits for some time. On a machine that was busy when a whole run was timed the run may end before."""
        with contextlib.suppress(subprocess.TimeoutExpired):
            child.wait(seconds)

    def kill(self, is_late: bool, *words: str) -> None:
        """Starts a run, and kills it: at any time, most often as it draws; or as it gives its files their names."""
        child = self.start(*words)
        try:
            if is_late:
                self.wait_for(self.journal, child, b'"whole"')
            elif self.pick.random() < 0.2:
                self.let_run(child, self.pick.random() * self.seconds)
            else:
                self.wait_for(self.journal, child)
                self.let_run(child, self.pick.random() * 1.2 * self.drawing)
        finally:
            child.kill()
            child.wait()
        self.count(child.returncode)

    def count(self, status: int) -> None:
        """Counts how far a killed run had come."""
        there = sorted(os.listdir(self.to))
        if status != -signal.SIGKILL:
            stage = "ended"
        elif not there:
            stage = "nothing"
        elif all("." in name and name.rsplit(".", 1)[1] in ("part", "resume") for name in there):
            stage = "parts"
        else:
            stage = "named"
        self.stages[stage] = self.stages.get(stage, 0) + 1

    def round(self, number: int) -> None:
        self.make_anew()
        self.kill(number % LATE == LATE - 1)
        if self.pick.random() < 0.5:
            self.kill(self.pick.random() < 0.2, "--resume")
        self.resume()
        found = folder_files(self.to)
        names: List[str] = sorted(found.keys() ^ self.wanted.keys())
        must(found == self.wanted, f"round {number}: other files {names[:5]}, or bytes")


def check_kills(options: Options, kind: Kind) -> str:
    kills = Kills(options.folder, kind)
    for each in range(options.rounds):
        kills.round(each)
    shutil.rmtree(kills.folder)
    return (
        f"{options.rounds} rounds; killed with "
        f"{', '.join(f'{stage}: {count}' for stage, count in sorted(kills.stages.items()))}"
    )


def cases(options: Options) -> Iterator[Case]:
    for out, tiles in KINDS:
        name = " and ".join(filter(None, (out and os.path.splitext(out)[1][1:], tiles)))
        yield case(f"runs killed at any moment, {name}", check_kills, options, (out, tiles))
