"""Posters of the least windows and of large ones: their own memory stays below what docs/posters.md says.

    PYTHONPATH=python/src python3 -m tests.posters.memory --folder FOLDER
"""

from __future__ import annotations

import json
import os
import subprocess
import sys
import time
from typing import Iterator

from tests.cases import Case, case, must
from tests.posters.common import Options

# A blank poster of this side, and megabytes that are enough for it with each window's side.
SIDE = 8000
LEAST, LARGEST = 64, 4096
ENOUGH = {LEAST: 150, 512: 150, LARGEST: 450}
SECONDS = 600


def own_memory(process: int) -> int:
    """The bytes of a process that are no file's, as /proc says."""
    try:
        with open(f"/proc/{process}/status", encoding="ascii") as file:
            found = [line for line in file if line.startswith("RssAnon:")]
    except OSError:
        return 0
    return 1024 * int(found[0].split()[1]) if found else 0


def check_memory(folder: str, window: int) -> str:
    """A poster of these windows takes no more of its own memory than is enough."""
    path = os.path.join(folder, "memory.json")
    with open(path, "w", encoding="utf-8") as file:
        json.dump({"width": SIDE, "height": SIDE, "draws": []}, file)
    command = [sys.executable, "-m", "trirast.poster", path, "-o", os.path.join(folder, "memory.ppm"), "--workers", "2"]
    child = subprocess.Popen([*command, "--window", str(window)], stderr=subprocess.PIPE)
    most, end = 0, time.monotonic() + SECONDS
    while child.poll() is None and time.monotonic() < end:
        most = max(most, own_memory(child.pid))
        time.sleep(0.005)
    child.kill()
    _, errors = child.communicate()
    must(child.returncode == 0, f"status {child.returncode}: {errors.decode()[-300:]}")
    must(most < 1_000_000 * ENOUGH[window], f"{most // 1_000_000} MB, and {ENOUGH[window]} were enough")
    return f"{most // 1_000_000} MB"


def check_least(folder: str) -> None:
    """Smaller windows are refused with a line."""
    path = os.path.join(folder, "memory.json")
    command = [sys.executable, "-m", "trirast.poster", path, "-o", os.path.join(folder, "memory.ppm"), "--window"]
    for window in (2, LEAST - 1, LARGEST + 1):
        done = subprocess.run([*command, str(window)], capture_output=True, timeout=SECONDS)
        must(done.returncode == 1 and done.stderr.count(b"\n") == 1, f"status {done.returncode}: {done.stderr!r}")


def cases(options: Options) -> Iterator[Case]:
    for window in ENOUGH:
        yield case(f"memory of windows of {window} pixels", check_memory, options.folder, window)
    yield case("windows that are smaller or larger", check_least, options.folder)
