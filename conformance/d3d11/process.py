"""rasterize.exe as a process: on Windows by itself, elsewhere under Wine, on a display of its own."""

from __future__ import annotations

import getpass
import os
import shlex
import shutil
import subprocess
import tempfile
from typing import Mapping, Sequence

from tools.places import TOP

EXE = os.path.join(TOP, "conformance", "out", "rasterize.exe")
# Wine keeps a link to the root of the file system in its folder, which does not belong below the repository.
WINE_FOLDER = os.path.join(tempfile.gettempdir(), f"trirast-wine-{getpass.getuser()}")
# -a takes a display that is free. Debian's `wine` starts the 64-bit program.
WINE = ("xvfb-run", "-a", "wine")
ENVIRONMENT = {
    "WINEPREFIX": WINE_FOLDER, "WINEDEBUG": "-all", "LIBGL_ALWAYS_SOFTWARE": "1", "WINEDLLOVERRIDES": "mscoree,mshtml="
}
MAX_SECONDS = 600


class CannotRun(Exception):
    """rasterize.exe could not be run, or ended without its answers."""


def command(exe: str, device: str, by: str | None) -> list[str]:
    """The command that runs the program. Raises `CannotRun` with what is missing of Wine."""
    starter = shlex.split(by) if by is not None else [] if os.name == "nt" else list(WINE)
    for name in (word for word in (starter[:1] + starter[-1:]) if shutil.which(word) is None):
        raise CannotRun(f"there is no command {name}: install wine, wine64, xvfb, xauth and libgl1-mesa-dri")
    if not os.path.isfile(exe):
        raise CannotRun(f"there is no program at {exe}; run make {os.path.relpath(exe, TOP)} first")
    return [*starter, exe, "--device", device]


def environment() -> dict[str, str]:
    """This process's own, with what Wine needs in place of what is not set."""
    os.makedirs(WINE_FOLDER, exist_ok=True)
    return {**ENVIRONMENT, **os.environ}


def draw(requests: bytes, arguments: Sequence[str]) -> bytes:
    """The stream of answers to a stream of requests. Raises `CannotRun` with the program's line."""
    return ran(arguments, requests, environment())


def ran(arguments: Sequence[str], requests: bytes = b"", given: Mapping[str, str] | None = None) -> bytes:
    """What a program writes to standard output, in this environment or in this process's own. Raises
    `CannotRun` with its line."""
    try:
        run = subprocess.run(arguments, input=requests, capture_output=True, timeout=MAX_SECONDS, env=given)
    except (OSError, subprocess.TimeoutExpired) as error:
        raise CannotRun(str(error)) from None
    if run.returncode != 0:
        lines = run.stderr.decode(errors="replace").strip().splitlines()
        said = (
            [line for line in lines if line.startswith(("rasterize: ", "usage: "))] or lines[-1:]
            or ["it wrote no line"]
        )
        raise CannotRun(f"{os.path.basename(arguments[0])} ended with status {run.returncode}: {said[-1]}")
    return run.stdout
