"""Where packages are built, and what all of them share: the release, its time, and copies of files."""

from __future__ import annotations

import os
import shutil
import subprocess
from typing import Any, Sequence

from tools import places
from tools.places import TOP

DIST = os.path.join(TOP, "dist")
OUT = os.path.join(places.OUT, "packages")
# The SHA-256 checksums of a folder's files, in the form that `sha256sum -c` reads.
SUMS = "SHA256SUMS"
# Of a package's files: read by all, written by the owner.
FILE_MODE, PROGRAM_MODE = 0o644, 0o755


def release() -> str:
    """The version of program, library and packages, as 0.1.0: the one line of the file VERSION."""
    return places.text_of("VERSION").strip()


def release_time() -> int:
    """The seconds since 1970 that packages are dated with: SOURCE_DATE_EPOCH, else the last commit's,
    else VERSION's own."""
    given = os.environ.get("SOURCE_DATE_EPOCH")
    if given:
        return int(given)
    command = ["git", "-C", TOP, "log", "-1", "--format=%ct"]
    done = subprocess.run(command, stdout=subprocess.PIPE, stderr=subprocess.DEVNULL, text=True)
    return int(done.stdout) if done.returncode == 0 else int(os.path.getmtime(os.path.join(TOP, "VERSION")))


def run(command: Sequence[str], **more: Any) -> str:
    """Runs a command, and returns its standard output. Raises `CalledProcessError` if its status is not 0."""
    done = subprocess.run(command, check=True, stdout=subprocess.PIPE, text=True, **more)
    output: str = done.stdout
    return output


def make_anew(folder: str) -> str:
    """Makes an empty folder in the place of what is there. Returns its path."""
    shutil.rmtree(folder, ignore_errors=True)
    os.makedirs(folder)
    return folder


def put(source: str, target: str, mode: int = FILE_MODE) -> None:
    """Copies a file, or a symbolic link as one, and makes the folders above it."""
    os.makedirs(os.path.dirname(target), exist_ok=True)
    shutil.copyfile(source, target, follow_symlinks=False)
    if not os.path.islink(target):
        os.chmod(target, mode)


def write(path: str, data: bytes, mode: int = FILE_MODE) -> None:
    """Writes a file, and makes the folders above it."""
    os.makedirs(os.path.dirname(path), exist_ok=True)
    with open(path, "wb") as file:
        file.write(data)
    os.chmod(path, mode)


def files_below(folder: str) -> list[str]:
    """The files and symbolic links below a folder, sorted, named from there."""
    found = (os.path.join(path, name) for path, _, names in os.walk(folder) for name in names)
    return sorted(os.path.relpath(path, folder) for path in found)


def install(stage: str, *variables: str) -> None:
    """Runs make install into a folder that stands for the root of a system."""
    run(["make", "-s", "-C", TOP, "install", f"DESTDIR={stage}", *variables])
