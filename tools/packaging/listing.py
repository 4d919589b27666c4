"""Writes the lists of the packages' files into packaging/FILES.md.

    python3 -m tools.packaging.listing

It reads the packages of dist/, which `make deb wheel npm` builds. `make check-packages` compares the lists with them.
"""

from __future__ import annotations

import glob
import os
import re
import subprocess
import sys
import tarfile
import zipfile
from io import BytesIO
from typing import Iterable

from tools import places
from tools.packaging import npm, wheel
from tools.packaging.common import DIST
from tools.places import TOP

PAGE = os.path.join(TOP, "packaging", "FILES.md")
DEBIAN_TITLE, WHEELS_TITLE, NPM_TITLE = "The Debian packages", "Every wheel", "The npm package"
# The folder in a wheel where its library is, which alone differs from platform to platform.
LIBRARY = f"trirast/{wheel.FOLDER}/"


def wheel_title(platform: str) -> str:
    return f"The library in the wheel for {platform}"


def wheel_files(platform: str) -> dict[str, int]:
    """The files of a wheel with their sizes in bytes."""
    with zipfile.ZipFile(wheel.path_of(platform)) as file:
        return {member.filename: member.file_size for member in file.infolist()}


def wheel_lists(platform: str) -> dict[str, list[str]]:
    """The lists of a wheel's files by their titles."""
    files = wheel_files(platform)
    libraries = [name for name in files if name.startswith(LIBRARY)]
    return {wheel_title(platform): libraries, WHEELS_TITLE: sorted(files.keys() - set(libraries))}


def debian_files() -> dict[str, int]:
    """The files of all Debian packages with their sizes in bytes."""
    found = {}
    for path in sorted(glob.glob(os.path.join(DIST, "*.deb"))):
        archive = subprocess.run(["dpkg-deb", "--fsys-tarfile", path], check=True, stdout=subprocess.PIPE).stdout
        with tarfile.open(fileobj=BytesIO(archive)) as file:
            found.update({member.name.lstrip("."): member.size for member in file.getmembers() if not member.isdir()})
    return found


def bullets(files: Iterable[str]) -> str:
    return "".join(f"- `{name}`\n" for name in sorted(files))


def part_of(page: str, title: str) -> str:
    """What stands below a title, up to the next. Raises `ValueError` if there is no such title."""
    found = re.search(rf"(?<=^## {title}\n\n).*?(?=\n#|\Z)", page, re.MULTILINE | re.DOTALL)
    if found is None:
        raise ValueError(f"packaging/FILES.md has no list {title}")
    return found[0]


def listed(title: str) -> list[str]:
    """The files that packaging/FILES.md lists below a title, sorted by name."""
    return re.findall(r"^- `(.*)`$", part_of(places.text_of(PAGE), title), re.MULTILINE)


def main() -> int:
    page = places.text_of(PAGE)
    lists: dict[str, Iterable[str]] = {DEBIAN_TITLE: debian_files()}
    for name in wheel.TARGETS:
        if os.path.exists(wheel.path_of(name)):
            lists.update(wheel_lists(name))
    if os.path.exists(npm.MODULE):
        lists[NPM_TITLE] = npm.contents()
    for title, files in lists.items():
        page = page.replace(f"## {title}\n\n{part_of(page, title)}", f"## {title}\n\n{bullets(files)}")
    with open(PAGE, "w", encoding="utf-8") as file:
        file.write(page)
    return 0


if __name__ == "__main__":
    sys.exit(main())
