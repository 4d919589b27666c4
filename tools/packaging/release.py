"""Adds the sources to the packages of dist/, and writes a table of all of them and their SHA-256 checksums.

    python3 -m tools.packaging.release

`make release` builds the packages first. The sources are those of the last commit. It needs git. FILES.md says what
each file is for, and SHA256SUMS has the form that `sha256sum -c` reads.
"""

from __future__ import annotations

import gzip
import hashlib
import os
import subprocess
import sys

from tools import places
from tools.packaging import archives, npm, recipes, wheel
from tools.packaging.common import DIST, SUMS, release
from tools.places import TOP

# What make conformance-windows leaves in dist/. Its name has no release.
CONFORMANCE = "trirast-conformance-windows.zip"
TABLE = "FILES.md"
PLATFORMS = {
    "linux-x86_64": "Linux, x86-64", "linux-arm64": "Linux, ARM64", "linux-riscv64": "Linux, RISC-V",
    "windows-x86_64": "Windows, x86-64", "windows-arm64": "Windows, ARM64",
    "macos-x86_64": "macOS, x86-64", "macos-arm64": "macOS, ARM64",
}
DEBIAN = {
    "trirast": "the programs", "libtrirast2": "the shared library", "libtrirast-dev": "headers and static library"
}


def put_sources() -> None:
    """Writes the files of the last commit as an archive, without the time at which this is done."""
    name = f"trirast-{release()}"
    command = ["git", "-C", TOP, "archive", "--format=tar", f"--prefix={name}/", "HEAD"]
    archive = subprocess.run(command, check=True, stdout=subprocess.PIPE).stdout
    with open(os.path.join(DIST, f"{name}.tar.gz"), "wb") as file:
        file.write(gzip.compress(archive, 9, mtime=0))


def digest(name: str) -> str:
    return hashlib.sha256(places.bytes_of(DIST, name)).hexdigest()


def checksums() -> str:
    names = sorted(name for name in os.listdir(DIST) if name != SUMS)
    return "".join(f"{digest(name)}  {name}\n" for name in names)


def purpose(name: str) -> str:
    """What a file of a release is for. Raises `ValueError` if nothing is known of it."""
    found = {os.path.basename(archives.path_of(key)): f"C and C++ on {it}" for key, it in PLATFORMS.items()}
    found.update({os.path.basename(wheel.path_of(key)): f"Python on {it}" for key, it in PLATFORMS.items()})
    found.update({
        os.path.basename(npm.path_of()): "JavaScript, by npm", f"trirast-{release()}.tar.gz": "the sources",
        os.path.basename(recipes.path_of()): "recipes for vcpkg, Conan, conda and Homebrew",
        CONFORMANCE: "tests of Direct3D and Vulkan on Windows",
    })
    if name.endswith(".deb"):
        return f"Debian 12 on x86-64: {DEBIAN[name.partition('_')[0]]}"
    if name not in found:
        raise ValueError(f"{name}: expected a file of release {release()}, got another")
    return found[name]


def table() -> str:
    """The page of all files with what they are for, their sizes and their checksums."""
    names = sorted(name for name in os.listdir(DIST) if name not in (SUMS, TABLE))
    sizes = {name: f"{os.path.getsize(os.path.join(DIST, name)):,}" for name in names}
    rows = (f"| `{name}` | {purpose(name)} | {size} | `{digest(name)}` |\n" for name, size in sizes.items())
    head = "| File | For | Bytes | SHA-256 |\n|---|---|--:|---|\n"
    return f"# Files of trirast {release()}\n\n{head}{''.join(rows)}"


def main() -> int:
    os.makedirs(DIST, exist_ok=True)
    others = [name for name in os.listdir(DIST) if name not in (SUMS, TABLE, CONFORMANCE) and release() not in name]
    if others:
        print(f"dist/ has files of another release: {', '.join(sorted(others))}", file=sys.stderr)
        return 1
    put_sources()
    places.write_text(os.path.join(DIST, TABLE), table())
    text = checksums()
    with open(os.path.join(DIST, SUMS), "w", encoding="ascii") as file:
        file.write(text)
    print(text, end="", flush=True)
    return 0


if __name__ == "__main__":
    sys.exit(main())
