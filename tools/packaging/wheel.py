"""Builds wheels of the Python package with the library inside, in dist/: one for each platform.

    python3 -m tools.packaging.wheel [PLATFORM ..]

Without a platform, builds those for which the library is there. `make wheel` builds the libraries first. setuptools
builds a wheel of a copy of python/ in which the library lies, by what python/pyproject.toml says. Two runs over the
same files give the same bytes. It needs readelf, and setuptools and wheel (Debian's python3-setuptools and
python3-wheel) of the Python that runs it or of /usr/bin/python3.
"""

from __future__ import annotations

import argparse
import glob
import os
import re
import shutil
import sys
from dataclasses import dataclass
from functools import partial

from tests.library.commands import python_with
from tools.packaging.common import (
    DIST, OUT, PROGRAM_MODE, files_below, make_anew, put, release, release_time, run, write
)
from tools.packaging.platforms import BUILT
from tools.places import LEVEL, LIB, PYTHON_SOURCES, TOP

SHARED, DLL, DYLIB = "libtrirast.so.2", "trirast.dll", "libtrirast.dylib"
# The folder of the library in the package, and what Python loads there on a processor with levels: `make library` makes
# it. It holds nothing, and the loader takes the library that it needs from the folder itself or from the one of the
# processor's level.
FOLDER, LOADED = "lib", "load.so"
LICENSES = ("LICENSE", "LICENSE-MIT", "LICENSE-APACHE")
# Its code is in Python, and its library for one processor.
SETUP = """\
from setuptools import Distribution, setup
from wheel.bdist_wheel import bdist_wheel


class Package(Distribution):
    def has_ext_modules(self):
        return True


class Wheel(bdist_wheel):
    def get_tag(self):
        return "py3", "none", "{machines}"


setup(distclass=Package, cmdclass={{"bdist_wheel": Wheel}})
"""
# What pip calls (PEP 517). It prints what it does.
BUILD = "import sys, setuptools.build_meta as made_by; made_by.build_wheel(sys.argv[1])"


@dataclass(frozen=True)
class Target:
    """What a wheel has for a platform."""

    # The machines on which it runs, by each of their names.
    tags: tuple[str, ...]
    # The library's files by their names below the package's folder `lib`.
    libraries: dict[str, str]
    # The oldest glibc on which it runs.
    glibc: tuple[int, int] | None = None

    def is_built(self) -> bool:
        return all(map(os.path.exists, self.libraries.values()))


def on_linux(processor: str, glibc: tuple[int, int], libraries: dict[str, str], *older_tags: str) -> Target:
    tags = (f"manylinux_{glibc[0]}_{glibc[1]}_{processor}", *older_tags)
    return Target(tags, libraries, glibc)


def built(platform: str, name: str) -> dict[str, str]:
    """The one library that `make platforms` leaves for a platform."""
    return {name: os.path.join(BUILT, platform, name)}


library = partial(os.path.join, LIB)
TARGETS = {
    "linux-x86_64": on_linux("x86_64", (2, 17), {
        SHARED: library(SHARED), f"glibc-hwcaps/{LEVEL}/{SHARED}": library(LEVEL, SHARED), LOADED: library(LOADED)
    }, "manylinux2014_x86_64"),
    "linux-arm64": on_linux("aarch64", (2, 17), {
        SHARED: library("aarch64", SHARED), LOADED: library("aarch64", LOADED)
    }, "manylinux2014_aarch64"),
    # The first glibc for this processor.
    "linux-riscv64": on_linux("riscv64", (2, 27), built("linux-riscv64", SHARED)),
    "windows-x86_64": Target(("win_amd64",), built("windows-x86_64", DLL)),
    "windows-arm64": Target(("win_arm64",), built("windows-arm64", DLL)),
    "macos-x86_64": Target(("macosx_11_0_x86_64",), built("macos-x86_64", DYLIB)),
    "macos-arm64": Target(("macosx_11_0_arm64",), built("macos-arm64", DYLIB)),
}


def path_of(platform: str, version: str = "") -> str:
    """Where the wheel of a platform goes."""
    return os.path.join(DIST, f"trirast-{version or release()}-py3-none-{'.'.join(TARGETS[platform].tags)}.whl")


def check_glibc(path: str, oldest: tuple[int, int]) -> None:
    """Ends the run if a library needs a later glibc than the wheel's name says."""
    versions = re.findall(r"GLIBC_(\d+)\.(\d+)", run(["readelf", "-W", "--version-info", path]))
    later = sorted({(int(first), int(second)) for first, second in versions if (int(first), int(second)) > oldest})
    if later:
        raise SystemExit(f"{path} needs glibc {later[-1]}")


def make_copy(platform: str) -> str:
    """Makes a copy of the folder python/ with the library in the package, and the licences. Returns its path."""
    copy = make_anew(os.path.join(OUT, f"wheel-{platform}"))
    package, target = os.path.join("src", "trirast"), TARGETS[platform]
    for name in files_below(os.path.join(PYTHON_SOURCES, "trirast")):
        if name.endswith((".py", ".html", "py.typed")):
            put(os.path.join(PYTHON_SOURCES, "trirast", name), os.path.join(copy, package, name))
    for name, path in target.libraries.items():
        if target.glibc:
            check_glibc(path, target.glibc)
        # The file itself, where a name of the library is a link.
        put(os.path.realpath(path), os.path.join(copy, package, FOLDER, name), PROGRAM_MODE)
    for name in ("pyproject.toml", "README.md"):
        put(os.path.join(TOP, "python", name), os.path.join(copy, name))
    for name in LICENSES:
        put(os.path.join(TOP, name), os.path.join(copy, name))
    write(os.path.join(copy, "MANIFEST.in"), f"recursive-include {package}/{FOLDER} *\n".encode())
    write(os.path.join(copy, "setup.py"), SETUP.format(machines=".".join(target.tags)).encode())
    return copy


def build(platform: str) -> str:
    """Builds the wheel of a platform. Returns its path."""
    os.makedirs(DIST, exist_ok=True)
    for older in glob.glob(path_of(platform, "*")):
        os.remove(older)
    copy = make_copy(platform)
    environment = {**os.environ, "SOURCE_DATE_EPOCH": str(release_time()), "PYTHONDONTWRITEBYTECODE": "1"}
    run([python_with("setuptools", "wheel"), "-W", "ignore", "-c", BUILD, DIST], cwd=copy, env=environment, umask=0o022)
    shutil.rmtree(copy)
    return path_of(platform)


def main() -> int:
    parser = argparse.ArgumentParser(description="Builds wheels of the Python package with the library inside.")
    parser.add_argument("platforms", nargs="*", metavar="PLATFORM", help=f"{', '.join(TARGETS)} (default: all built)")
    given = parser.parse_args().platforms
    if unknown := sorted(set(given) - TARGETS.keys()):
        parser.error(f"PLATFORM: expected one of {', '.join(TARGETS)}, got {unknown[0]}")
    for platform in given or [name for name, target in TARGETS.items() if target.is_built()]:
        print(os.path.relpath(build(platform), TOP), flush=True)
    return 0


if __name__ == "__main__":
    sys.exit(main())
