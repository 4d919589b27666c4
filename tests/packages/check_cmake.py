"""CMake's find_package over an installation: both targets, versions that do and do not serve, and a
prefix that was moved."""

from __future__ import annotations

import os
import shutil
from typing import Iterator

from tests.cases import Case, CheckError, case, must
from tests.library.commands import make, need, run
from tests.packages.checking import OUT, clean_environment, picture_of_the_page, program_of_the_page
from tools.packaging.common import make_anew, release, write

PREFIX = os.path.join(OUT, "cmake-prefix")
PROJECT = """\
cmake_minimum_required(VERSION 3.16)
project(outside C)
find_package(trirast {version} REQUIRED)
add_executable(shared program.c)
target_link_libraries(shared PRIVATE trirast::trirast)
add_executable(static program.c)
target_link_libraries(static PRIVATE trirast::static)
"""


def configure(prefix: str, version: str) -> str:
    """Configures a project that asks for a version. Returns its build folder."""
    folder = make_anew(os.path.join(OUT, f"cmake-{version}"))
    write(os.path.join(folder, "CMakeLists.txt"), PROJECT.format(version=version).encode())
    write(os.path.join(folder, "program.c"), program_of_the_page().encode())
    build = os.path.join(folder, "build")
    run([need("cmake"), "-S", folder, "-B", build, f"-DCMAKE_PREFIX_PATH={prefix}"], env=clean_environment())
    return build


def check_programs(library_folder: str) -> None:
    """Programs over both targets draw the picture, from a prefix that was moved after the installation."""
    shutil.rmtree(PREFIX, ignore_errors=True)
    make("install", f"PREFIX={PREFIX}", f"LIBDIR={library_folder}")
    moved = f"{PREFIX}-moved"
    shutil.rmtree(moved, ignore_errors=True)
    os.rename(PREFIX, moved)
    build = configure(moved, release())
    run(["cmake", "--build", build], env=clean_environment())
    for name in ("shared", "static"):
        drawn = run([os.path.join(build, name)], env=clean_environment())
        must(drawn == picture_of_the_page(), f"other bytes by the target {name}")


def check_versions() -> str:
    """An earlier version of the same numbers is served, and a later one and one of other numbers are refused."""
    first, second, third = (int(number) for number in release().split("."))
    served = [f"{first}.{second}", f"{first}.{second}.0"]
    refused = [f"{first}.{second}.{third + 1}", f"{first}.{second + 1}", f"{first + 1}.0"]
    for version in served:
        configure(f"{PREFIX}-moved", version)
    for version in refused:
        try:
            configure(f"{PREFIX}-moved", version)
        except CheckError:
            continue
        raise CheckError(f"release {release()} serves a program that asks for {version}")
    return f"{', '.join(served)} served, {', '.join(refused)} refused"


def cases() -> Iterator[Case]:
    for folder in ("lib/x86_64-linux-gnu", "lib"):
        yield case(f"CMake: find_package over {folder}", check_programs, folder)
    yield case("CMake: versions", check_versions, needs="CMake: find_package over lib")
