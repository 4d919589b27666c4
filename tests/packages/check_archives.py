"""The archives of a release: built twice the same, and CMake's find_package over those that are unpacked together."""

from __future__ import annotations

import os
import shutil
from typing import Iterator

from tests.cases import Case, CheckError, MissingError, case, must
from tests.library.commands import need, run
from tests.library.runners import RUNNERS
from tests.packages.check_cmake import PROJECT
from tests.packages.checking import OUT, clean_environment, picture_of_the_page, program_of_the_page
from tools.packaging import archives
from tools.packaging.common import make_anew, release, write
from tools.places import bytes_of

UNPACKED = os.path.join(OUT, "archives")
PREFIX = os.path.join(UNPACKED, f"trirast-{release()}")
# What CMake is told of a platform for which it builds here.
TOLD = {
    "linux-x86_64": (),
    "windows-x86_64": ("-DCMAKE_SYSTEM_NAME=Windows", "-DCMAKE_SYSTEM_PROCESSOR=AMD64"),
    "linux-riscv64": ("-DCMAKE_SYSTEM_NAME=Linux", "-DCMAKE_SYSTEM_PROCESSOR=riscv64"),
}


def check_build() -> str:
    """Each archive is built twice with the same bytes, and all are unpacked over one another."""
    archives.main()
    found = [archives.path_of(platform) for platform in archives.built()]
    first = [bytes_of(path) for path in found]
    archives.main()
    must(first == [bytes_of(path) for path in found], "a second build has other bytes")
    make_anew(UNPACKED)
    for path in found:
        shutil.unpack_archive(path, UNPACKED)
    return ", ".join(f"{os.path.basename(path)} {len(data) // 1000} KB" for path, data in zip(found, first))


def configured(platform: str, prefix: str, *words: str) -> str:
    """Configures a project outside for a platform, over a prefix. Returns the folder in which it is built."""
    folder = make_anew(os.path.join(OUT, f"archive-{platform}"))
    write(os.path.join(folder, "CMakeLists.txt"), PROJECT.format(version=release()).encode())
    write(os.path.join(folder, "program.c"), program_of_the_page().encode())
    build = os.path.join(folder, "build")
    run([need("cmake"), "-S", folder, "-B", build, f"-DCMAKE_PREFIX_PATH={prefix}", *words], env=clean_environment())
    return build


def drawn_by_cmake(platform: str, prefix: str) -> None:
    """A program over the static target of a prefix draws the picture of the page."""
    runner = RUNNERS[platform]
    if platform not in archives.built():
        raise MissingError(f"library for {platform}")
    compiler = need(runner.compilers[0])
    build = configured(platform, prefix, f"-DCMAKE_C_COMPILER={compiler}", *TOLD[platform])
    run(["cmake", "--build", build], env=clean_environment())
    program = os.path.join(build, "static" + (".exe" if "windows" in platform else ""))
    starter = [*runner.starter, *(("-L", "/usr/riscv64-linux-gnu") if "riscv" in platform else ())]
    # Windows writes a carriage return before each line feed, since the page's program does not ask for bytes.
    drawn = run([*starter, program], env=clean_environment()).replace(b"\r\n", b"\n")
    must(drawn == picture_of_the_page(), "other bytes")


def check_other_platform() -> None:
    """For a platform of which there is no archive, CMake says which one is missing."""
    try:
        configured("none", PREFIX, "-DCMAKE_SYSTEM_NAME=Linux", "-DCMAKE_SYSTEM_PROCESSOR=sparc64")
    except CheckError as error:
        must("expected a library for linux-sparc64" in " ".join(str(error).split()), str(error))
        return
    raise CheckError("CMake took the library of another platform")


def cases() -> Iterator[Case]:
    built = "archives: built twice the same"
    yield case(built, check_build)
    for platform in TOLD:
        yield case(f"archives: CMake for {platform}", drawn_by_cmake, platform, PREFIX, needs=built)
    yield case("archives: CMake for a platform without one", check_other_platform, needs=built)
