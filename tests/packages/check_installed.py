"""The installed program, from a folder that was moved: it answers as bin/trirast does, by the build for the
processor's level."""

from __future__ import annotations

import os
import re
import shutil
import subprocess
import sys
from typing import Iterator, Mapping

from tools import places
from tests.cases import MAX_SECONDS, Case, MissingError, case, must
from tests.library.commands import drawn_by_program, make, need, run
from tests.packages.checking import LISTS, OUT, WITHOUT_LEVEL, build_in, build_taken, clean_environment, has_level
from tools.places import EXAMPLES, LEVEL, TOP

PREFIX = os.path.join(OUT, "program-prefix")
MOVED = f"{PREFIX}-moved"
PROGRAM = os.path.join(MOVED, "bin", "trirast")
BUILDS = os.path.join(MOVED, "lib", "trirast")
QEMU = "qemu-x86_64-static"
# Of qemu's processors one of each level.
OF_FIRST_LEVEL, OF_SECOND_LEVEL = "Nehalem", "Haswell"
# Runs the acceptance tests over the program that its argument names.
ACCEPTANCE = """\
import sys, pytest
from tools import places
places.PROGRAM = sys.argv[1]
raise SystemExit(pytest.main(["-q", "-p", "no:cacheprovider", "tests/program"]))
"""


def check_install() -> None:
    for folder in (PREFIX, MOVED):
        shutil.rmtree(folder, ignore_errors=True)
    make("install", f"PREFIX={PREFIX}")
    os.rename(PREFIX, MOVED)


def check_exports() -> None:
    """A build shows nothing but main, which the C library calls."""
    for is_second in (False, True):
        shown = run([need("nm"), "-D", "--defined-only", build_in(BUILDS, is_second)]).decode().split()[2::3]
        must(shown == ["main"], f"{shown} are shown")


def check_draws(program: str, **more: str) -> None:
    for path in LISTS:
        text = places.bytes_of(path)
        must(
            run([program], input=text, env=clean_environment(**more)) == drawn_by_program(text).output,
            f"other bytes for {path}",
        )


def check_second_level() -> None:
    """A processor of the second level runs the build for it, and each example is drawn as by bin/trirast."""
    if not has_level():
        raise MissingError(f"processor of the level {LEVEL}")
    taken = build_taken(PROGRAM)
    must(os.path.realpath(taken) == build_in(BUILDS, True), f"{taken} was loaded")
    check_draws(PROGRAM)


def check_first_level() -> None:
    """Without the features of the second level the other build runs, and draws the same."""
    taken = build_taken(PROGRAM, **WITHOUT_LEVEL)
    must(os.path.realpath(taken) == build_in(BUILDS, False), f"{taken} was loaded")
    check_draws(PROGRAM, **WITHOUT_LEVEL)


def check_without_second() -> None:
    """If the build for the second level is not there, the other one runs on every processor."""
    folder = f"{PREFIX}-of-one"
    shutil.rmtree(folder, ignore_errors=True)
    shutil.copytree(MOVED, folder, symlinks=True)
    shutil.rmtree(os.path.join(folder, "lib", "trirast", "glibc-hwcaps"))
    program = os.path.join(folder, "bin", "trirast")
    taken = build_taken(program)
    must(os.path.realpath(taken) == build_in(os.path.join(folder, "lib", "trirast"), False), f"{taken} was loaded")
    check_draws(program)


def by_qemu(processor: str, *flags: str) -> tuple[int, bytes, list[str]]:
    """Draws a list on a processor of qemu. Returns the status, the picture, and the builds that the loader opened."""
    command = [need(QEMU), "-cpu", processor, "-strace", *flags, PROGRAM]
    text = places.bytes_of(EXAMPLES, "triangle.json")
    done = subprocess.run(command, input=text, capture_output=True, env=clean_environment(), timeout=MAX_SECONDS)
    return (
        done.returncode, done.stdout,
        re.findall(r'openat\(.*"(.*/program\.so)".* = \d', done.stderr.decode(errors="replace")),
    )


def check_processors() -> None:
    """Each of qemu's processors draws by the build for its level, and the first cannot run the build for the second."""
    wanted = drawn_by_program(places.bytes_of(EXAMPLES, "triangle.json")).output
    for processor, is_second in ((OF_FIRST_LEVEL, False), (OF_SECOND_LEVEL, True)):
        status, picture, opened = by_qemu(processor)
        must((status, picture) == (0, wanted), f"{processor}: status {status}, or other bytes")
        must(
            [os.path.realpath(path) for path in opened] == [build_in(BUILDS, is_second)], f"{processor} opened {opened}"
        )
    forced = ("-E", f"LD_LIBRARY_PATH={os.path.dirname(build_in(BUILDS, True))}")
    status, picture, opened = by_qemu(OF_FIRST_LEVEL, *forced)
    must(opened == [build_in(BUILDS, True)], f"{opened} were opened")
    must(status != 0 and not picture, f"{OF_FIRST_LEVEL} runs the build for {LEVEL}: its status is {status}")


def check_acceptance(more: Mapping[str, str]) -> str:
    """The acceptance tests pass over the installed program: statuses, lines, and devices that fail."""
    command = [sys.executable, "-c", ACCEPTANCE, PROGRAM]
    return run(command, cwd=TOP, env=clean_environment(**more)).decode().splitlines()[-1]


def cases() -> Iterator[Case]:
    installed = "installed: make install, and the folder is moved"
    yield case(installed, check_install)
    yield case("installed: the builds show main alone", check_exports, needs=installed)
    yield case("installed: the program of the processor's level", check_second_level, needs=installed)
    yield case("installed: the program of the first level", check_first_level, needs=installed)
    yield case("installed: without the build for the second level", check_without_second, needs=installed)
    yield case("installed: processors of both levels by qemu", check_processors, needs=installed)
    yield case("installed: acceptance", check_acceptance, {}, needs=installed)
    yield case("installed: acceptance on the first level", check_acceptance, WITHOUT_LEVEL, needs=installed)
