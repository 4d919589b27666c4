"""What the checks of all packages share: what the program draws, and programs in C that are built outside
of the repository."""

from __future__ import annotations

import os
import re
import signal
import subprocess
import time
from typing import Iterable, Mapping

from tools import places
from tests.cases import must
from tests.library.commands import WARNINGS, blocks_of_the_pages, drawn_by_program, need, run
from tools.packaging import listing
from tools.places import EXAMPLES, LEVEL

OUT = os.path.join(places.OUT, "check-packages")
LISTS = places.files("examples", "*.json")
# A library that holds its crates twice, or debug information, is larger than this.
MAX_LIBRARY_BYTES = 1_200_000
# The system's loader, which says by --help what the processor has.
LOADER = "/lib64/ld-linux-x86-64.so.2"
# Takes the features of the second level from what the loader sees of the processor.
WITHOUT_LEVEL = {"GLIBC_TUNABLES": "glibc.cpu.hwcaps=-AVX2,-AVX2_Usable"}
# The seconds in which a program has been loaded.
LOADED_AFTER = 30


def clean_environment(**more: str) -> dict[str, str]:
    """An environment that names neither the repository nor another installation."""
    kept = {name: os.environ[name] for name in ("PATH", "HOME", "LANG", "TMPDIR") if name in os.environ}
    return {**kept, **more}


def program_of_the_page() -> str:
    """The first whole program in C of docs/how-to/install.md: it draws examples/triangle.json."""
    return next(text for text in blocks_of_the_pages("c") if "int main" in text)


def picture_of_the_page() -> bytes:
    """What that program writes."""
    return drawn_by_program(places.bytes_of(EXAMPLES, "triangle.json")).output


def check_in_c(folder: str, flags: list[str], environment: Mapping[str, str], compiler: str = "gcc") -> str:
    """Builds the program of the page in a folder, by these flags alone, and compares what it writes.
    Returns its path."""
    os.makedirs(folder, exist_ok=True)
    source, program = os.path.join(folder, "program.c"), os.path.join(folder, "program")
    with open(source, "w", encoding="ascii") as file:
        file.write(program_of_the_page())
    run([need(compiler), *WARNINGS, source, "-o", program, *flags], cwd=folder, env=environment)
    must(run([program], cwd=folder, env=environment) == picture_of_the_page(), f"other bytes with {flags}")
    return program


def check_documented(title: str, files: Iterable[str]) -> None:
    """packaging/FILES.md lists exactly the files of a package below this title."""
    listed, held = listing.listed(title), sorted(files)
    must(
        listed == held,
        f"{sorted({*listed} ^ {*held})} in one of page and package alone; "
        "python3 -m tools.packaging.listing writes the lists",
    )


def check_library_sizes(files: Mapping[str, int]) -> None:
    """Each shared library of a package is small enough."""
    for name, size in files.items():
        must(".so" not in name or size < MAX_LIBRARY_BYTES, f"{name} has {size} bytes")


def has_level() -> bool:
    """Whether the processor is of the second level."""
    return re.search(rf"{LEVEL} \(supported", run([LOADER, "--help"]).decode()) is not None


def build_in(folder: str, is_second_level: bool) -> str:
    """Where an installation has the build of the program for a level: in this folder, or in the one that
    the loader knows."""
    return os.path.join(folder, *(("glibc-hwcaps", LEVEL) if is_second_level else ()), "program.so")


def build_taken(program: str, **more: str) -> str:
    """Starts a program, and ends it by a signal while it waits for its list. Returns the build of which the
    kernel had pages there."""
    environment, latest = clean_environment(**more), time.monotonic() + LOADED_AFTER
    with subprocess.Popen([program], stdin=subprocess.PIPE, stdout=subprocess.DEVNULL, env=environment) as child:
        taken: list[str] = []
        while not taken and child.poll() is None and time.monotonic() < latest:
            taken = re.findall(r"r-xp .* (/.*/program\.so)$", places.text_of(f"/proc/{child.pid}/maps"), re.MULTILINE)
        child.terminate()
    must(child.returncode == -signal.SIGTERM and len(taken) == 1, f"status {child.returncode}, and {taken} were loaded")
    return taken[0]
