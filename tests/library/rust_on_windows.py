"""The crates in bindings/rust on Windows: their tests by Wine, over the static library.

cargo is not used, since only Debian's rustc has a standard library for Windows here, and another cargo may be the
first.
"""

from __future__ import annotations

import os
import re
from typing import Iterator

from tests.cases import Case, MissingError, case, must
from tests.library.commands import OUT, run
from tests.library.from_rust import CRATES, INPUTS, WRITTEN
from tests.library.runners import RUNNERS
from tools.packaging.common import make_anew
from tools.places import TOP, files

PLATFORM, TARGET = "windows-x86_64", "x86_64-pc-windows-gnu"
RUSTC = "/usr/bin/rustc"
STANDARD_LIBRARY = f"/usr/lib/rustlib/{TARGET}"
FOLDER = os.path.join(OUT, PLATFORM, "rust")


def compiled(source: str, *words: str) -> None:
    """Compiles a source in the folder of the crates that were compiled before."""
    linker = f"linker={RUNNERS[PLATFORM].compilers[0]}"
    flags = ["--edition", "2021", "--target", TARGET, "-C", linker, "-D", "warnings", "-L", "."]
    run([RUSTC, *flags, *words, source], cwd=FOLDER)


def build() -> None:
    """Builds both crates."""
    RUNNERS[PLATFORM].must_be_there()
    for path in (RUSTC, STANDARD_LIBRARY):
        if not os.path.exists(path):
            raise MissingError(path)
    make_anew(FOLDER)
    library = ["-L", f"native={RUNNERS[PLATFORM].folder}", "-l", "static=trirast"]
    for crate, *words in (("trirast-sys", *library), ("trirast", "--extern", "trirast_sys")):
        source = os.path.join(CRATES, crate, "src", "lib.rs")
        compiled(source, "--crate-type", "rlib", "--crate-name", crate.replace("-", "_"), *words)


def check_tests() -> str:
    """The tests of the crates pass, over the inputs of those on Linux. Returns how many there are."""
    passed = 0
    for path in files(CRATES, "trirast", "tests", "*.rs"):
        name = os.path.basename(path).partition(".")[0]
        compiled(os.path.join(TOP, path), "--test", "--crate-name", name, "--extern", "trirast")
        program = os.path.join(FOLDER, f"{name}.exe")
        output = run(RUNNERS[PLATFORM].command(program), env={**os.environ, **INPUTS}).decode()
        (count,) = re.findall(r"^test result: ok\. (\d+) passed", output, re.MULTILINE)
        passed += int(count)
    must(passed > 0, "no test was run")
    return f"{passed} tests"


def cases() -> Iterator[Case]:
    built = "windows-x86_64: the crates in Rust build"
    yield case(built, build, needs=WRITTEN)
    yield case("windows-x86_64: the tests in Rust", check_tests, needs=built)
