"""The platforms on which programs over the library run here: what builds a program for each, and what starts it."""

from __future__ import annotations

import os
from dataclasses import dataclass
from typing import Sequence

from conformance.d3d11.process import ENVIRONMENT
from tests.cases import MissingError
from tests.library.commands import need, run
from tools.packaging.platforms import BUILT
from tools.places import INCLUDE, LIB, TOP


@dataclass(frozen=True)
class Runner:
    # The compilers of C and C++.
    compilers: tuple[str, str]
    # The folder of the library.
    folder: str
    # The words before a program.
    starter: tuple[str, ...] = ()
    # Further flags and sources of each program.
    more: tuple[str, ...] = ()

    @property
    def static(self) -> str:
        return os.path.join(self.folder, "libtrirast.a")

    def compiler_of(self, source: str) -> str:
        return self.compilers[source.endswith(".cpp")]

    def must_be_there(self, source: str = "") -> None:
        """Raises `MissingError` if the machine lacks the library, the compiler of a source, or what starts a
        program."""
        for name in (self.compiler_of(source), *self.starter[-1:]):
            need(name)
        if not os.path.exists(self.static):
            raise MissingError(os.path.relpath(self.static, TOP))

    def build(self, program: str, sources: Sequence[str], flags: Sequence[str], library: str = "") -> None:
        """Builds a program, over the static library if no other is named."""
        self.must_be_there(sources[0])
        os.makedirs(os.path.dirname(program), exist_ok=True)
        compiler = self.compiler_of(sources[0])
        words = ["-I", INCLUDE, "-pthread", "-o", program, *sources, *self.more, library or self.static, "-lm"]
        run([compiler, *flags, *words])

    def command(self, program: str) -> list[str]:
        return [*self.starter, program]


def under_qemu(processor: str, folder: str) -> Runner:
    """A processor of Linux. Its programs hold the C library too."""
    compilers = f"{processor}-linux-gnu-gcc", f"{processor}-linux-gnu-g++"
    return Runner(compilers, folder, (f"qemu-{processor}-static",), ("-static",))


RUNNERS = {
    "linux-x86_64": Runner(("gcc", "g++"), LIB),
    "linux-arm64": under_qemu("aarch64", os.path.join(LIB, "aarch64")),
    "linux-riscv64": under_qemu("riscv64", os.path.join(BUILT, "linux-riscv64")),
    "windows-x86_64": Runner(
        ("x86_64-w64-mingw32-gcc-posix", "x86_64-w64-mingw32-g++-posix"), os.path.join(BUILT, "windows-x86_64"),
        ("env", *(f"{name}={value}" for name, value in ENVIRONMENT.items()), "wine"),
        # Windows has no memory of a given alignment that free() takes back.
        ("-static", "-Daligned_alloc(alignment,size)=malloc(size)", os.path.join(TOP, "tests", "library", "binary.c")),
    ),
}
