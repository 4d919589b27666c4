"""The module of an archive as another platform has to have it: what differs is its header, and attributes of functions.

No instruction of a proved function is touched. The functions of the heap get bodies (packaging/platforms/heap.ll), and
for RISC-V also the one instruction of x86-64 that the module names (packaging/platforms/shuffle.ll).
"""

from __future__ import annotations

import re
from dataclasses import dataclass

from tools.places import text_of

PARTS = ("packaging", "platforms")
HEADER = re.compile(r"^target (?:datalayout|triple) = .*\n", re.MULTILINE)
DEFINED = re.compile(r"^define internal (.*) @([\w.]+)\((.*)\)", re.MULTILINE)
# The words behind a parameter's type.
ATTRIBUTE = re.compile(r" (?:noundef|%\w+)")
PAIRS = ("{ i64, i64 }", "[2 x i64]")
# The attributes of functions that have a body.
ATTRIBUTES = re.compile(r"^(attributes #\d+ = \{.* \"probe-stack\"=.*) \}$", re.MULTILINE)
# A function that is exported and returns 32 bits.
EXPORTED = re.compile(r"^(define (?!internal)(?:\w+ )*?)(i32 @)", re.MULTILINE)
PROBES, PROCESSOR = re.compile(r' "probe-stack"="[^"]*"'), re.compile(r' "target-cpu"="[^"]*"')


@dataclass(frozen=True)
class Platform:
    """A system and a processor for which the library is built from the module of an archive."""

    # The folder of its library, as windows-x86_64.
    name: str
    # LLVM's name for it.
    triple: str
    # The folder of its modules in lib/modules/.
    module: str

    @property
    def system(self) -> str:
        return self.name.partition("-")[0]

    @property
    def processor(self) -> str:
        return self.name.partition("-")[2]

    @property
    def is_windows(self) -> bool:
        return self.system == "windows"


PLATFORMS = (
    Platform("linux-riscv64", "riscv64-unknown-linux-gnu", "x86-64-v2"),
    Platform("windows-x86_64", "x86_64-pc-windows-gnu", "x86-64-v2-optimized"),
    Platform("windows-arm64", "aarch64-pc-windows-msvc", "aarch64"),
    Platform("macos-x86_64", "x86_64-apple-macos11", "x86-64-v2-optimized"),
    Platform("macos-arm64", "arm64-apple-macos11", "aarch64"),
)


def types_in(listed: str) -> list[str]:
    """The types in a list of parameters."""
    return [ATTRIBUTE.sub("", part).strip() for part in re.split(r",(?![^<]*>)", listed)]


def functions_in(text: str, pattern: re.Pattern[str]) -> dict[str, tuple[str, list[str]]]:
    """The functions that a pattern finds, each with the type of its result and those of its parameters."""
    return {name: (kind, types_in(listed)) for kind, name, listed in pattern.findall(text)}


def with_bodies(module: str, bodies: str, names: str) -> str:
    """The module with bodies for the functions that it declares, but does not define, by names of this pattern. Raises
    `ValueError` if there is no body for one of them, or one of other types."""
    pattern = re.compile(rf"^declare (.*) @({names})\((.*)\).*\n", re.MULTILINE)
    declared, defined = functions_in(module, pattern), functions_in(bodies, DEFINED)
    for name, types in declared.items():
        if defined.get(name) != types:
            raise ValueError(f"{name}: the module has {types}, and its body {defined.get(name)}")
    return f"{pattern.sub('', module)}\n{bodies}" if declared else module


def with_heap(module: str) -> str:
    """The module with the heap over malloc, realloc and free."""
    heap = text_of(*PARTS, "heap.ll")
    # The same two registers: the toolchain has an array of two for ARM64.
    is_array = f"declare {PAIRS[1]} @rattle_alloc(" in module
    return with_bodies(module, heap.replace(*PAIRS) if is_array else heap, r"rattle_\w+")


def for_riscv(module: str) -> str:
    """The module for a processor on which 32 bits are passed as a register in which they are sign-extended, and which
    has none of x86-64's own instructions."""
    text = PROCESSOR.sub("", EXPORTED.sub(r"\1signext \2", module)).replace("@llvm.x86.", "@x86.")
    return with_bodies(text, text_of(*PARTS, "shuffle.ll"), r"x86\.[\w.]+")


def portable(module: str, platform: Platform, header: str) -> str:
    """The module for a platform. `header` are the two lines with which clang begins a module for it."""
    text = with_heap(header + HEADER.sub("", module))
    if platform.is_windows:
        # Windows has a stack probe of its own, and unwinds only through functions of which it has a table.
        text = PROBES.sub("", ATTRIBUTES.sub(r"\1 uwtable }", text))
    return for_riscv(text) if platform.processor == "riscv64" else text
