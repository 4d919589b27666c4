"""The static library for Microsoft's linker: a program that clang-cl compiles, LLVM's linker links, and Wine runs.

Debian has no file of Microsoft, so neither C's headers nor its start-up code: the program takes what it calls from
ucrtbase.dll.
"""

from __future__ import annotations

import os
from typing import Iterator

from tests.cases import Case, case, must
from tests.library.commands import OUT, drawn_by_program, need, run
from tests.library.elsewhere import built, tool
from tests.library.in_c import SOURCES
from tests.library.runners import RUNNERS
from tools import places
from tools.packaging.common import make_anew, write
from tools.packaging.platforms import PARTS
from tools.places import EXAMPLES, INCLUDE

FOLDER = os.path.join(OUT, "microsoft")
PROGRAM = os.path.join(FOLDER, "program.exe")
TRIPLE = "x86_64-pc-windows-msvc"
# What the program and the library call.
CALLS = ("malloc", "realloc", "free", "memcpy", "memmove", "memset", "memcmp", "_setmode", "_read", "_write", "_exit")
LISTS = ("triangle", "blending", "four_samples", "seam")


def build() -> None:
    library = built("windows-x86_64/trirast_static.lib")
    make_anew(FOLDER)
    warnings = ["/clang:-Wall", "/clang:-Wextra", "/WX"]
    words = ["/nologo", *warnings, "/O2", "/GS-", "/c", f"/I{INCLUDE}", f"/Fo{FOLDER}/program.obj"]
    source = os.path.join(SOURCES, "microsoft.c")
    run([need("clang"), "--driver-mode=cl", f"--target={TRIPLE}", *words, "--", source])
    listed, imports, probe = (os.path.join(FOLDER, name) for name in ("calls.def", "calls.lib", "probe.obj"))
    write(listed, f"LIBRARY ucrtbase.dll\nEXPORTS\n{chr(10).join(CALLS)}\n".encode())
    tool("llvm-lib", f"/def:{listed}", "/machine:x64", f"/out:{imports}")
    # Microsoft's C has the stack probe by a name of its own.
    tool("clang", f"--target={TRIPLE}", "-c", os.path.join(PARTS, "stack_probe_x86_64.s"), "-o", probe)
    words = ["/entry:start", "/subsystem:console", "/nodefaultlib", "/alternatename:__chkstk=___chkstk_ms"]
    tool("lld-link", *words, f"/out:{PROGRAM}", os.path.join(FOLDER, "program.obj"), library, imports, probe)


def check_draws() -> str:
    """The program draws lists as bin/trirast does."""
    runner = RUNNERS["windows-x86_64"]
    need(runner.starter[-1])
    for name in LISTS:
        text = places.bytes_of(EXAMPLES, f"{name}.json")
        must(run(runner.command(PROGRAM), input=text) == drawn_by_program(text).output, f"{name}: another picture")
    return f"{len(LISTS)} pictures"


def cases() -> Iterator[Case]:
    links = "windows-x86_64: clang-cl's program links trirast_static.lib"
    yield case(links, build)
    yield case("windows-x86_64: clang-cl's program draws", check_draws, needs=links)
