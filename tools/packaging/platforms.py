"""Builds the library for systems for which the toolchain does not build, from the modules of its archives.

    python3 -m tools.packaging.platforms NAME .. [--rt rt]

`make platforms` keeps the modules first, in lib/modules/. The library of windows-x86_64 and so on is left in
lib/platforms/NAME/. All compilers and linkers are those in the toolchain's clang, which is LLVM's driver for its other
tools too; only the inline functions of trirast.h are compiled by Debian's clang, which has headers, and Linux's shared
library is linked by its cross compiler. Two runs give the same bytes.
"""

from __future__ import annotations

import argparse
import hashlib
import os
import re
import sys
import tempfile
from typing import Sequence

from tools.packaging.common import SUMS, files_below, make_anew, put, run, write
from tools.packaging.module import flags_of, kit_folder, llvm
from tools.packaging.portable import PLATFORMS, Platform, portable
from tools.places import INCLUDE, LIB, TOP, bytes_of, text_of

MODULES = os.path.join(LIB, "modules")
BUILT = os.path.join(LIB, "platforms")
PARTS = os.path.join(TOP, "packaging", "platforms")
CRATES = ("canvas_c", "trirast_c")
BY_NAME = {platform.name: platform for platform in PLATFORMS}
MACHINES = {"x86_64": "x64", "arm64": "arm64"}
CROSS_COMPILER = "riscv64-linux-gnu-gcc"


class Builder:
    """Builds the library of one platform in a folder, over files in a folder for work."""

    def __init__(self, kit: str, platform: Platform, folder: str, work: str) -> None:
        self.kit = kit
        self.platform = platform
        self.folder = folder
        self.work = work

    def tool(self, name: str, *words: str) -> str:
        return llvm(self.kit, name, *words, folder=self.work)

    def made(self, name: str) -> str:
        return os.path.join(self.folder, name)

    def header(self) -> str:
        """The lines with which a module for the platform begins."""
        words = ["-x", "c", "/dev/null", "-S", "-emit-llvm", "-o", "-"]
        lines = self.tool("clang", f"--target={self.platform.triple}", *words).splitlines(keepends=True)
        return "".join(line for line in lines if line.startswith("target "))

    def form(self) -> list[str]:
        """The flags for the form of an object file: on Windows one without the time, elsewhere for shared libraries."""
        return ["-mno-incremental-linker-compatible"] if self.platform.is_windows else ["-fPIC"]

    def compiled(self, crate: str) -> str:
        """Compiles the module of a crate. Returns the object file."""
        module = text_of(MODULES, self.platform.module, f"{crate}.ll")
        source, target = f"{crate}.ll", f"{crate}.o"
        write(os.path.join(self.work, source), portable(module, self.platform, self.header()).encode())
        flags = flags_of(module)
        # Without the first the division of 128 bits is a call, for which not every system has a library. Without the
        # second there is a table of symbols by numbers, which strip and objcopy change.
        words = ["-mllvm", "-expand-div-rem-bits=64", "-fno-addrsig", "-c", "-x", "ir", source, "-o", target]
        self.tool("clang", f"--target={self.platform.triple}", *flags, *self.form(), *words)
        # Elsewhere linkers know the parts of a file by symbols that strip would take.
        if self.platform.system == "linux":
            self.tool("llvm-strip", "--strip-unneeded", target)
        return target

    def inline_functions(self, triple: str) -> str:
        """Compiles the functions that trirast.h defines. Returns the object file."""
        target = f"calls-{triple}.o"
        flags = ["-std=c99", "-O2", "-ffreestanding", "-Wall", "-Wextra", "-Werror", f"-I{INCLUDE}"]
        source = os.path.join(TOP, "packaging", "calls.c")
        run(["clang", f"--target={triple}", *flags, *self.form(), "-c", source, "-o", target], cwd=self.work)
        return target

    def calls(self, objects: Sequence[str]) -> list[str]:
        """The calls of the library, which its object files define."""
        lines = self.tool("llvm-nm", "--defined-only", "--extern-only", "--just-symbol-name", *objects)
        return sorted(re.findall(r"^_?(trirast_\w+)$", lines, re.MULTILINE))

    def archive(self, name: str, objects: Sequence[str]) -> None:
        self.tool("llvm-ar", "rcsD", self.made(name), *objects)

    def build(self) -> None:
        objects = [self.compiled(crate) for crate in CRATES]
        builds = {"windows": self.build_windows, "macos": self.build_macos, "linux": self.build_linux}
        builds[self.platform.system](objects)

    # ---- Windows

    def build_windows(self, objects: list[str]) -> None:
        """The DLL with its import library, a static library for MSVC's linker, and on x86-64 one for mingw's."""
        every = [*objects, self.inline_functions(self.platform.triple)]
        self.link_dll(every)
        if self.platform.processor == "x86_64":
            put(self.made("trirast.lib"), self.made("libtrirast.dll.a"))
            self.archive("libtrirast.a", every)
            every = [*self.for_msvc(objects), self.inline_functions("x86_64-pc-windows-msvc")]
        self.tool("llvm-lib", f"/out:{self.made('trirast_static.lib')}", *every)

    def for_msvc(self, objects: Sequence[str]) -> list[str]:
        """The same object files of mingw with MSVC's name for the stack probe, which does the same."""
        for name in objects:
            self.tool("llvm-objcopy", "--redefine-sym", "___chkstk_ms=__chkstk", name, f"msvc-{name}")
        return [f"msvc-{name}" for name in objects]

    def link_dll(self, objects: Sequence[str]) -> None:
        """Links the DLL, which has no start-up code, and needs ucrtbase.dll of Windows alone."""
        processor = self.platform.processor
        machine = MACHINES[processor]
        probe = os.path.join(PARTS, f"stack_probe_{processor}.s")
        self.tool("clang", f"--target={self.platform.triple}", *self.form(), "-c", probe, "-o", "stack_probe.o")
        self.tool("llvm-lib", f"/def:{os.path.join(PARTS, 'ucrtbase.def')}", f"/machine:{machine}", "/out:ucrtbase.lib")
        exports = "".join(f"{name}\n" for name in self.calls(objects))
        write(os.path.join(self.work, "trirast.def"), f"LIBRARY trirast.dll\nEXPORTS\n{exports}".encode())
        words = ["/dll", "/noentry", f"/machine:{machine}", "/def:trirast.def", "/nodefaultlib", "/opt:ref", "/Brepro"]
        words += [f"/out:{self.made('trirast.dll')}", f"/implib:{self.made('trirast.lib')}"]
        self.tool("lld-link", *words, *objects, "stack_probe.o", "ucrtbase.lib")

    # ---- macOS

    def build_macos(self, objects: list[str]) -> None:
        """The static library, and the shared one, which needs libSystem alone."""
        every = [*objects, self.inline_functions(self.platform.triple)]
        self.archive("libtrirast.a", every)
        exports = "".join(f"_{name}\n" for name in self.calls(every))
        write(os.path.join(self.work, "exports"), exports.encode())
        words = ["-dylib", "-arch", self.platform.processor, "-platform_version", "macos", "11.0", "11.0"]
        words += ["-install_name", "@rpath/libtrirast.dylib", "-dead_strip", "-x", "-exported_symbols_list", "exports"]
        self.tool(
            "ld64.lld", *words, "-o", self.made("libtrirast.dylib"), *every, os.path.join(PARTS, "libSystem.tbd")
        )

    # ---- Linux

    def build_linux(self, objects: list[str]) -> None:
        """The static library, and the shared one, by the cross compiler's linker and C library."""
        every = [*objects, self.inline_functions(self.platform.triple)]
        self.archive("libtrirast.a", every)
        words = ["-shared", "-s", "-Wl,-soname,libtrirast.so.2", "-Wl,--gc-sections", "-Wl,-z,defs"]
        run([CROSS_COMPILER, *words, "-o", self.made("libtrirast.so.2"), *every], cwd=self.work)


def build(kit: str, platform: Platform) -> str:
    """Builds the library of a platform. Returns its folder."""
    folder = make_anew(os.path.join(BUILT, platform.name))
    with tempfile.TemporaryDirectory() as work:
        Builder(kit, platform, folder, work).build()
    sums = (f"{hashlib.sha256(bytes_of(folder, name)).hexdigest()}  {name}\n" for name in files_below(folder))
    write(os.path.join(folder, SUMS), "".join(sums).encode())
    return folder


def main() -> int:
    parser = argparse.ArgumentParser(description="Builds the library for other platforms.")
    parser.add_argument("names", nargs="+", choices=BY_NAME, metavar="NAME", help=", ".join(BY_NAME))
    parser.add_argument("--rt", default="rt", help="the toolchain's command (default rt)")
    options = parser.parse_args()
    for name in options.names:
        print(os.path.relpath(build(kit_folder(options.rt), BY_NAME[name]), TOP), flush=True)
    return 0


if __name__ == "__main__":
    sys.exit(main())
