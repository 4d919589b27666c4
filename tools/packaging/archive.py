"""Builds the archives of the library for C over the libraries that were proved before, so that nothing is proved twice.

    python3 -m tools.packaging.archive trirast_c|canvas_c|trirast_cli x86-64-v2|x86-64-v3|aarch64|wasm64 -o PATH
        [--module PATH.ll] [--rt rt]

`make library` and `make web` run this for a processor for which `rt lib` has not built, since `rt lib` has one place
for its archive. Of the program it builds the object file, without what the toolchain brings in C for x86-64 alone:
`make install` links it. With --module the LLVM module is kept of which clang makes the archive: module.py says how.
"""

from __future__ import annotations

import argparse
import os
import subprocess
import sys
import tempfile
from typing import Iterable, Sequence

from tools.packaging.module import kit_folder, kit_that_keeps, write_text_of
from tools.sources.crates import Uses, below, uses_in
from tools.places import TOP

# The crates of the library.
CRATES = ("trirast_c", "canvas_c")
PROGRAM = "trirast_cli"
# The processors with the flags that ask the toolchain for them; its default is x86-64-v2.
PROCESSORS = {
    "x86-64-v2": (),
    "x86-64-v3": ("--cpu", "x86-64-v3"),
    "aarch64": ("--target", "aarch64-unknown-linux-gnu"),
    "wasm64": ("--target", "wasm64-unknown-unknown"),
}
# Where a check of the crate keeps what it has checked, so that the next archive takes it over. rt uses the same folder.
KEPT = os.path.join("out", "incremental")


def folder(top: str, crate: str) -> str:
    """Where rt leaves the library of a crate."""
    return os.path.join(top, "crates", crate, "out", "rlib")


def search_flags(folders: Iterable[str]) -> list[str]:
    return [flag for path in folders for flag in ("-L", f"dependency={path}")]


def build_command(top: str, kit: str, uses: Uses, crate: str, archive: str, more: Sequence[str] = ()) -> list[str]:
    """The command that builds an archive, in the crate's folder. `kit` is the toolchain's folder,
    `more` further flags."""
    rlibs = os.path.join(kit, "rlibs")
    command = [os.path.join(kit, "bin", "rattle"), "build", "--crate-name", crate]
    command += ["src/main.rt"] if crate == PROGRAM else ["--crate-type", "staticlib", "src/lib.rt"]
    for name in ["std", *uses[crate]]:
        path = os.path.join(folder(top, name) if name in uses else rlibs, f"{name}.rlib")
        command += ["--extern", f"{name}={path}"]
    command += search_flags([rlibs, *(folder(top, name) for name in sorted(below(crate, uses)))])
    command += ["--antt-project", os.path.join(kit, "rattle", "logic", "antt-project.json")]
    command += ["--logic-built", os.path.join(kit, "logic_built"), "--toolchain", os.path.join(kit, "toolchain")]
    return [*command, "--incremental", KEPT, *more, "-o", os.path.join(top, archive)]


def run(kit: str, crate: str, archive: str, more: Sequence[str]) -> bool:
    """Builds the archive of a crate over what is proved. Returns whether it was built."""
    command = build_command(TOP, kit, uses_in(TOP), crate, archive, more)
    place = os.path.join(TOP, "crates", crate)
    return subprocess.run(command, cwd=place, stdin=subprocess.DEVNULL).returncode == 0


def run_and_keep(kit: str, crate: str, archive: str, more: Sequence[str], module: str) -> bool:
    """The same, and keeps the LLVM module of the archive as text."""
    with tempfile.TemporaryDirectory() as work:
        folder, kept = os.path.join(work, "kit"), os.path.join(work, "module")
        kit_that_keeps(kit, folder, kept)
        if not run(folder, crate, archive, more):
            return False
        write_text_of(kit, kept, module)
    return True


def main() -> int:
    parser = argparse.ArgumentParser(description="Builds an archive of the library for another processor.")
    parser.add_argument("crate", choices=(*CRATES, PROGRAM))
    parser.add_argument("processor", choices=PROCESSORS)
    parser.add_argument("-o", dest="archive", required=True, metavar="PATH", help="where the archive goes")
    parser.add_argument("--rt", default="rt", help="the toolchain's command (default rt)")
    parser.add_argument("--module", metavar="PATH", help="where the LLVM module goes")
    options = parser.parse_args()
    kit, more, path = kit_folder(options.rt), PROCESSORS[options.processor], os.path.abspath(options.archive)
    if options.module:
        return 0 if run_and_keep(kit, options.crate, path, more, os.path.abspath(options.module)) else 1
    return 0 if run(kit, options.crate, path, more) else 1


if __name__ == "__main__":
    sys.exit(main())
