"""The LLVM modules of the library's archives, as text, from which tools/packaging/platforms.py builds.

    python3 -m tools.packaging.module IN.ll OUT.ll [--rt rt]

optimizes a module as the toolchain does for its own archive, so that clang's back end alone is left to each platform.

The toolchain hands the module of an archive to its own clang. To keep it, tools/packaging/archive.py gives the
toolchain a folder of links to itself, in which a script stands for that clang: it copies what is to be compiled, and
compiles it. For aarch64 that is what the toolchain has optimized and then rewritten. The first line of the text is a
comment with the words for that clang.
"""

from __future__ import annotations

import argparse
import os
import shlex
import sys

from tools.packaging.common import run, write
from tools.places import TOP, text_of

CLANG = os.path.join("toolchain", "bin", "clang")
# Beside links to all that the toolchain's folders have, these are made anew, each without a link to the next.
ANEW = (("", "toolchain"), ("toolchain", "bin"), (os.path.join("toolchain", "bin"), "clang"))
# What the toolchain compiles to an object file is final. Before, it may print what it has.
SCRIPT = """\
#!/bin/sh
for word; do
    case "$word" in -c) is_last=1;; *.bc|*.ll) module="$word";; esac
done
test "$is_last" && cp "$module" {kept} && echo "$*" > {kept}.words
exec {clang} "$@"
"""
TO_TEXT = ("-x", "ir", "-S", "-emit-llvm", "-Wno-override-module")
AS_IT_IS = ("-O0", "-Xclang", "-disable-llvm-passes")
# Of the words for clang, those that say where it reads and writes, and for which processor.
NOT_KEPT = ("-c", "-x", "-o", "-fPIC", "-march=", "--target=", "--sysroot=")


def kit_folder(rt: str) -> str:
    """The folder of the toolchain."""
    return os.path.dirname(run([rt, "doc"]).strip())


def llvm(kit: str, tool: str, *words: str, folder: str = TOP) -> str:
    """Runs a tool of LLVM in a folder, which the toolchain's clang is by that name. Returns what it prints."""
    return run([tool, *words], executable=os.path.join(kit, CLANG), cwd=folder)


def kit_that_keeps(kit: str, folder: str, kept: str) -> None:
    """Makes a folder that stands for the toolchain's, whose clang copies its input to `kept`, and its words beside."""
    for path, made_anew in ANEW:
        os.mkdir(os.path.join(folder, path))
        for name in os.listdir(os.path.join(kit, path)):
            if name != made_anew:
                os.symlink(os.path.join(kit, path, name), os.path.join(folder, path, name))
    script = os.path.join(folder, CLANG)
    with open(script, "w", encoding="ascii") as file:
        file.write(SCRIPT.format(clang=shlex.quote(os.path.join(kit, CLANG)), kept=shlex.quote(kept)))
    os.chmod(script, 0o755)


def write_text_of(kit: str, kept: str, path: str) -> None:
    """Writes the module that was kept as text, below a line with the words for clang."""
    text = llvm(kit, "clang", *TO_TEXT, *AS_IT_IS, kept, "-o", "-")
    write(path, f"; {text_of(f'{kept}.words')}{text}".encode())


def flags_of(module: str) -> list[str]:
    """The toolchain's own flags for its clang, from the first line of a module."""
    line = module.split("\n", 1)[0]
    return [word for word in line.split() if word.startswith("-") and not word.startswith(NOT_KEPT)]


def optimize(kit: str, source: str, target: str) -> None:
    """Writes a module as the toolchain's flags optimize it, below a line with these and what leaves it as it is."""
    flags = flags_of(text_of(source))
    text = llvm(kit, "clang", *flags, "-march=x86-64", "-fPIC", *TO_TEXT, source, "-o", "-")
    write(target, f"; {' '.join([*flags, *AS_IT_IS[1:]])}\n{text}".encode())


def main() -> int:
    parser = argparse.ArgumentParser(description="Optimizes the LLVM module of an archive of the library.")
    parser.add_argument("source", metavar="IN.ll", help="the module of x86-64 as it was kept")
    parser.add_argument("target", metavar="OUT.ll", help="where the other goes")
    parser.add_argument("--rt", default="rt", help="the toolchain's command (default rt)")
    options = parser.parse_args()
    optimize(kit_folder(options.rt), os.path.abspath(options.source), os.path.abspath(options.target))
    return 0


if __name__ == "__main__":
    sys.exit(main())
