"""Packs the canvas for WebAssembly, its loader and its types as npm does, into dist/trirast-VERSION.tgz.

    python3 -m tools.packaging.npm

`make npm` builds the module first. npm itself is not needed. Two runs over the same files give the same bytes.
"""

from __future__ import annotations

import os
import sys

from tools.packaging.archives import LICENSES, tar_of
from tools.packaging.common import DIST, release, write
from tools.places import LIB, TOP, bytes_of, files, text_of

OWN = os.path.join("packaging", "npm")
MODULE = os.path.join(LIB, "wasm64", "canvas.wasm")
# What the package takes of the page: the classes over the module, and what these import.
OF_THE_PAGE = ("canvas.js", "core.js", "interface.js", "numbers.js", "packed.js", "struct.js", "structs.js")
# npm's folder in each package.
FOLDER = "package"


def contents() -> dict[str, bytes]:
    """The files of the package by their names."""
    found = {os.path.basename(path): bytes_of(path) for path in files(OWN, "*")}
    found["package.json"] = text_of(OWN, "package.json").replace("@VERSION@", release()).encode()
    found.update({name: bytes_of("web", name) for name in OF_THE_PAGE})
    found.update({name: bytes_of(name) for name in LICENSES})
    return {**found, "canvas.wasm": bytes_of(MODULE)}


def path_of() -> str:
    return os.path.join(DIST, f"trirast-{release()}.tgz")


def build() -> str:
    """Builds the package. Returns its path."""
    found = contents()
    write(path_of(), tar_of({f"{FOLDER}/{name}": found[name] for name in sorted(found)}))
    return path_of()


def main() -> int:
    print(os.path.relpath(build(), TOP), flush=True)
    return 0


if __name__ == "__main__":
    sys.exit(main())
