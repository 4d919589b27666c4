"""Stands for Conan: makes the package of packaging/recipes/conan/conanfile.py from archives of this machine.

    python3 tests/packages/conan_stand_in.py RECIPE DIST FOLDER OS ARCH COMPILER static|shared

Leaves the package in FOLDER/package, and prints the libraries that a program links.
"""

from __future__ import annotations

import fnmatch
import hashlib
import os
import shutil
import sys
import types
import urllib.parse
from typing import Any

RECIPE, DIST, FOLDER, SYSTEM, PROCESSOR, COMPILER, KIND = sys.argv[1:]


class ConanFile:
    def __init__(self) -> None:
        names = {"os": SYSTEM, "arch": PROCESSOR, "compiler": COMPILER, "build_type": "Release"}
        self.settings = types.SimpleNamespace(**names)
        self.info = types.SimpleNamespace(settings=types.SimpleNamespace(**names))
        self.options = types.SimpleNamespace(shared=KIND == "shared")
        self.cpp_info = types.SimpleNamespace()
        self.build_folder, self.package_folder = (os.path.join(FOLDER, name) for name in ("build", "package"))


class ConanInvalidConfiguration(Exception):
    pass


def get(recipe: ConanFile, url: str, sha256: str, strip_root: bool) -> None:
    path = os.path.join(DIST, os.path.basename(urllib.parse.urlparse(url).path))
    with open(path, "rb") as file:
        assert hashlib.sha256(file.read()).hexdigest() == sha256, path
    assert strip_root
    shutil.unpack_archive(path, FOLDER)
    (top,) = (name for name in os.listdir(FOLDER) if name.startswith("trirast-"))
    os.rename(os.path.join(FOLDER, top), recipe.build_folder)


def copy(_recipe: ConanFile, pattern: str, source: str, target: str) -> None:
    for path, _, names in os.walk(source):
        for name in names:
            inner = os.path.relpath(os.path.join(path, name), source)
            if fnmatch.fnmatch(inner, pattern):
                os.makedirs(os.path.dirname(os.path.join(target, inner)), exist_ok=True)
                shutil.copy2(os.path.join(source, inner), os.path.join(target, inner))


def main() -> None:
    modules: dict[str, dict[str, Any]] = {
        "conan": {"ConanFile": ConanFile}, "conan.errors": {"ConanInvalidConfiguration": ConanInvalidConfiguration},
        "conan.tools": {}, "conan.tools.files": {"copy": copy, "get": get},
    }
    for name, members in modules.items():
        sys.modules[name] = types.ModuleType(name)
        vars(sys.modules[name]).update(members)
    found: dict[str, Any] = {}
    with open(RECIPE, encoding="utf-8") as file:
        exec(file.read(), found)
    recipe = found["Trirast"]()
    for step in (recipe.validate, recipe.package_id, recipe.build, recipe.package, recipe.package_info):
        step()
    print(*recipe.cpp_info.libs)


if __name__ == "__main__":
    main()
