"""Packs recipes over the archives of a release into dist/: for vcpkg, Conan, conda and Homebrew.

    python3 -m tools.packaging.recipes

`make release` builds the archives first. In a recipe `@VERSION@` is the release, `@URL@` the address below which its
files are, from the environment's RELEASE_URL, and `@SHA256:PLATFORM@` or `@SHA512:PLATFORM@` the checksum of an
archive. Two runs over the same files give the same bytes.
"""

from __future__ import annotations

import hashlib
import os
import re
import sys

from tools.packaging.archives import path_of as archive_of, tar_of
from tools.packaging.common import DIST, files_below, release, write
from tools.places import TOP, bytes_of, text_of

RECIPES = os.path.join("packaging", "recipes")
# No release has been published. The domain is one that never exists (RFC 2606).
URL = "https://example.invalid/trirast"
SUM = re.compile(r"@(SHA256|SHA512):([\w-]+)@")


def address() -> str:
    """The address below which the archives are."""
    return os.environ.get("RELEASE_URL", URL)


def filled(text: str) -> str:
    """A recipe with the release's own words. Raises `OSError` if an archive is missing."""
    text = text.replace("@VERSION@", release()).replace("@URL@", address())
    return SUM.sub(lambda found: hashlib.new(found[1], bytes_of(archive_of(found[2]))).hexdigest(), text)


def contents() -> dict[str, bytes]:
    """The recipes by their names."""
    return {name: filled(text_of(RECIPES, name)).encode() for name in files_below(os.path.join(TOP, RECIPES))}


def path_of() -> str:
    return os.path.join(DIST, f"trirast-{release()}-recipes.tar.gz")


def build() -> str:
    """Packs the recipes. Returns the path of the archive."""
    folder = f"trirast-{release()}-recipes"
    write(path_of(), tar_of({f"{folder}/{name}": data for name, data in contents().items()}))
    return path_of()


def main() -> int:
    print(os.path.relpath(build(), TOP), flush=True)
    return 0


if __name__ == "__main__":
    sys.exit(main())
