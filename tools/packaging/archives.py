"""Packs the library of each platform into an archive in dist/, with headers, CMake files and licences.

    python3 -m tools.packaging.archives

`make release` builds the libraries first. All archives have one folder trirast-VERSION, so that they can be unpacked
over one another: a library lies in lib/PLATFORM/, and trirast-config.cmake there takes that of the platform. Those for
Windows are zip files, the others tar files. Two runs over the same files give the same bytes.
"""

from __future__ import annotations

import gzip
import io
import os
import sys
import tarfile
import time
import zipfile

from tools.packaging.common import (
    DIST, FILE_MODE, PROGRAM_MODE, SUMS, files_below, release, release_time,
)
from tools.packaging.platforms import BUILT
from tools.places import INCLUDE, LEVEL, LIB, TOP, bytes_of, text_of

LICENSES = ("LICENSE", "LICENSE-MIT", "LICENSE-APACHE")
CMAKE = os.path.join("packaging", "cmake")
# The libraries that `make library` leaves elsewhere, by their names in an archive.
SHARED = "libtrirast.so.2"
ON_LINUX = {
    "linux-x86_64": {
        "libtrirast.a": "libtrirast.a", SHARED: SHARED, f"glibc-hwcaps/{LEVEL}/{SHARED}": f"{LEVEL}/{SHARED}"
    },
    "linux-arm64": {name: f"aarch64/{name}" for name in ("libtrirast.a", SHARED)},
}


def libraries_of(platform: str) -> dict[str, bytes]:
    """The files of a platform's library by their names."""
    if platform in ON_LINUX:
        return {name: bytes_of(LIB, path) for name, path in ON_LINUX[platform].items()}
    folder = os.path.join(BUILT, platform)
    return {name: bytes_of(folder, name) for name in files_below(folder) if name != SUMS}


def contents(platform: str) -> dict[str, bytes]:
    """All files of a platform's archive by their names."""
    found = {f"include/{name}": bytes_of(INCLUDE, name) for name in files_below(INCLUDE)}
    found.update({f"lib/{platform}/{name}": data for name, data in libraries_of(platform).items()})
    found.update({name: bytes_of(name) for name in LICENSES})
    for name in ("trirast-config.cmake", "trirast-config-version.cmake"):
        text = text_of(CMAKE, name).replace("@VERSION@", release()).replace("@PREFIX_FROM_HERE@", "../../..")
        found[f"lib/cmake/trirast/{name}"] = text.encode()
    return {f"trirast-{release()}/{name}": found[name] for name in sorted(found)}


def mode_of(name: str) -> int:
    return PROGRAM_MODE if name.endswith((".dll", ".dylib", ".so.2")) else FILE_MODE


def zip_of(files: dict[str, bytes]) -> bytes:
    buffer = io.BytesIO()
    with zipfile.ZipFile(buffer, "w", zipfile.ZIP_DEFLATED, compresslevel=9) as archive:
        for name, data in files.items():
            member = zipfile.ZipInfo(name, time.gmtime(release_time())[:6])
            member.external_attr, member.compress_type = mode_of(name) << 16, zipfile.ZIP_DEFLATED
            archive.writestr(member, data)
    return buffer.getvalue()


def tar_of(files: dict[str, bytes]) -> bytes:
    buffer = io.BytesIO()
    with tarfile.open(fileobj=buffer, mode="w") as archive:
        for name, data in files.items():
            member = tarfile.TarInfo(name)
            member.size, member.mode, member.mtime = len(data), mode_of(name), release_time()
            archive.addfile(member, io.BytesIO(data))
    return gzip.compress(buffer.getvalue(), 9, mtime=0)


def path_of(platform: str) -> str:
    kind = "zip" if platform.startswith("windows") else "tar.gz"
    return os.path.join(DIST, f"trirast-{release()}-{platform}.{kind}")


def are_there(folder: str, *names: str) -> bool:
    return all(os.path.exists(os.path.join(folder, name)) for name in names)


def built() -> list[str]:
    """The platforms whose library is there."""
    found = [name for name, paths in ON_LINUX.items() if are_there(LIB, *paths.values())]
    others = sorted(os.listdir(BUILT)) if os.path.isdir(BUILT) else []
    return found + [name for name in others if are_there(BUILT, os.path.join(name, SUMS))]


def main() -> int:
    os.makedirs(DIST, exist_ok=True)
    for platform in built():
        files, path = contents(platform), path_of(platform)
        with open(path, "wb") as file:
            file.write(zip_of(files) if path.endswith(".zip") else tar_of(files))
        print(os.path.relpath(path, TOP), flush=True)
    return 0


if __name__ == "__main__":
    sys.exit(main())
