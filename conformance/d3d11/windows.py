"""Writes the archive by which Direct3D and Vulkan are asked on a Windows machine that has nothing installed.

    python3 -m conformance.d3d11.windows dist/trirast-conformance-windows.zip

It has rasterize.exe for Direct3D and rasterize-vulkan.exe, the requests of all subjects for each, a .cmd that
draws them, and a page that says what to send back. The same sources give the same bytes. Exit status 2 if
there is no such program.
"""

from __future__ import annotations

import argparse
import os
import sys
import zipfile
from typing import Sequence

from conformance import suites
from conformance.d3d11 import process
from conformance.d3d11.run import requests_of
from conformance.d3d11.requests import version_of
from conformance.d3d11.streams import identity_of, write_requests
from conformance.vulkan import samples
from conformance.vulkan.process import EXE as VULKAN_EXE
from tools.places import bytes_of, text_of

FOLDER = "trirast-conformance"
FILES = os.path.join("conformance", "d3d11", "windows_files")
# The first time that an archive can name.
TIME = (1980, 1, 1, 0, 0, 0)


def windows_text(name: str) -> str:
    """A file of this repository with the line ends of Windows."""
    return text_of(FILES, name).replace("\n", "\r\n")


def contents(
    exe: bytes, requests: Sequence[bytes], vulkan_exe: bytes, vulkan_requests: Sequence[bytes]
) -> dict[str, bytes]:
    """The files of the archive."""
    page = windows_text("README.txt").format(
        requests=len(requests), identity=identity_of(requests).hex(), vulkan_requests=len(vulkan_requests),
        vulkan_identity=identity_of(vulkan_requests).hex(),
    )
    return {
        "README.txt": page.encode(),
        "draw.cmd": windows_text("draw.cmd").encode(),
        "rasterize.exe": exe,
        "requests.bin": write_requests(requests, version_of(requests)),
        "rasterize-vulkan.exe": vulkan_exe,
        "requests-vulkan.bin": write_requests(vulkan_requests, version_of(vulkan_requests)),
    }


def write_archive(path: str, files: dict[str, bytes]) -> None:
    os.makedirs(os.path.dirname(path) or ".", exist_ok=True)
    with zipfile.ZipFile(path, "w", zipfile.ZIP_DEFLATED) as archive:
        for name, data in files.items():
            archive.writestr(zipfile.ZipInfo(f"{FOLDER}/{name}", TIME), data, zipfile.ZIP_DEFLATED)


def main() -> int:
    parser = argparse.ArgumentParser(description="Writes the archive for Windows.")
    parser.add_argument("archive")
    parser.add_argument("--exe", default=process.EXE, help="default conformance/out/rasterize.exe")
    parser.add_argument("--vulkan-exe", default=VULKAN_EXE, help="default conformance/out/rasterize-vulkan.exe")
    options = parser.parse_args()
    try:
        exe, vulkan_exe = (bytes_of(path) for path in (options.exe, options.vulkan_exe))
    except OSError as error:
        print(f"conformance: {error}", file=sys.stderr)
        return 2
    requests = requests_of(suites.DIRECT3D)
    # Vulkan is asked the same subjects, and values at samples.
    write_archive(options.archive, contents(exe, requests, vulkan_exe, [*requests, *samples.requests()]))
    print(f"{options.archive}: {os.path.getsize(options.archive):,} bytes")
    return 0


if __name__ == "__main__":
    sys.exit(main())
