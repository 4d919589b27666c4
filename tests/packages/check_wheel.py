"""The wheels: an installation by pip into a fresh environment without an index, pictures drawn there, and those for
other platforms, as far as Wine and qemu run them."""

from __future__ import annotations

import base64
import csv
import email
import hashlib
import importlib
import importlib.util
import json
import os
import re
import sys
import zipfile
from typing import Any, Iterator

from tools import places
from tests.cases import Case, MissingError, case, must
from tests.library.commands import drawn_by_program, make, need, run
from tests.library.runners import RUNNERS
from tools.packaging import listing, wheel
from tests.packages.checking import (
    LISTS, OUT, WITHOUT_LEVEL, check_documented, check_library_sizes, clean_environment, picture_of_the_page,
    program_of_the_page,
)
from tools.packaging.common import make_anew, release, write
from tools.places import INCLUDE, LEVEL

ENVIRONMENT = os.path.join(OUT, "venv")
# The compiler and the processor of the platforms for which `make library` builds.
BY_MAKE_LIBRARY = {"linux-x86_64": ("cc", "x86_64"), "linux-arm64": ("aarch64-linux-gnu-gcc", "aarch64")}
# The platforms of which Wine or qemu runs programs.
ELSEWHERE = ("linux-arm64", "linux-riscv64", "windows-x86_64")
# Draws each list of standard input, writes the files' checksums, and says which library was loaded.
PROGRAM = """\
import hashlib, json, sys, trirast
pictures = [trirast.draw(text, threads=4) for text in json.load(sys.stdin)]
sums = [hashlib.sha256(picture.header + picture.bytes).hexdigest() for picture in pictures]
maps = [line.split()[-1] for line in open("/proc/self/maps") if "libtrirast" in line]
libraries = sorted(set(maps))
print(json.dumps({"sums": sums, "libraries": libraries, "version": trirast.__version__, "at": trirast.__file__}))
"""
# Loads the library that its argument names as ctypes does, and calls it.
LOADS = """\
#include <dlfcn.h>
#include <stdint.h>
#include <trirast.h>
int main(int count, char **arguments) {
    void *library = count == 2 ? dlopen(arguments[1], RTLD_NOW) : 0;
    uint32_t (*number)(void) = library ? (uint32_t (*)(void))dlsym(library, "trirast_interface") : 0;
    return number && number() == TRIRAST_INTERFACE ? 0 : 1;
}
"""


def check_build(platform: str) -> str:
    """A platform's wheel, built twice. What `make platforms` leaves is there, since the check runs it."""
    need("readelf")
    if platform in BY_MAKE_LIBRARY:
        compiler, processor = BY_MAKE_LIBRARY[platform]
        need(compiler)
        make("library", f"ARCH={processor}")
    if not wheel.TARGETS[platform].is_built():
        raise MissingError(f"library for {platform}")
    first = places.bytes_of(wheel.build(platform))
    must(first == places.bytes_of(wheel.build(platform)), "a second build has other bytes")
    return f"{os.path.basename(wheel.path_of(platform))}, {len(first) // 1000} KB"


def pyproject() -> Any:
    """What python/pyproject.toml says. Raises `MissingError` if this Python cannot read it."""
    if importlib.util.find_spec("tomllib") is None:
        raise MissingError("tomllib, of Python 3.11")
    return importlib.import_module("tomllib").loads(places.text_of("python", "pyproject.toml"))


def check_metadata(platform: str) -> str:
    """The wheel says of the package what pyproject.toml says: its extras too, each with all that it needs."""
    project = pyproject()["project"]
    with zipfile.ZipFile(wheel.path_of(platform)) as file:
        found = email.message_from_bytes(file.read(f"trirast-{release()}.dist-info/METADATA"))
        form = email.message_from_bytes(file.read(f"trirast-{release()}.dist-info/WHEEL"))
    wanted = {
        "Name": project["name"], "Version": release(), "Summary": project["description"],
        "Requires-Python": project["requires-python"], "License": project["license"]["text"],
    }
    must({key: found[key] for key in wanted} == wanted, f"{dict(found.items())}")
    must(sorted(found.get_all("License-File", ())) == sorted(wheel.LICENSES), "other licences")
    must(
        found["Description-Content-Type"] == "text/markdown"
        and found.get_payload() == places.text_of("python", project["readme"]), "another description"
    )
    extras = project["optional-dependencies"]
    must(sorted(found.get_all("Provides-Extra", [])) == sorted(extras), f"the extras {found.get_all('Provides-Extra')}")
    needs = {(extra, need.replace(" ", "")) for extra, all_needs in extras.items() for need in all_needs}
    written = [
        re.fullmatch(r"""(.*?) *; *extra *== *['"](.*)['"]""", line) for line in found.get_all("Requires-Dist", ())
    ]
    got = {(each[2], re.sub("[ ()]", "", each[1])) for each in written if each}
    must(got == needs and None not in written, f"{sorted(got ^ needs)} in one of the wheel and pyproject.toml alone")
    must(
        form.get_all("Tag") == [f"py3-none-{tag}" for tag in wheel.TARGETS[platform].tags]
        and form["Root-Is-Purelib"] == "false",
        f"{form}",
    )
    return f"{len(extras)} extras"


def check_by_twine() -> str:
    """twine finds nothing wrong with the metadata of any wheel: PyPI would show each description."""
    paths = [path for path in map(wheel.path_of, wheel.TARGETS) if os.path.exists(path)]
    run([need("twine"), "check", "--strict", *paths], env=clean_environment())
    return f"{len(paths)} wheels"


def check_install() -> None:
    """pip installs the wheel where nothing is but itself, without an index."""
    if importlib.util.find_spec("ensurepip") is None:
        raise MissingError("package python3-venv")
    make_anew(ENVIRONMENT)
    run([sys.executable, "-m", "venv", ENVIRONMENT], env=clean_environment())
    python = os.path.join(ENVIRONMENT, "bin", "python")
    flags = ["--no-index", "--disable-pip-version-check", "--quiet"]
    run([python, "-m", "pip", "install", *flags, wheel.path_of("linux-x86_64")], cwd=OUT, env=clean_environment())
    run([python, "-m", "pip", "check"], cwd=OUT, env=clean_environment())


def drawn_there(**more: str) -> tuple[str, ...]:
    """Draws all examples in the environment, and compares them. Returns the libraries that were loaded."""
    texts = [places.bytes_of(path) for path in LISTS]
    command = [os.path.join(ENVIRONMENT, "bin", "python"), "-c", PROGRAM]
    given = json.dumps([text.decode() for text in texts]).encode()
    answer = json.loads(run(command, input=given, cwd=OUT, env=clean_environment(**more)))
    must(
        answer["version"] == release() and answer["at"].startswith(ENVIRONMENT),
        f"{answer['version']} at {answer['at']}",
    )
    for path, text, found in zip(LISTS, texts, answer["sums"]):
        must(found == hashlib.sha256(drawn_by_program(text).output).hexdigest(), f"other bytes for {path}")
    return tuple(answer["libraries"])


def check_draws() -> str:
    """import trirast draws, by a library of the wheel. Returns which one the loader took."""
    libraries = drawn_there()
    must(len(libraries) == 1 and libraries[0].startswith(ENVIRONMENT), f"{libraries} were loaded")
    return f"{len(LISTS)} pictures, {os.path.relpath(libraries[0], ENVIRONMENT)}"


def check_first_level() -> None:
    """On a processor of the first level the wheel takes the other library, and draws the same."""
    libraries = drawn_there(**WITHOUT_LEVEL)
    must(len(libraries) == 1 and LEVEL not in libraries[0], f"{libraries} were loaded")


def check_files(platform: str) -> None:
    for title, files in listing.wheel_lists(platform).items():
        check_documented(title, files)
    if platform in ("linux-x86_64", "linux-arm64"):
        check_library_sizes(listing.wheel_files(platform))


def check_record(platform: str) -> str:
    """The wheel's own list has each file with its checksum and its size, and no other."""
    record = f"trirast-{release()}.dist-info/RECORD"
    with zipfile.ZipFile(wheel.path_of(platform)) as file:
        held = {name: file.read(name) for name in file.namelist()}
    wanted = {(name, f"sha256={digest(data)}", str(len(data))) for name, data in held.items() if name != record}
    listed = {tuple(row) for row in csv.reader(held[record].decode().splitlines())}
    must(listed == wanted | {(record, "", "")}, f"{sorted(listed ^ wanted)[:4]} in one alone")
    return f"{len(held)} files"


def digest(data: bytes) -> str:
    return base64.urlsafe_b64encode(hashlib.sha256(data).digest()).rstrip(b"=").decode()


# ---- On other platforms


def unpacked(platform: str) -> str:
    """Has pip install a platform's wheel in an empty folder, from no index. So it requires no other package. Returns
    the folder of the library there."""
    folder = make_anew(os.path.join(OUT, f"wheel-{platform}"))
    flags = ["--no-index", "--only-binary=:all:", "--disable-pip-version-check", "--quiet", "--target", folder]
    python = os.path.join(ENVIRONMENT, "bin", "python")
    command = [python, "-m", "pip", "install", *flags, "--platform", wheel.TARGETS[platform].tags[-1]]
    run([*command, wheel.path_of(platform)], cwd=OUT, env=clean_environment())
    return os.path.join(folder, "trirast", wheel.FOLDER)


def check_unpacked(platform: str) -> str:
    """pip installs the wheel in an empty folder, with the library as it was built."""
    folder = unpacked(platform)
    for name, path in wheel.TARGETS[platform].libraries.items():
        must(places.bytes_of(folder, name) == places.bytes_of(path), f"{name} has other bytes")
    return ", ".join(wheel.TARGETS[platform].libraries)


def check_draws_elsewhere(platform: str) -> str:
    """The library of the wheel draws by Wine or qemu, as a program in C calls it."""
    runner, folder = RUNNERS[platform], unpacked(platform)
    # On Windows a program is linked with the import library, and loads the DLL that lies beside it.
    is_windows = "windows" in platform
    library = os.path.join(*((runner.folder, "libtrirast.dll.a") if is_windows else (folder, wheel.SHARED)))
    drawn = run([*started(platform, folder), build_over(platform, "draws", program_of_the_page(), folder, library)])
    # Windows writes a carriage return before each line feed, since the page's program does not ask for bytes.
    must(drawn.replace(b"\r\n", b"\n") == picture_of_the_page(), "other bytes")
    if wheel.LOADED in wheel.TARGETS[platform].libraries:
        loads = build_over(platform, "loads", LOADS, folder)
        run([*started(platform), loads, os.path.join(folder, wheel.LOADED)], env=clean_environment())
    return f"the program of docs/how-to/install.md, by {runner.starter[-1]}"


def started(platform: str, folder: str = "") -> list[str]:
    """The words before a program that loads its libraries, also from this folder."""
    if "windows" in platform:
        return list(RUNNERS[platform].starter)
    processor = RUNNERS[platform].compilers[0].partition("-")[0]
    search = ["-E", f"LD_LIBRARY_PATH={folder}"] if folder else []
    return [*RUNNERS[platform].starter, "-L", f"/usr/{processor}-linux-gnu", *search]


def build_over(platform: str, name: str, text: str, folder: str, *libraries: str) -> str:
    """Builds a program in C for a platform, in the folder of the libraries. Returns its path."""
    source, program = os.path.join(folder, f"{name}.c"), os.path.join(folder, f"{name}.exe")
    write(source, text.encode())
    runner = RUNNERS[platform]
    for command in (runner.compilers[0], runner.starter[-1]):
        need(command)
    run([runner.compilers[0], source, "-o", program, "-I", INCLUDE, *libraries])
    return program


def cases() -> Iterator[Case]:
    installed = "wheel: pip installs it"
    for platform in wheel.TARGETS:
        built = f"wheel: {platform}, built twice the same"
        yield case(built, check_build, platform)
        if platform == "linux-x86_64":
            yield case(installed, check_install, needs=built)
        yield case(f"wheel: {platform} says what pyproject.toml says", check_metadata, platform, needs=built)
        yield case(f"wheel: {platform} lists its files with their checksums", check_record, platform, needs=built)
        yield case(f"wheel: packaging/FILES.md lists the files for {platform}", check_files, platform, needs=built)
        yield case(f"wheel: pip installs that for {platform} in an empty folder", check_unpacked, platform, needs=built)
        if platform in ELSEWHERE:
            yield case(f"wheel: {platform} draws", check_draws_elsewhere, platform, needs=built)
    yield case("wheel: twine finds nothing wrong", check_by_twine, needs="wheel: linux-x86_64, built twice the same")
    yield case("wheel: import trirast draws", check_draws, needs=installed)
    yield case("wheel: the first level draws", check_first_level, needs=installed)
