"""The recipes over the archives of a release. vcpkg, Conan, conda and Homebrew are not here: stand-ins run the recipes
of the first two, and of the others lines and a script are checked."""

from __future__ import annotations

import hashlib
import os
import re
import sys
from typing import Iterator

from tests.cases import Case, CheckError, MissingError, case, must
from tests.library.commands import need, run
from tests.packages.check_archives import drawn_by_cmake
from tests.packages.checking import OUT, check_in_c, clean_environment
from tools.packaging import archives, recipes
from tools.packaging.common import DIST, files_below, make_anew, release, write
from tools.places import TOP, bytes_of, text_of

FOLDER = os.path.join(OUT, "recipes")
TESTS = os.path.join(TOP, "tests", "packages")
# Of each platform: the words of vcpkg; system, processor and compiler of Conan; and what conda's selectors say of it.
PLATFORMS = {
    "linux-x86_64": (("x64", "LINUX"), ("Linux", "x86_64", "gcc"), {"linux", "linux64", "x86_64"}),
    "linux-arm64": (("arm64", "LINUX"), ("Linux", "armv8", "gcc"), {"linux", "aarch64"}),
    "linux-riscv64": (("riscv64", "LINUX"), ("Linux", "riscv64", "gcc"), {"linux", "riscv64"}),
    "windows-x86_64": (("x64", "WINDOWS"), ("Windows", "x86_64", "msvc"), {"win", "win64", "x86_64"}),
    "windows-arm64": (("arm64", "WINDOWS"), ("Windows", "armv8", "msvc"), {"win", "arm64"}),
    "macos-x86_64": (("x64", "OSX"), ("Macos", "x86_64", "apple-clang"), {"osx", "x86_64"}),
    "macos-arm64": (("arm64", "OSX"), ("Macos", "armv8", "apple-clang"), {"osx", "arm64"}),
}
SELECTED = re.compile(r"^(.*?)  # \[(.*)\]$")


def check_build() -> str:
    """Built twice the same, over the archive of each platform. No word is left to fill in."""
    if missing := sorted(PLATFORMS.keys() - set(archives.built())):
        raise MissingError(f"library for {', '.join(missing)}")
    first = bytes_of(recipes.build())
    must(first == bytes_of(recipes.build()), "a second build has other bytes")
    make_anew(FOLDER)
    for name, data in recipes.contents().items():
        must(re.search(rb"@[A-Z0-9]+(:.*)?@", data) is None, f"{name}: a word is left")
        write(os.path.join(FOLDER, name), data)
    return ", ".join(recipes.contents())


def wanted(platform: str) -> tuple[str, str]:
    """The name of a platform's archive, and its checksum."""
    path = archives.path_of(platform)
    return os.path.basename(path), hashlib.sha256(bytes_of(path)).hexdigest()


def files_of(platform: str) -> dict[str, bytes]:
    """What a platform's archive has below include and lib."""
    top = f"trirast-{release()}/"
    held = {name[len(top):]: data for name, data in archives.contents(platform).items()}
    return {name: data for name, data in held.items() if name.startswith(("include/", "lib/"))}


def below(folder: str, *parts: str) -> dict[str, bytes]:
    names = [name for name in files_below(folder) if name.startswith(parts)]
    return {name: bytes_of(folder, name) for name in names}


def check_vcpkg(platform: str) -> None:
    """The port installs the archive of the platform."""
    (processor, system), _, _ = PLATFORMS[platform]
    folder = make_anew(os.path.join(FOLDER, "packages", platform))
    given = {
        "VCPKG_TARGET_ARCHITECTURE": processor, f"VCPKG_TARGET_IS_{system}": "1", "CURRENT_PACKAGES_DIR": folder,
        "DIST": DIST, "WORK": os.path.join(FOLDER, "work"), "PORT": os.path.join(FOLDER, "vcpkg"),
    }
    words = [f"-D{name}={value}" for name, value in given.items()]
    run([need("cmake"), *words, "-P", os.path.join(TESTS, "vcpkg_stand_in.cmake")])
    must(below(folder, "include/", "lib/") == files_of(platform), "other files")


def check_other_platform() -> None:
    """The port names a platform that the release does not have."""
    port = os.path.join(FOLDER, "vcpkg")
    words = ["-DVCPKG_TARGET_ARCHITECTURE=mips", "-DVCPKG_TARGET_IS_LINUX=1", f"-DPORT={port}"]
    try:
        run([need("cmake"), *words, "-P", os.path.join(TESTS, "vcpkg_stand_in.cmake")])
    except CheckError as error:
        must("expected a platform of the release, got linux-mips" in " ".join(str(error).split()), str(error))
        return
    raise CheckError("the port took the library of another platform")


def made_by_conan(platform: str, kind: str) -> tuple[str, list[str]]:
    """The package of Conan's recipe, and the libraries that a program links."""
    folder = make_anew(os.path.join(FOLDER, f"conan-{platform}-{kind}"))
    program, recipe = os.path.join(TESTS, "conan_stand_in.py"), os.path.join(FOLDER, "conan", "conanfile.py")
    words = [recipe, DIST, folder, *PLATFORMS[platform][1], kind]
    return os.path.join(folder, "package"), run([sys.executable, program, *words]).decode().split()


def check_conan(platform: str) -> None:
    """Both kinds of package have the library that they name, and the headers."""
    for kind in ("static", "shared"):
        folder, (library,) = made_by_conan(platform, kind)
        names = {f"lib{library}.a", f"lib{library}.so", f"lib{library}.dylib", f"{library}.lib"}
        must(not names.isdisjoint(files_below(os.path.join(folder, "lib"))), f"no library {library}")
        needs_dll = platform.startswith("windows") and kind == "shared"
        must(files_below(os.path.join(folder, "bin")) == ["trirast.dll"] * needs_dll, "a DLL too few or too many")
        headers = {name: data for name, data in files_of(platform).items() if name.startswith("include/")}
        must(below(folder, "include/") == headers, "other headers")


def check_conan_draws() -> None:
    """A program over either kind of package draws the picture of the page."""
    for kind in ("static", "shared"):
        folder, (library,) = made_by_conan("linux-x86_64", kind)
        libraries = os.path.join(folder, "lib")
        flags = ["-I", os.path.join(folder, "include"), "-L", libraries, f"-l{library}", f"-Wl,-rpath,{libraries}"]
        check_in_c(os.path.join(FOLDER, f"program-{kind}"), flags, clean_environment())


def check_conda(platform: str) -> None:
    """Of the recipe's lines those for the platform name its archive alone, with its checksum."""
    selectors = {name: name in PLATFORMS[platform][2] for _, _, names in PLATFORMS.values() for name in names}
    selectors["unix"] = not selectors["win"]
    kept = []
    for line in text_of(FOLDER, "conda", "meta.yaml").replace("{{ version }}", release()).splitlines():
        found = SELECTED.match(line)
        if not found or eval(found[2], {}, selectors):
            kept.append(found[1] if found else line)
    archive = [re.findall(rf"^(?:  - |    ){key}: (.*)$", "\n".join(kept), re.MULTILINE) for key in ("url", "sha256")]
    name, digest = wanted(platform)
    must(archive == [[f"{recipes.address()}/{name}"], [digest]], f"{archive}")


def check_conda_build() -> None:
    """The script installs the archive."""
    work = make_anew(os.path.join(FOLDER, "conda-work"))
    for name, data in archives.contents("linux-x86_64").items():
        write(os.path.join(work, name.partition("/")[2]), data)
    prefix = os.path.join(FOLDER, "conda-prefix")
    run(["bash", os.path.join(FOLDER, "conda", "build.sh")], cwd=work, env=clean_environment(PREFIX=prefix))
    must(below(prefix, "include/", "lib/") == files_of("linux-x86_64"), "other files")


def check_homebrew() -> str:
    """The formula names four archives with their checksums, each in the block of its platform."""
    text = text_of(FOLDER, "homebrew", "trirast.rb")
    found = []
    for system, block in re.findall(r"^  on_(macos|linux) do\n(.*?)^  end$", text, re.MULTILINE | re.DOTALL):
        for kind, url, digest in re.findall(r'on_(arm|intel) do\s+url "(.*)"\s+sha256 "(.*)"\s+end', block):
            platform = f"{system}-{'arm64' if kind == 'arm' else 'x86_64'}"
            must((os.path.basename(url), digest) == wanted(platform), f"{platform}: {url}")
            found.append(platform)
    must(len(set(found)) == 4, f"{found}")
    return ", ".join(found)


def cases() -> Iterator[Case]:
    built, draws = "recipes: built twice the same", "recipes: vcpkg's port for linux-x86_64"
    yield case(built, check_build)
    for platform in PLATFORMS:
        yield case(f"recipes: vcpkg's port for {platform}", check_vcpkg, platform, needs=built)
        yield case(f"recipes: Conan's for {platform}", check_conan, platform, needs=built)
        yield case(f"recipes: conda's for {platform}", check_conda, platform, needs=built)
    prefix = os.path.join(FOLDER, "packages", "linux-x86_64")
    yield case("recipes: a program over vcpkg's port draws", drawn_by_cmake, "linux-x86_64", prefix, needs=draws)
    yield case("recipes: vcpkg's port for a platform without an archive", check_other_platform, needs=built)
    yield case("recipes: programs over Conan's package draw", check_conan_draws, needs=built)
    yield case("recipes: conda's script", check_conda_build, needs=built)
    yield case("recipes: Homebrew's formula", check_homebrew, needs=built)
