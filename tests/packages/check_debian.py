"""The Debian packages: lintian, an installation by dpkg in a folder of its own, programs over it, and their removal."""

from __future__ import annotations

import glob
import os
import re
import subprocess
from typing import Iterator

from tools import places
from tests.cases import Case, MissingError, case, must
from tests.library.commands import drawn_by_program, need, run
from tools.packaging import debian, listing
from tests.packages.checking import (
    LISTS, OUT, build_in, build_taken, check_documented, check_in_c, check_library_sizes, clean_environment, has_level,
)
from tools.packaging.common import DIST, files_below, make_anew, write
from tools.places import LEVEL

ROOT = os.path.join(OUT, "debian-root")
LIBRARIES = os.path.join(ROOT, debian.LIBRARIES)
# The packages of the system that ours depend on: dpkg in the folder is given those that the machine has.
OF_THE_SYSTEM = ("libc6", "libc6-dev")


def packages() -> list[str]:
    return sorted(glob.glob(os.path.join(DIST, "*.deb")))


def check_build() -> str:
    for command in ("dpkg-deb", "dpkg-shlibdeps", "dpkg-gencontrol", "strip"):
        need(command)
    first = {path: places.bytes_of(path) for path in debian.build()}
    again = {path: places.bytes_of(path) for path in debian.build()}
    must(first == again, "a second build has other bytes")
    return ", ".join(f"{os.path.basename(path)} {len(data) // 1000} KB" for path, data in first.items())


def check_dependencies() -> str:
    """The program and the shared library depend on the C library alone, and on a version of it."""
    found = [run(["dpkg-deb", "--field", path, "Depends"]).decode().strip() for path in packages()]
    must(len(found) == 3, f"{len(found)} packages in dist/")
    of_dev, of_library, of_program = found
    must(of_dev == f"libtrirast2 (= {debian.version()}), libc6-dev", of_dev)
    for depends in (of_library, of_program):
        must(re.fullmatch(r"libc6 \(>= [\d.]+\)", depends) is not None, depends)
    return f"{of_program}; {of_library}"


def check_lintian() -> str:
    done = subprocess.run([need("lintian"), "--allow-root", *packages()], capture_output=True, text=True)
    lines = done.stdout.splitlines()
    errors = [line for line in lines if line.startswith("E:")]
    must(done.returncode in (0, 1) and not errors, "; ".join(errors) or done.stderr[-600:])
    return f"no error, {len(lines)} warnings" if lines else "nothing"


def stanza(package: str) -> str:
    """What dpkg knows of a package that the machine has."""
    done = subprocess.run([need("dpkg-query"), "--status", package], capture_output=True, text=True)
    if done.returncode:
        raise MissingError(f"package {package}")
    return re.sub(
        r"^(Depends|Pre-Depends|Recommends|Suggests|Conffiles):.*\n(?: .*\n)*", "", done.stdout, flags=re.MULTILINE
    )


def dpkg(*arguments: str) -> str:
    """Runs dpkg on the folder as the root of a system. Returns what it writes."""
    path = f"{os.environ.get('PATH', '')}:/usr/sbin:/sbin"
    flags = [f"--root={ROOT}", f"--log={os.path.join(OUT, 'dpkg.log')}", "--force-not-root"]
    return run([need("dpkg"), *flags, *arguments], env=clean_environment(PATH=path)).decode()


def check_install() -> str:
    """dpkg installs the packages where nothing is but what they depend on. Returns how many files there are."""
    make_anew(ROOT)
    known = "\n".join(stanza(package).rstrip("\n") + "\n" for package in OF_THE_SYSTEM)
    write(os.path.join(ROOT, "var", "lib", "dpkg", "status"), known.encode())
    os.makedirs(os.path.join(ROOT, "var", "lib", "dpkg", "info"))
    os.makedirs(os.path.join(ROOT, "var", "lib", "dpkg", "updates"))
    dpkg("--install", *packages())
    must(not dpkg("--verify"), "a file has another checksum than its package says")
    must(installed() == sorted(listing.debian_files()), "other files than those of the packages")
    return f"{len(installed())} files"


def installed() -> list[str]:
    """The files below the folder that are of the packages."""
    return [f"/{name}" for name in files_below(ROOT) if name.startswith("usr/")]


def check_program() -> str:
    """The installed program draws each example as the one that was proved and built, by the build for the
    processor's level."""
    program = os.path.join(ROOT, "usr", "bin", "trirast")
    for path in LISTS:
        text = places.bytes_of(path)
        must(
            run([program], input=text, env=clean_environment()) == drawn_by_program(text).output,
            f"other bytes for {path}",
        )
    taken, due = build_taken(program), build_in(os.path.join(ROOT, "usr", "lib", "trirast"), has_level())
    must(os.path.realpath(taken) == due, f"{taken} was loaded")
    return f"{len(LISTS)} pictures"


def check_program_in_c() -> None:
    """A program finds the library by pkg-config and is linked with it, the shared and the static one."""
    for kind, more in (("shared", ()), ("static", ("-static",))):
        configuration = os.path.join(LIBRARIES, "pkgconfig")
        where = clean_environment(
            PKG_CONFIG_LIBDIR=configuration, PKG_CONFIG_SYSROOT_DIR=ROOT, LD_LIBRARY_PATH=LIBRARIES
        )
        flags = run([need("pkg-config"), "--cflags", "--libs", "trirast"], env=where).decode().split()
        program = check_in_c(os.path.join(OUT, f"debian-{kind}"), [*more, *flags], where)
        if kind == "shared":
            taken = run([need("ldd"), program], env=where).decode()
            must(f"{ROOT}/" in taken, f"the loader takes another library: {taken}")


def check_levels() -> str:
    """The loader takes the library of the processor's level by itself. Returns the level."""
    program, where = os.path.join(OUT, "debian-shared", "program"), clean_environment(LD_LIBRARY_PATH=LIBRARIES)
    taken = [line for line in run([need("ldd"), program], env=where).decode().splitlines() if "libtrirast" in line]
    must(
        (f"/{LEVEL}/" in taken[0]) == has_level(), f"{taken[0].strip()}, and the processor has the level: {has_level()}"
    )
    return LEVEL if has_level() else "x86-64-v2"


def check_page() -> None:
    """The manual page is there and is read without a warning."""
    page = os.path.join(ROOT, "usr", "share", "man", "man1", "trirast.1.gz")
    command, environment = (
        [need("man"), "--warnings", "--local-file", page], clean_environment(LC_ALL="C.UTF-8", MANWIDTH="80")
    )
    done = subprocess.run(command, env=environment, capture_output=True, text=True)
    must(done.returncode == 0 and not done.stderr and "draw a list of triangles" in done.stdout, done.stderr[-600:])


def check_files() -> None:
    check_documented(listing.DEBIAN_TITLE, listing.debian_files())
    check_library_sizes(listing.debian_files())


def check_removal() -> None:
    """dpkg removes all that it has installed."""
    dpkg("--purge", *debian.TAKEN)
    must(not installed(), f"{installed()} were left")


def cases() -> Iterator[Case]:
    built, installed, in_c = (
        "Debian: the packages build, twice the same", "Debian: dpkg installs them in a folder", "Debian: a program in C"
    )
    yield case(built, check_build)
    yield case("Debian: what the packages depend on", check_dependencies, needs=built)
    yield case("Debian: lintian finds no error", check_lintian, needs=built)
    yield case(installed, check_install, needs=built)
    yield case("Debian: the program draws", check_program, needs=installed)
    yield case(in_c, check_program_in_c, needs=installed)
    yield case("Debian: the loader takes the processor's level", check_levels, needs=in_c)
    yield case("Debian: the manual page", check_page, needs=installed)
    yield case("Debian: packaging/FILES.md lists the files", check_files, needs=installed)
    yield case("Debian: dpkg removes them", check_removal, needs=installed)
