"""Builds the Debian packages of packaging/debian/control in dist/: the program, the shared library, and
what a program links.

    python3 -m tools.packaging.debian

`make deb` builds the program and the library first. What a package depends on is read from its files by dpkg-shlibdeps.
It needs dpkg-dev and binutils. Two runs over the same files give the same bytes.
"""

from __future__ import annotations

import email.utils
import glob
import gzip
import hashlib
import os
import re
import sys

from tools import places
from tools.packaging.common import (
    DIST, FILE_MODE, OUT, PROGRAM_MODE, files_below, install, make_anew, put, release, release_time, run, write,
)

# Debian's own number behind the release: raised if only the packaging changed.
REVISION = 1
LIBRARIES = "usr/lib/x86_64-linux-gnu"
CONTROL = os.path.join(places.TOP, "packaging", "debian", "control")
COPYRIGHT = os.path.join(places.TOP, "packaging", "debian", "copyright")
# Of each package, the files of an installation that it takes.
TAKEN = {
    "trirast": (r"usr/bin/.*", r"usr/lib/trirast/.*", r"usr/share/.*"),
    "libtrirast2": (rf"{LIBRARIES}/(glibc-hwcaps/.*/)?libtrirast\.so\..*",),
    "libtrirast-dev": (r"usr/include/.*", rf"{LIBRARIES}/(libtrirast\.(a|so)|pkgconfig/.*|cmake/.*)"),
}
# The documents of each package.
DOCUMENTS = {
    "trirast": ("draw-list.md", "rules.md", "proofs.md", "generated/promises.md", "statement.md"),
    "libtrirast2": (),
    "libtrirast-dev": ("how-to/install.md", "reference/calls.md"),
}
# The loader's cache has to learn of the library.
MEMBERS = {
    "libtrirast2": {"triggers": "activate-noawait ldconfig\n", "shlibs": "libtrirast 2 libtrirast2 (>= {release})\n"}
}


def version() -> str:
    return f"{release()}-{REVISION}"


def changelog() -> str:
    """The changelog of the packaging, which has the one entry of this release."""
    maintainer = re.findall(r"^Maintainer: (.*)$", places.text_of(CONTROL), re.MULTILINE)[0]
    date = email.utils.formatdate(release_time())
    entry = f"  * Release {release()}. Its changes are in changelog.gz."
    return f"trirast ({version()}) unstable; urgency=medium\n\n{entry}\n\n -- {maintainer}  {date}\n"


def compressed(data: bytes) -> bytes:
    return gzip.compress(data, 9, mtime=0)


def put_documents(package: str, folder: str) -> None:
    """Puts copyright, changelogs and documents where Debian has them."""
    documents = os.path.join(folder, "usr", "share", "doc", package)
    put(COPYRIGHT, os.path.join(documents, "copyright"))
    write(os.path.join(documents, "changelog.Debian.gz"), compressed(changelog().encode()))
    write(os.path.join(documents, "changelog.gz"), compressed(places.bytes_of("CHANGELOG.md")))
    for name in DOCUMENTS[package]:
        path = os.path.join(documents, f"{os.path.basename(name)}.gz")
        write(path, compressed(places.bytes_of("docs", name)))


def put_file(stage: str, name: str, folder: str) -> None:
    """Puts one file of the installation: a manual page compressed, a program stripped, all else as it is."""
    source, target = os.path.join(stage, name), os.path.join(folder, name)
    if name.startswith("usr/share/man/"):
        write(f"{target}.gz", compressed(places.bytes_of(source)))
        return
    put(source, target, PROGRAM_MODE if name.startswith("usr/bin/") else FILE_MODE)
    if name.startswith("usr/bin/"):
        run(["strip", "--strip-unneeded", "--remove-section=.comment", target])
    elif name.endswith(".a"):
        run(["strip", "--strip-unneeded", "--enable-deterministic-archives", target])


def code_of(folder: str) -> list[str]:
    """The programs and shared libraries below a folder, which say by themselves what they need."""
    names = files_below(folder)
    return [os.path.join(folder, name) for name in names if re.search(r"^usr/(bin|lib/trirast)/|\.so\.\d+$", name)]


def put_control(package: str, work: str, folder: str) -> None:
    """Puts the members of a package's control part: what it depends on, and the checksums of its files."""
    variables = os.path.join("debian", f"{package}.substvars")
    write(os.path.join(work, variables), b"")
    os.makedirs(os.path.join(folder, "DEBIAN"))
    # dpkg-shlibdeps and dpkg-gencontrol take the debian/control and debian/changelog of the folder in which they run.
    if code_of(folder):
        run(["dpkg-shlibdeps", f"-T{variables}", f"-S{folder}", *(f"-e{path}" for path in code_of(folder))], cwd=work)
    run(["dpkg-gencontrol", f"-p{package}", f"-P{folder}", f"-T{variables}"], cwd=work)
    for name, text in MEMBERS.get(package, {}).items():
        write(os.path.join(folder, "DEBIAN", name), text.format(release=release()).encode())
    names = [name for name in files_below(folder) if not name.startswith("DEBIAN/")]
    paths = [(name, os.path.join(folder, name)) for name in names]
    sums = [
        f"{hashlib.md5(places.bytes_of(path)).hexdigest()}  {name}\n"
        for name, path in paths if not os.path.islink(path)
    ]
    write(os.path.join(folder, "DEBIAN", "md5sums"), "".join(sums).encode())


def build_package(package: str, work: str, stage: str) -> str:
    """Builds one package. Returns its path."""
    folder = os.path.join(work, "debian", package)
    for name in files_below(stage):
        if any(re.fullmatch(pattern, name) for pattern in TAKEN[package]):
            put_file(stage, name, folder)
    put_documents(package, folder)
    put_control(package, work, folder)
    environment = {**os.environ, "SOURCE_DATE_EPOCH": str(release_time())}
    path = os.path.join(DIST, f"{package}_{version()}_amd64.deb")
    run(["dpkg-deb", "-Zxz", "--root-owner-group", "--build", folder, path], env=environment)
    return path


def build() -> list[str]:
    """Builds all packages, in the place of those of an earlier run. Returns their paths."""
    os.umask(0o022)
    os.makedirs(DIST, exist_ok=True)
    for path in glob.glob(os.path.join(DIST, "*.deb")):
        os.remove(path)
    stage, work = (make_anew(os.path.join(OUT, name)) for name in ("stage", "debian"))
    install(stage, "PREFIX=/usr", f"LIBDIR={os.path.relpath(LIBRARIES, 'usr')}")
    put(CONTROL, os.path.join(work, "debian", "control"))
    write(os.path.join(work, "debian", "changelog"), changelog().encode())
    taken = [pattern for patterns in TAKEN.values() for pattern in patterns]
    left = [name for name in files_below(stage) if not any(re.fullmatch(pattern, name) for pattern in taken)]
    if left:
        raise SystemExit(f"no package takes {', '.join(left)}")
    return [build_package(package, work, stage) for package in TAKEN]


def main() -> int:
    for path in build():
        print(os.path.relpath(path, places.TOP), flush=True)
    return 0


if __name__ == "__main__":
    sys.exit(main())
