"""A release: the checksums of all packages, and the sources."""

from __future__ import annotations

import os
import re
import tarfile
from typing import Iterator

from tools import places
from tests.cases import Case, case, must
from tests.library.commands import need, run
from tools.packaging import release as releases
from tools.packaging.common import DIST, SUMS, release


def check_checksums() -> str:
    """The file of checksums names all that is in dist/, and sha256sum agrees."""
    need("git")
    must(releases.main() == 0, "no release was made")
    run([need("sha256sum"), "--check", "--strict", "--quiet", SUMS], cwd=DIST)
    named = [line.split()[1] for line in places.text_of(DIST, SUMS).splitlines()]
    others = sorted(set(os.listdir(DIST)) - {SUMS})
    must(named == others, f"{sorted(set(named) ^ set(others))} in one alone")
    return f"{len(named)} files"


def check_table() -> str:
    """The table names each file but itself, with what it is for, its size and its checksum."""
    page = places.text_of(DIST, releases.TABLE)
    rows = re.findall(r"^\| `(.*)` \| (.+) \| ([\d,]+) \| `(.*)` \|$", page, re.MULTILINE)
    sums = {name: digest for digest, name in map(str.split, places.text_of(DIST, SUMS).splitlines())}
    sizes = {name: f"{len(places.bytes_of(DIST, name)):,}" for name in sums}
    wanted = {(name, sizes[name], digest) for name, digest in sums.items() if name != releases.TABLE}
    must({(name, size, digest) for name, _, size, digest in rows} == wanted, f"{rows}")
    must(len({purpose for _, purpose, _, _ in rows}) == len(rows), "two files are for the same")
    return f"{len(rows)} files"


def check_sources() -> None:
    """The archive of the sources has the files of the last commit, below a folder of the release's name."""
    name = f"trirast-{release()}"
    with tarfile.open(os.path.join(DIST, f"{name}.tar.gz")) as file:
        found = sorted(member.name for member in file.getmembers() if member.isfile())
    tracked = run(["git", "-C", places.TOP, "ls-tree", "-r", "--name-only", "HEAD"]).decode().splitlines()
    must(found == sorted(f"{name}/{path}" for path in tracked), "other files than those of the last commit")


def cases() -> Iterator[Case]:
    yield case("release: checksums", check_checksums)
    yield case("release: the table of files", check_table, needs="release: checksums")
    yield case("release: sources", check_sources, needs="release: checksums")
