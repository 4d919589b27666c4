"""The npm package: built twice the same, installed by npm in an empty folder, and used from there by Chromium."""

from __future__ import annotations

import json
import os
import re
import tarfile
import time
from typing import Iterator

from tests.cases import Case, MissingError, case, must
from tests.library.commands import need, run
from tests.packages.checking import OUT, check_documented, clean_environment, picture_of_the_page
from tests.posters.browser import page_of
from tests.web.explorer import served
from tools import picture_file
from tools.packaging import listing, npm
from tools.packaging.common import make_anew, release, write
from tools.places import bytes_of, text_of

FOLDER = os.path.join(OUT, "npm")
# A page that runs the program of the package's page, and keeps the line that it prints.
PAGE = """\
<!doctype html>
<script type="importmap">{"imports": {"trirast": "/node_modules/trirast/index.js"}}</script>
<script type="module">
console.log = (line) => { document.documentElement.dataset.line = line; };
PROGRAM</script>
"""
LINE = "document.documentElement?.dataset.line ?? ''"
# Within so many seconds.
PRINTED_AFTER = 60


def check_build() -> str:
    if not os.path.exists(npm.MODULE):
        raise MissingError("module for WebAssembly: make npm builds it")
    first = bytes_of(npm.build())
    must(first == bytes_of(npm.build()), "a second build has other bytes")
    return f"{len(first) // 1000} KB"


def held() -> dict[str, bytes]:
    """The files of the package by their names."""
    with tarfile.open(npm.path_of()) as file:
        members = {member.name: file.extractfile(member) for member in file.getmembers()}
        return {name.partition("/")[2]: data.read() for name, data in members.items() if data is not None}


def check_metadata() -> str:
    """package.json names the release, its licences, and files that the package has. So does each import."""
    files = held()
    named = json.loads(files["package.json"])
    must((named["name"], named["version"]) == ("trirast", release()), f"{named['name']} {named['version']}")
    (licence,) = re.findall(r'^license = \{text = "(.*)"\}', text_of("python", "pyproject.toml"), re.MULTILINE)
    must(named["license"] == licence, named["license"])
    entry = named["exports"]["."]
    paths = [named["types"], *entry.values(), named["exports"]["./canvas.wasm"]]
    paths += [path for name in files if name.endswith(".js") for path in imports_of(files[name].decode())]
    must({os.path.normpath(path) for path in paths} <= files.keys(), f"{paths}, and the package has {sorted(files)}")
    must("dependencies" not in named, "it needs other packages")
    return f"{len(files)} files"


def imports_of(text: str) -> list[str]:
    return re.findall(r"""from '(\./[^']*)'""", text)


def check_types() -> str:
    """The types name what the package exports, and each method of its classes."""
    types, code = text_of(npm.OWN, "index.d.ts"), text_of(npm.OWN, "index.js")
    declared = set(re.findall(r"^export (?:class|const|function) (\w+)", types, re.MULTILINE))
    lists = re.findall(r"^export \{ (.*?) \}", code, re.MULTILINE)
    exported = {name for names in lists for name in names.split(", ")}
    exported |= set(re.findall(r"^export async function (\w+)", code, re.MULTILINE))
    must(declared == exported, f"{sorted(declared ^ exported)} in one of types and code alone")
    classes = text_of("web", "canvas.js") + text_of("web", "core.js")
    for name in ("clear", "draw", "drawIds", "colors", "ids", "depths", "of", "at", "within", "load"):
        must(re.search(rf"^  (?:static )?(?:async )?{name}\(", classes, re.MULTILINE) is not None, f"no method {name}")
        must(re.search(rf"^  (?:static )?{name}[(<]", types, re.MULTILINE) is not None, f"no type of {name}")
    return f"{len(declared)} names"


def check_install() -> None:
    """npm installs the package in an empty folder, without a network."""
    make_anew(FOLDER)
    flags = ["--offline", "--no-audit", "--no-fund", "--loglevel=error", "--cache", os.path.join(OUT, "npm-cache")]
    write(os.path.join(FOLDER, "package.json"), b'{"private": true}\n')
    run([need("npm"), "install", *flags, npm.path_of()], cwd=FOLDER, env=clean_environment())
    installed = os.path.join(FOLDER, "node_modules", "trirast")
    must({name: bytes_of(installed, name) for name in held()} == held(), "npm installed other bytes")


def check_draws() -> str:
    """The program of the package's page prints the pixels that bin/trirast writes."""
    (program,) = re.findall(r"```js\n(.*?)```", text_of(npm.OWN, "README.md"), re.DOTALL)
    write(os.path.join(FOLDER, "index.html"), PAGE.replace("PROGRAM", program).encode())
    end, line = time.monotonic() + PRINTED_AFTER, ""
    with served(folder=FOLDER) as address, page_of(address, 300, 200) as page:
        while not line and time.monotonic() < end:
            time.sleep(0.1)
            line = page.run(LINE)
    must(bytes(map(int, line.split())) == picture_file.decode(picture_of_the_page()).pixel_data, f"it prints {line!r}")
    return line


def check_files() -> None:
    check_documented(listing.NPM_TITLE, held())


def cases() -> Iterator[Case]:
    built, installed = "npm: built twice the same", "npm: installs it"
    yield case(built, check_build)
    yield case("npm: package.json", check_metadata, needs=built)
    yield case("npm: types", check_types)
    yield case("npm: packaging/FILES.md lists the files", check_files, needs=built)
    yield case(installed, check_install, needs=built)
    yield case("npm: Chromium draws", check_draws, needs=installed)
