"""Builds all pages as one site with search, in out/site: Sphinx with MyST and the theme Furo, without warnings.

    python3 -m tools.site

The pages are copied to out/site-source, and docs/README.md says in which order the site lists them. The header in C
and the docstrings in Python become pages too.
"""

from __future__ import annotations

import os
import re
import shutil
import subprocess
import sys
from typing import Iterator

from tools import places, writing
from tools.places import text_of

SOURCE, SITE = os.path.join(places.OUT, "site-source"), os.path.join(places.OUT, "site")
INDEX = os.path.join("docs", "README.md")
# The target of a link to a file of the repository.
LINK = re.compile(r"\]\((?!\w+:)([^)#\s]+)(?:#[^)]*)?\)")
HEADER = """\
# The header of the library

```{literalinclude} trirast.h
:language: c
```
"""
PYTHON = """\
# The package for Python

```{eval-rst}
.. automodule:: trirast
   :members:
   :imported-members:
```
"""
MADE = {"docs/generated/header.md": HEADER, "docs/generated/python.md": PYTHON}


def pages() -> list[str]:
    """The pages of docs/, and those that they link to."""
    found = places.files("docs", "**", "*.md")
    targets = {target for page in found for target in linked(page) if target.endswith(".md")}
    return [*found, *sorted(targets - set(found))]


def linked(page: str) -> Iterator[str]:
    """The files of the repository to which a page links."""
    for target in LINK.findall(writing.prose_of(text_of(page))):
        path = os.path.normpath(os.path.join(os.path.dirname(page), target))
        if os.path.isfile(os.path.join(places.TOP, path)):
            yield path


def groups() -> Iterator[tuple[str, list[str]]]:
    """The bold lines of docs/README.md, each with the pages that are linked below it."""
    for group in text_of(INDEX).split("\n**")[1:]:
        name, listed = group.split("**\n", 1)
        found = LINK.findall(listed)
        yield name, [os.path.normpath(os.path.join("docs", target)) for target in found if target.endswith(".md")]


def contents(every: list[str]) -> str:
    """The lists of pages at the side of the site: each page once."""
    left = [page for page in every if page != "README.md"]
    lists = []
    for name, listed in [*groups(), ("More", every)]:
        mine = [page for page in dict.fromkeys(listed) if page in left]
        left = [page for page in left if page not in mine]
        lists.append(f"```{{toctree}}\n:hidden:\n:caption: {name}\n\n" + "\n".join(mine) + "\n```\n")
    return "\n" + "\n".join(lists)


def copy(path: str) -> None:
    target = os.path.join(SOURCE, path)
    os.makedirs(os.path.dirname(target), exist_ok=True)
    shutil.copyfile(os.path.join(places.TOP, path), target)


def write(path: str, text: str) -> None:
    with open(os.path.join(SOURCE, path), "w", encoding="utf-8") as file:
        file.write(text)


def main() -> int:
    for folder in (SOURCE, SITE):
        shutil.rmtree(folder, ignore_errors=True)
    found = pages()
    for path in {*found, *(target for page in found for target in linked(page))}:
        copy(path)
    shutil.copyfile(os.path.join(places.INCLUDE, "trirast.h"), os.path.join(SOURCE, "docs", "generated", "trirast.h"))
    for path, text in MADE.items():
        write(path, text)
    write("README.md", text_of("README.md") + contents([*found, *MADE]))
    shutil.copyfile(os.path.join(os.path.dirname(__file__), "conf.py"), os.path.join(SOURCE, "conf.py"))
    done = subprocess.run(
        [sys.executable, "-m", "sphinx", "-q", "-W", "--keep-going", "-b", "html", SOURCE, SITE],
        env={**os.environ, "TRIRAST_TOP": places.TOP}, check=False,
    )
    if not done.returncode:
        shutil.copyfile(os.path.join(SITE, "README.html"), os.path.join(SITE, "index.html"))
        print(f"{len(found) + len(MADE)} pages: {os.path.relpath(SITE)}/index.html")
    return done.returncode


if __name__ == "__main__":
    sys.exit(main())
