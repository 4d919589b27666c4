"""Commands and their flags, and the program's answers, as the checks of the library use them."""

from __future__ import annotations

import os
import re
import shutil
import subprocess
import sys
from typing import Any, Sequence

from tools import answers, picture_file, places
from tools.answers import Answer
from tests.cases import MAX_SECONDS, CheckError, MissingError, must
from tests.program import races
from tools.places import LIB, PROGRAM, PYTHON_SOURCES, TOP

OUT = os.path.join(places.OUT, "check-library")
SHARED = ("-L", LIB, "-ltrirast", f"-Wl,-rpath,{LIB}")
# The pages with whole programs over the library: the first one draws examples/triangle.json.
LIBRARY_PAGES = ("docs/how-to/install.md", "docs/how-to/explain-a-sample.md")
WARNINGS = ("-Wall", "-Wextra", "-Wpedantic", "-Werror")
# The Python whose packages are Debian's.
DEBIAN_PYTHON = "/usr/bin/python3"
# The environment in which Python finds the package without an installation.
PACKAGE_ENVIRONMENT = {**os.environ, "PYTHONPATH": PYTHON_SOURCES}


def need(name: str) -> str:
    """Returns the name of a command. Raises `MissingError` if the machine does not have it."""
    if shutil.which(name) is None:
        raise MissingError(name)
    return name


def python_with(*packages: str) -> str:
    """Returns a Python that has these packages: the one that runs this, else Debian's. Raises `MissingError` if
    neither has them all."""
    for python in (sys.executable, DEBIAN_PYTHON):
        imports = [python, "-c", f"import {', '.join(packages)}"]
        if (
            shutil.which(python)
            and not subprocess.run(imports, stderr=subprocess.DEVNULL, timeout=MAX_SECONDS).returncode
        ):
            return python
    raise MissingError(f"Python with {' and '.join(packages)}")


def run(command: Sequence[str], **more: Any) -> bytes:
    """Runs a command, and returns its standard output. Raises `CheckError` if its status is not 0.

    Further arguments are given to `subprocess.run`.
    """
    done = subprocess.run(command, capture_output=True, timeout=MAX_SECONDS, **more)
    output: bytes = done.stdout
    if done.returncode:
        message = (done.stderr or output).decode(errors="replace").strip()
        raise CheckError(f"{os.path.basename(command[0])} ended with status {done.returncode}: {message[-600:]}")
    return output


def must_be_silent(tool: str, command: Sequence[str], text: bytes = b"", leaks: str = "definite,possible") -> bytes:
    """Runs a command under a tool of valgrind, and returns its output. Raises `CheckError` if it fails or the
    tool finds something."""
    need("valgrind")
    status, output, messages = races.watched(tool, command, text, OUT, leaks)
    must(status == 0 and "==" not in messages, f"status {status}: {messages[:600]}")
    return output


def make(*arguments: str) -> None:
    """Runs make at the top of the repository."""
    run(["make", "-s", "-C", TOP, *arguments])


def drawn_by_program(text: bytes) -> Answer:
    """Runs bin/trirast on a list."""
    return answers.drawn(PROGRAM, text, seconds=MAX_SECONDS)


def must_be_the_programs(list_path: str, picture_path: str) -> None:
    """Raises `CheckError` if a picture file has other bytes than the program writes for a list."""
    wanted = drawn_by_program(places.bytes_of(list_path)).output
    difference = picture_file.difference(wanted, places.bytes_of(picture_path))
    must(difference is None, f"{picture_path}: {difference}")


def blocks_of_the_pages(language: str) -> list[str]:
    """The blocks of the pages of the library in a language."""
    text = "".join(map(places.text_of, LIBRARY_PAGES))
    return re.findall(rf"```{language}\n(.*?)```", text, re.DOTALL)
