"""Runs a page: its commands and its examples in Python, in the order in which they stand, in a folder that looks
like the repository."""

from __future__ import annotations

import json
import os
import re
import shutil
import struct
import subprocess
import zlib
from typing import NamedTuple

from tools import answers, picture_file, places
from tests.cases import MissingError, must
from tests.library.commands import need, python_with, run
from tools.packaging.common import write
from tests.documents.pages import examples
from tests.documents.pages.not_run import reason_of
from tests.documents.pages.page import Block, answer_of, blocks_of, commands_of, printed_by
from tools.places import OUT, PROGRAM, PYTHON_SOURCES, TOP

# What the commands and examples of a page need of Python and of the system, beside a compiler.
NEEDS: dict[str, tuple[str, ...]] = {
    "docs/gallery.md": ("numpy", "matplotlib"), "docs/matplotlib.md": ("numpy", "matplotlib"),
    "docs/how-to/areas.md": ("numpy",), "docs/maps.md": ("numpy", "matplotlib", "PIL"),
    "docs/posters.md": ("numpy", "distributed"), "docs/python.md": ("numpy",), "docs/rules.md": ("matplotlib",),
    "docs/how-to/map-layers.md": ("numpy", "shapely", "PIL"),
    "docs/how-to/plot-geodata.md": ("geopandas", "cartopy", "xarray", "seaborn"),
    "docs/how-to/shade-in-python.md": ("numpy",), "docs/how-to/polygons-in-python.md": ("numpy", "PIL"),
}
# Pictures that a page's commands leave, and the pictures of the documents that have to be the same: whole, or in the
# colours of their shapes.
PICTURES = {
    "docs/canvas.md": (("canvas.png", "docs/canvas.png", ""),),
    "docs/gallery.md": (("inspect.svg", "docs/inspect.svg", ""),),
    "docs/python.md": (("discs.png", "docs/python.png", ""),),
    "docs/rules.md": tuple(
        (f"docs/{name}.svg", f"docs/{name}.svg", r"fill: #\w+") for name in ("first_list", "shared_edge", "top_left")
    ),
}


class Step(NamedTuple):
    line: int
    kind: str
    text: str
    # What it has to print; `None` if the page does not say.
    printed: str | None


def steps_of(blocks: list[Block]) -> list[Step]:
    """What is run of a page."""
    steps = []
    for block, following in zip(blocks, [*blocks[1:], None]):
        if block.language == "python":
            steps.append(
                Step(block.line, "python", block.text, "".join(f"{line}\n" for line in printed_by(block, following)))
            )
        printed = answer_of(block) if block.language == "console" else None
        steps += [Step(block.line, "sh", command, printed) for command in commands_of(block) if not reason_of(command)]
    return steps


def programs_of(page: str) -> dict[str, str]:
    """The programs that the page's commands call `program.c` and `program.cpp`: its examples, or the first
    one that is whole."""
    found = {block.language: block.text for block in reversed(blocks_of(page)) if "int main" in block.text}
    return {
        **found, **{language: examples.program_of(page, language) for of, language in examples.AROUND if of == page}
    }


def folder_for(page: str, python: str) -> str:
    """A folder with links to all that stands at the top of the repository, a copy of docs/, and the page's programs.
    Commands may write into it, and `python3` is the one that has what the page needs."""
    name = os.path.basename(page).split(".")[0].lower()
    folder = os.path.join(OUT, "pages", name)
    shutil.rmtree(folder, ignore_errors=True)
    os.makedirs(folder)
    for entry in os.listdir(TOP):
        if not entry.startswith(".") and entry not in ("out", "docs"):
            os.symlink(os.path.join(TOP, entry), os.path.join(folder, entry))
    shutil.copytree(os.path.join(TOP, "docs"), os.path.join(folder, "docs"))
    for language, text in programs_of(page).items():
        write(os.path.join(folder, f"program.{language}"), text.encode())
    write(os.path.join(folder, "commands", "python3"), f'#!/bin/sh\nexec {python} "$@"\n'.encode(), 0o755)
    return folder


def environment_in(folder: str) -> dict[str, str]:
    path = f"{os.path.join(folder, 'commands')}:{os.environ['PATH']}"
    return {**os.environ, "PATH": path, "HOME": os.path.join(folder, "home"), "PYTHONPATH": PYTHON_SOURCES}


def pixels_of(png: bytes) -> bytes:
    """The size and the filtered rows of a PNG file, however zlib packed them."""
    at, found = 8, {b"IHDR": b"", b"IDAT": b""}
    while at < len(png):
        (length,), kind = struct.unpack(">I", png[at : at + 4]), png[at + 4 : at + 8]
        found[kind] = found.get(kind, b"") + png[at + 8 : at + 8 + length]
        at += 12 + length
    return found[b"IHDR"] + zlib.decompress(found[b"IDAT"])


def check_pictures(page: str, folder: str) -> None:
    """The pictures that the page's commands left are those of the documents."""
    for made, kept, part in PICTURES.get(page, ()):
        pair = [places.bytes_of(folder, made), places.bytes_of(kept)]
        if made.endswith(".png"):
            pair = [pixels_of(data) for data in pair]
        if part:
            pair = [b" ".join(re.findall(part.encode(), text)) for text in pair]
        must(pair[0] == pair[1] != b"", f"{made} is not {kept}")


def check_needs(steps: list[Step]) -> None:
    """Raises `MissingError` if the machine lacks a command or a library that the steps use."""
    words = {word for step in steps if step.kind == "sh" for word in re.findall(r"[\w+-]+", step.text.split("#")[0])}
    for name in sorted(words & {"cc", "c++", "make", "pkg-config", "pnmtopng"}):
        need(name)
    if "sdl2" in words and subprocess.run(["pkg-config", "--exists", "sdl2"], check=False).returncode:
        raise MissingError("SDL 2")


def compare(page: str, steps: list[Step], found: list[tuple[int, str]]) -> None:
    """Each step ended well and printed what the page shows."""
    for step, (status, printed) in zip(steps, found):
        must(status == 0, f"{page}:{step.line}: status {status}: {step.text}: {printed[-600:]}")
        must(step.printed in (None, printed), f"{page}:{step.line}: it printed\n{printed}\nand not\n{step.printed}")
    must(len(steps) == len(found), f"{page}: {len(found)} of {len(steps)} steps")


def check(page: str) -> str:
    """Each command and each example in Python of a page ends well and prints what the page shows."""
    steps = steps_of(blocks_of(page))
    check_needs(steps)
    python = python_with(*NEEDS.get(page, ("json",)))
    folder = folder_for(page, python)
    session = os.path.join(os.path.dirname(os.path.abspath(__file__)), "session.py")
    text = json.dumps([(step.kind, step.text) for step in steps]).encode()
    compare(page, steps, json.loads(run([python, session], input=text, cwd=folder, env=environment_in(folder))))
    check_pictures(page, folder)
    return f"{len(steps)} steps"


def check_list(text: bytes) -> None:
    """The program draws the picture of the rules, or writes their line."""
    wanted, given = answers.expected(text), answers.drawn(PROGRAM, text)
    must((given.status, given.line) == (wanted.status, wanted.line), f"{text.decode()}: {given}, and not {wanted}")
    if not wanted.status:
        must(picture_file.difference(wanted.output, given.output) is None, f"{text.decode()}: another picture")


def check_lists(page: str) -> str:
    """Each draw list of a page, in a block or in a table, is drawn as the rules say, or refused with the line
    that the page shows."""
    lists = [block.text for block in blocks_of(page) if block.language == "json"]
    table = re.findall(r"^\| `([\[{].*?)` \| (?:`(trirast: .*?)`)?", places.text_of(page), re.MULTILINE)
    for text in lists:
        check_list(text.encode())
    for text, line in table:
        check_list(text.encode())
        given = answers.drawn(PROGRAM, text.encode())
        must(given.line.decode() == (f"{line}\n" if line else ""), f"{text}: {given}")
    must(len(lists) + len(table) > 0, "no list")
    return f"{len(lists) + len(table)} lists"
