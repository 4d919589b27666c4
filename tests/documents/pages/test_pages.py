"""Runs the commands and examples of README.md and docs/ as they stand, and compares what they write with
what the pages show.

    PYTHONPATH=python/src python3 -m pytest tests/documents/pages [-k PAGE]

page.py has the list of pages, not_run.py what no test runs and why. Each page has a folder out/pages/NAME with links to
the repository. A block without a language is commands for the shell, `console` a command and its output, `text` the
output of the example above it, or no example. What is missing on a machine is skipped.
"""

from __future__ import annotations

import os
import re
from typing import Iterator

import pytest

from tests.cases import Case, case, must
from tests import cases
from tests.documents.pages import examples, running
from tests.documents.pages.not_run import NOT_RUN
from tests.documents.pages.page import PAGES, Block, answer_of, blocks_of, commands_of, printed_by
from tests.library.commands import LIBRARY_PAGES, need, run
from tools.places import PROGRAM, SHARED_LIBRARY, STATIC_LIBRARY, WHY_PROGRAM, is_built, text_of

# Examples that other checks build: of a page and a language.
ELSEWHERE = {
    ("docs/how-to/explain-a-sample.md", "c"): "tests/library/install.py, whose programs are these; compiled here",
    ("docs/how-to/install.md", "c"): "tests/library/install.py, whose programs are these; compiled here",
    ("docs/how-to/install.md", "rust"): "bindings/rust/trirast, whose documentation has them",
    ("docs/how-to/install.md", "cmake"): "tools/packaging",
    ("docs/matplotlib.md", "ipython"): "python/tests/test_matplotlib_notebooks.py, where there is IPython",
    ("docs/shading.md", "cpp"): "parts of examples/cpp/cube.cpp, as tests/shade sees",
    ("docs/how-to/textures.md", "cpp"): "tests/shade, which builds both parts",
    ("docs/how-to/frames.md", "cpp"): "tests/shade, which compares its picture with that of one thread",
    ("README.md", "json"): "run as a list", ("docs/draw-list.md", "json"): "run as a list",
}
RUN = {"sh", "inline", "console", "python", "text"}


def check_covered() -> None:
    """Each block of each page is run, is built as a program, or is named as what another check builds."""
    for page in PAGES:
        for block in blocks_of(page):
            pair = page, block.language
            must(
                block.language in RUN or pair in examples.AROUND or pair in ELSEWHERE,
                f"{page}:{block.line}: {block.language}",
            )


def check_not_run() -> None:
    """Each reason not to run a command is that of a command on some page."""
    commands = [command for page in PAGES for block in blocks_of(page) for command in commands_of(block)]
    unused = [pattern for pattern, _reason in NOT_RUN if not any(re.search(pattern, command) for command in commands)]
    must(not unused, f"no command is like {unused}")


def check_blocks() -> None:
    """Blocks are read as they stand: what is run, and what it has to print."""
    shown = Block(1, "console", "$ echo a\na\n")
    must(list(commands_of(shown)) == ["echo a"] and answer_of(shown) == "a\n", "console")
    example = Block(1, "python", "print(1)  # 1\nif x:\n    print(f(2))      # 4\nprint(3)\n")
    must(printed_by(example, None) == ["1", "4"] and printed_by(example, Block(5, "text", "5\n")) == ["5"], "python")
    steps = running.steps_of([example, Block(5, "sh", "make web\ntrue\n"), shown])
    must([(step.text, step.printed) for step in steps[1:]] == [("true", None), ("echo a", "a\n")], f"{steps}")


def check_differences() -> None:
    """Another status, another output and a step that was not taken are found."""
    steps = [running.Step(1, "sh", "true", None), running.Step(2, "sh", "echo a", "a\n")]
    running.compare("page", steps, [(0, "of no account"), (0, "a\n")])
    for found in ([(1, ""), (0, "a\n")], [(0, ""), (0, "b\n")], [(0, "")]):
        with pytest.raises(cases.CheckError):
            running.compare("page", steps, found)


def check_toolchain() -> str:
    """README names the toolchain that is there."""
    printed = run([need("rt"), "version"]).decode().strip()
    must(f"`rt version` should print `{printed}`" in " ".join(text_of("README.md").split()), printed)
    return printed


def all_cases() -> Iterator[Case]:
    yield case("each block of each page is run", check_covered)
    yield case("what is not run is there", check_not_run)
    yield case("blocks are read as they stand", check_blocks)
    yield case("differences are found", check_differences)
    yield case("README.md: rt version", check_toolchain)
    for page in PAGES:
        if running.steps_of(blocks_of(page)):
            yield case(f"{page}: commands", running.check, page)
    for page in ("README.md", "docs/draw-list.md"):
        yield case(f"{page}: lists", running.check_lists, page)
    for page in LIBRARY_PAGES:
        yield case(f"{page}: the examples in C compile", examples.check_compiles, page)
    for page, language in examples.AROUND:
        yield case(f"{page}: the example in {language}", examples.check, page, language)


@pytest.fixture(scope="module", autouse=True)
def built() -> None:
    assert is_built(PROGRAM, WHY_PROGRAM)
    assert all(map(os.path.isfile, (STATIC_LIBRARY, SHARED_LIBRARY))), "run make library first"


@pytest.mark.parametrize("case", cases.parameters(all_cases()))
def test_pages(case: Case) -> None:
    cases.run(case)
