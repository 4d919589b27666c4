"""Drags the vertices of the coverage explorer in Chromium, and compares each sample with the program; and mutants of
the page.

    python3 -m pytest tests/web [-k WORD]

It builds the page by `make web`. It needs Chromium and a toolchain that links for WebAssembly, and is skipped where one
is missing. What it saw is left in out/check-web/.
"""

from __future__ import annotations

import os
import subprocess
from functools import partial
from typing import Iterator

import pytest

from tools import places
from tests.library.commands import make
from tools.packaging.common import make_anew
from tools.places import PROGRAM, is_built
from tests.mutants import Mutant, check
from tests.posters.browser import chromium
from tests.web import checks
from tests.web.explorer import Explorer, explorer, served
from tests.web.mutants import MUTANTS, found_by
from tests.web.numbers import check_numbers
from tests.web.positions import check_positions

OUT = os.path.join(places.OUT, "check-web")
TARGET = "wasm64-unknown-unknown"
FIGURES, MANY_FIGURES = 60, 200
VIEWS = (("light", False), ("dark", False), ("light", True), ("dark", True))
# One mutant of each file is enough for the shorter form: the first.
SOME_MUTANTS = {mutant.changes[0][0]: mutant for mutant in reversed(MUTANTS)}.values()


def what_is_missing(rt: str) -> str | None:
    """What this machine lacks, or `None`."""
    if chromium() is None:
        return "the page needs Chromium, chromium in Debian"
    document = subprocess.run([rt, "doc"], stdout=subprocess.PIPE, text=True, check=True).stdout.strip()
    linker = os.path.join(os.path.dirname(document), "bin", "rattle-link")
    if not os.path.exists(linker):
        return f"the page needs a toolchain that links for {TARGET}"
    usage = subprocess.run([linker, "--help"], stdout=subprocess.PIPE, stderr=subprocess.STDOUT, text=True).stdout
    return None if TARGET in usage else f"the page needs a toolchain that links for {TARGET}"


@pytest.fixture(scope="module")
def page() -> Iterator[Explorer]:
    assert is_built(PROGRAM)
    rt = os.environ.get("RT", "rt")
    if missing := what_is_missing(rt):
        pytest.skip(missing)
    make_anew(OUT)
    make("web", f"RT={rt}")
    with explorer() as opened:
        yield opened


@pytest.fixture(scope="module")
def address(page: Explorer) -> Iterator[str]:
    with served() as found:
        yield found


def test_size(page: Explorer) -> None:
    checks.check_size()


def test_random_figures(page: Explorer, address: str) -> None:
    check_positions(page, address, FIGURES, ("page",))


@pytest.mark.long
def test_many_random_figures(page: Explorer, address: str) -> None:
    check_positions(page, address, MANY_FIGURES, ("page", "more"))


def test_links(page: Explorer, address: str) -> None:
    checks.check_links(page, address)


def test_controls(page: Explorer, address: str) -> None:
    checks.check_controls(page, address)


def test_fields_without_a_number(page: Explorer, address: str) -> None:
    checks.check_unreadable_fields(page, address)


def test_a_button_pressed_twice(page: Explorer, address: str) -> None:
    checks.check_copies(page, address)


def test_links_that_come_between(page: Explorer, address: str) -> None:
    checks.check_links_between(page, address)


def test_other_buttons_and_fingers(page: Explorer, address: str) -> None:
    checks.check_pointers(page, address)


def test_lists_on_their_way(page: Explorer, address: str) -> None:
    checks.check_lists_on_their_way(page, address)


def test_without_memory(page: Explorer, address: str) -> None:
    checks.check_no_memory(page, address)


def test_the_chosen_sample(page: Explorer, address: str) -> None:
    checks.check_chosen(page, address)


def test_numbers_that_a_canvas_does_not_take(page: Explorer, address: str) -> None:
    check_numbers(page, address)


def test_examples(page: Explorer, address: str) -> None:
    checks.check_examples(page, address)


@pytest.mark.parametrize(("theme", "is_phone"), VIEWS)
def test_view(page: Explorer, address: str, theme: str, is_phone: bool) -> None:
    checks.check_view(page, address, OUT, theme, is_phone)


def test_a_browser_without_64_bit_memory(page: Explorer, address: str) -> None:
    checks.check_lacking(page, address, OUT)


def test_no_other_server(page: Explorer, address: str) -> None:
    checks.check_alone(page, address)


@pytest.mark.parametrize("mutant", [
    pytest.param(mutant, id=mutant.name, marks=[] if mutant in SOME_MUTANTS else [pytest.mark.long])
    for mutant in MUTANTS
])
def test_mutant(page: Explorer, mutant: Mutant) -> None:
    check(mutant, partial(found_by, page))
