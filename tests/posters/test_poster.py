"""Draws posters in all their ways, and compares every byte with the program's.

    PYTHONPATH=python/src python3 -m pytest tests/posters [--long -m 'long or not long'] [--rounds N]

It needs numpy. Dask's checks are skipped if Dask is not installed, and those of the tiles' page without Chromium. What
is drawn is left in out/check-poster/.
"""

from __future__ import annotations

import os
import shutil
from dataclasses import replace

import pytest

from tools import places
from tests import cases
from tools.places import PROGRAM, SHARED_LIBRARY, is_built
from tests.posters import damage, kills, memory, page, pictures, stopped
from tests.posters.common import Options

FOLDER = os.path.join(places.OUT, "check-poster")
SHORT = Options(FOLDER)
LONG = Options(FOLDER, lists=60, dask_lists=16, kills=2, rounds=20, damaged=100, flips=10_000)


def pytest_generate_tests(metafunc: pytest.Metafunc) -> None:
    options = LONG if metafunc.config.getoption("--long", default=False) else SHORT
    options = replace(options, rounds=metafunc.config.getoption("--rounds", default=None) or options.rounds)
    found = [case for part in (pictures, stopped, kills, damage, memory, page) for case in part.cases(options)]
    metafunc.parametrize("case", cases.parameters(found))


@pytest.fixture(scope="module", autouse=True)
def folder() -> None:
    assert is_built(PROGRAM, SHARED_LIBRARY, made_by="make and make library")
    shutil.rmtree(FOLDER, ignore_errors=True)
    os.makedirs(FOLDER)


def test_poster(case: cases.Case) -> None:
    cases.run(case)
