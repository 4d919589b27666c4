"""Builds the packages, installs each in a clean folder, uses it there, and compares every byte with the program's.

    python3 -m pytest tests/packages [-k WORD]

The packages are built in dist/, over bin/ and lib/. What is made besides is left in out/check-packages/.
"""

from __future__ import annotations

import pytest

from tests import cases
from tests.packages import (
    check_archives, check_cmake, check_debian, check_installed, check_npm, check_recipes, check_release,
    check_wheel,
)
from tests.packages.checking import OUT
from tools.packaging.common import make_anew
from tools.places import PROGRAM, is_built

CASES = [
    case
    for subject in (
        check_debian, check_installed, check_wheel, check_cmake, check_archives, check_recipes, check_npm,
        check_release,
    )
    for case in subject.cases()
]


@pytest.fixture(scope="module", autouse=True)
def folder() -> None:
    assert is_built(PROGRAM)
    make_anew(OUT)


@pytest.mark.parametrize("case", cases.parameters(CASES))
def test_packages(case: cases.Case) -> None:
    cases.run(case)
