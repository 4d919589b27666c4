"""How much the tests of posters draw: some, or with --long more, and by --rounds still more runs that are killed."""

from __future__ import annotations

import pytest


def pytest_addoption(parser: pytest.Parser) -> None:
    parser.addoption("--long", action="store_true", help="more lists, and more runs that are killed")
    parser.addoption(
        "--rounds", type=int, metavar="N", help="runs of each kind of output that are killed at any moment"
    )
