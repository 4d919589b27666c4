"""Tests of the whole program: lists and arguments that are given to bin/trirast, and what it then writes.

    python3 -m pytest tests/program

Each expected byte was computed by hand from the rules. Writers that take nothing or cannot be flushed, and calls of the
library for Rattle, stand in crates/acceptance.
"""

import pytest

# So that a failed check of these modules shows the values that it compares.
pytest.register_assert_rewrite("tests.program.program", "tests.program.faults")
