"""Reports of a small picture by bin/trirast_why, with each value worked by hand.

The centre of pixel (1, 1) lies on the hypotenuse of the triangle, a right edge.
"""

from __future__ import annotations

import pytest

from tests.program.lists import TRIANGLE
from tests.program.program import call_why

TABLE = b"""pixel (1, 0)
sample 0 at (1.500, 0.500), in 1/256 pixel (384, 128)
  begins             (0, 0, 0) depth 65535
  draw    0 triangle     0  drawn         fragment (255, 255, 255) alpha 255 depth 0; \
writes RGB-; now (255, 255, 255) depth 65535
  ends               (255, 255, 255) depth 65535
colour (255, 255, 255)
"""

MISSED = b"""pixel (1, 1)
sample 0 at (1.500, 1.500), in 1/256 pixel (384, 384)
  begins             (0, 0, 0) depth 65535
  draw    0 triangle     0  missed      ; on edge bc, neither top nor left (0)
  ends               (0, 0, 0) depth 65535
colour (0, 0, 0)
"""

JSON = (
    b'{"x":1,"y":0,"color":[255,255,255],"samples":[{"sample":0,"position":[384,128],'
    b'"begin":{"color":[0,0,0],"depth":65535},'
    b'"events":[{"draw":0,"triangle":0,"result":"drawn","reasons":[],'
    b'"fragment":{"color":[255,255,255],"alpha":255,"depth":0},"before":{"color":[0,0,0],"depth":65535},'
    b'"after":{"color":[255,255,255],"depth":65535}}],"end":{"color":[255,255,255],"depth":65535}}]}\n'
)

COUNTS = b"""draw 0 triangle 0
  covers           3 samples
  changes          3 samples
  shown by         3 samples in the end
"""


def test_prints_a_table() -> None:
    assert call_why(TRIANGLE, "1,0") == (0, TABLE, b"")


def test_prints_the_edge_that_fails() -> None:
    assert call_why(TRIANGLE, "1,1", "--all") == (0, MISSED, b"")
    # Without --all the line of the triangle, of 79 bytes, is left out.
    lines = MISSED.splitlines(keepends=True)
    assert len(lines[3]) == 79
    assert call_why(TRIANGLE, "1,1") == (0, b"".join(lines[:3] + lines[4:]), b"")


def test_prints_json() -> None:
    assert call_why(TRIANGLE, "1,0", "--json", "--sample", "0") == (0, JSON, b"")


def test_counts_the_samples_of_a_triangle() -> None:
    """Covered are the centres of pixels (0, 0), (1, 0) and (0, 1)."""
    assert call_why(TRIANGLE, "--triangle", "0,0") == (0, COUNTS, b"")
    counted = b'{"draw":0,"triangle":0,"covered":3,"changed":3,"shown":3}\n'
    assert call_why(TRIANGLE, "--json", "--triangle", "0,0") == (0, counted, b"")


@pytest.mark.parametrize(
    "words",
    [
        ("3,0", "--all"),
        ("0,3", "--all"),
        ("0,0", "--sample"),
        ("0;0", "--all"),
        ("0,0", "--tile"),
        ("--triangle", "1,0"),
        ("--triangle", "0,1"),
        ("--triangle", "0"),
        ("--json", "--all"),
        ("0,0", "--triangle", "0,0"),
        ("-0,0", "--all"),
        ("0, 0", "--all"),
        ("0x0,0", "--all"),
        ("4294967296,0", "--all"),
        ("0,0", "--sample", "-0"),
    ],
)
def test_refuses_what_is_not_there(words: tuple[str, ...]) -> None:
    assert call_why(TRIANGLE, *words) == (2, b"", b"trirast: command line refused\n")


def test_numbers_may_have_a_plus_sign_and_zeros_in_front() -> None:
    assert call_why(TRIANGLE, "+1,000") == (0, TABLE, b"")
    assert call_why(TRIANGLE, "1,0", "--json", "--sample", "+00") == (0, JSON, b"")


def test_refuses_what_is_no_list() -> None:
    assert call_why("{}", "0,0") == (1, b"", b"trirast: list fault 3 MissingKey\n")
