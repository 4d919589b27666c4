"""Tests that each subject sees what it is there for: mutants of the rules are found behind the streams, by no driver.

    python3 -m pytest conformance/test_mutants.py -m 'long or not long'
"""

from __future__ import annotations

import contextlib
import unittest

import pytest

from conformance import suites
from conformance.comparison import Tally, compare_suite
from conformance.d3d11.direct3d import asked, drawn_by
from conformance.d3d11.run import Black
from conformance.d3d11.stand_in import draw_by
from conformance.model import Model
from conformance.mutants import MUTANTS
from conformance.program import as_bytes
from tools.draw_list import DrawList

BY_NAME = {suite.name: suite for suite in suites.DIRECT3D}


class Remembering(Model):
    """A model that draws each list once, unless its rules themselves are otherwise."""

    drawn: dict[bytes, bytes] = {}

    def picture(self, scene: DrawList) -> bytes:
        if self.mutant.rules is not contextlib.nullcontext:
            return super().picture(scene)
        key = as_bytes(self.list_drawn(scene))
        if key not in self.drawn:
            self.drawn[key] = super().picture(scene)
        return self.drawn[key]


RULES = Remembering()


def compare(row: str, mutant: str, limit: int | None = None) -> Tally:
    """The tally of the first lists of a row of the table, by default of its tenth. A mutant draws the requests."""
    name, samples = row.rsplit("-", 1)
    suite, count = BY_NAME[name], int(samples)
    most = suite.tenth(count) if limit is None else limit
    listed = asked(lambda questions: compare_suite(suite, count, Black(), questions, limit=most))
    return compare_suite(suite, count, RULES, drawn_by(draw_by(Remembering(mutant)), listed), limit=most)


def differs(row: str, mutant: str) -> bool:
    """Whether a mutant differs in the first tenth of a row, of which the first list is tried first."""
    return not (compare(row, mutant, 1).agrees and compare(row, mutant).agrees)


def first_list_differs(row: str, mutant: str) -> bool:
    """The same for the first list of a row, without the streams."""
    name, samples = row.rsplit("-", 1)
    return not compare_suite(BY_NAME[name], int(samples), RULES, Remembering(mutant), limit=1).agrees


# The rows under which each mutant must be found in the first tenth of the lists.
OWN: dict[str, tuple[str, ...]] = {
    "turned pattern": ("sample-positions-4", "pattern-positions-2", "pattern-positions-8", "pattern-positions-16"),
    "swapped samples": ("sample-positions-4", "pattern-positions-2", "pattern-positions-8", "pattern-positions-16"),
    "bottom-right rule": ("top-left-1", "pattern-edges-2"),
    "bottom-left rule": ("top-left-1",),
    "closed edges": ("shared-edges-1", "perspective-edges-1"),
    "seven subpixel bits": ("subpixel-bits-1", "perspective-edges-1"),
    "truncated subpixels": ("subpixel-bits-1",),
    "small triangles dropped": ("slivers-1",),
    "coarse clipping": ("border-1", "viewport-1"),
    "far vertices moved near": ("guard-band-1",),
    "half-pixel offset": ("sample-positions-1", "sample-positions-4"),
    "viewport by 1/256": ("sample-positions-1", "sample-positions-4"),
    "viewport a pixel off": ("negative-fraction-1",),
    "viewport's fraction ignored": ("fraction-1", "negative-fraction-1"),
    "moved scissor": ("scissor-1", "scissor-4", "scissored-edges-1", "pattern-scissor-2"),
    "scissor by samples": ("scissor-4",),
    "culling turned": ("culling-1",),
    "front orientation ignored": ("anticlockwise-1",),
    "equality of depths turned": ("depth-tests-1", "float-depths-1"),
    "coarse float depths": ("float-depths-1",),
    "depths of fourteen bits": ("depths-1",),
    "mask ignored": ("sample-mask-4", "mask-of-one-1"),
    "mask of one sample ignored": ("mask-of-one-1",),
    "mask of one sample but 0 ignored": ("mask-of-one-1",),
    "write mask ignored": ("write-mask-1",),
    "order reversed": ("order-1",),
    "clear by one": ("clear-1",),
    "clear depth by one": ("depth-tests-1", "float-depths-1"),
    "floating point of 16 bits": ("float-planes-1",),
    "depths mirrored": ("steep-depths-4", "perspective-depths-4"),
    "depths at the centre": ("steep-depths-4",),
    "last vertex leads": ("leading-vertex-1", "strips-1"),
    "depths clamped": ("depth-ends-1",),
    "scissor of 16 bits": ("large-scissors-1",),
    "turns of strips ignored": ("strips-1",),
    "flat colours": ("colours-1", "colours-4"),
    "first sample resolved": ("resolve-4",),
    "blending ignored": ("blending-1",),
    "six bits of alpha": ("one-layer-1", "blend-table-1"),
    "blend factors swapped": ("equations-1",),
    "subtraction turned": ("equations-1",),
    "alpha kept": ("equations-1", "layered-alpha-1"),
    "blend constant ignored": ("equations-1",),
}
# Of these the first list of the row is enough, and draws in a second.
QUICK = {
    "depths mirrored": "steep-depths-4",
    "floating point of 16 bits": "float-planes-1",
    "depths clamped": "depth-ends-1",
    "last vertex leads": "leading-vertex-1",
    "turns of strips ignored": "strips-1",
    "scissor of 16 bits": "large-scissors-1",
    "seven subpixel bits": "perspective-edges-1",
    "swapped samples": "pattern-positions-2",
    "alpha kept": "layered-alpha-1",
}
# Of these rows, whose lists have rectangles of whole pixels, the first list must be equal unless it is named here.
STATES = ("culling-1", "anticlockwise-1", "scissor-1", "scissor-4", "depth-tests-1", "float-depths-1")
STATES_THAT_DIFFER: dict[str, tuple[str, ...]] = {
    "half-pixel offset": STATES,
    "moved scissor": ("scissor-1", "scissor-4"),
    "scissor by samples": ("scissor-4",),
    "mask ignored": ("scissor-4",),
    "first sample resolved": ("scissor-4",),
    "order reversed": ("culling-1", "anticlockwise-1", "scissor-1", "scissor-4"),
}


class Mutants(unittest.TestCase):
    def test_each_is_looked_for(self) -> None:
        self.assertEqual(set(OWN), set(MUTANTS))

    def test_each_subject_has_one_of_its_own(self) -> None:
        rows = {f"{suite.name}-{samples}" for suite in suites.DIRECT3D for samples in suite.samples}
        named = {row for rows_ in OWN.values() for row in rows_}
        self.assertLessEqual(named, rows)
        self.assertEqual({row.rsplit("-", 1)[0] for row in named}, set(BY_NAME))

    def test_in_the_first_list(self) -> None:
        for mutant, row in QUICK.items():
            with self.subTest(mutant=mutant, row=row):
                self.assertIn(row, OWN[mutant])
                self.assertTrue(compare(row, "", 1).agrees)
                self.assertFalse(compare(row, mutant, 1).agrees)

    def test_of_equations(self) -> None:
        for mutant in (name for name, rows in OWN.items() if "equations-1" in rows):
            with self.subTest(mutant=mutant):
                self.assertTrue(differs("equations-1", mutant))

    @pytest.mark.long
    def test_the_rules_themselves_agree(self) -> None:
        for row in sorted({row for rows in OWN.values() for row in rows}):
            self.assertFalse(differs(row, ""), row)

    @pytest.mark.long
    def test_in_the_first_tenth_of_its_own_subjects(self) -> None:
        for mutant, rows in OWN.items():
            for row in rows:
                with self.subTest(mutant=mutant, row=row):
                    self.assertTrue(differs(row, mutant))

    @pytest.mark.long
    def test_none_under_the_subjects_of_others(self) -> None:
        for mutant in MUTANTS:
            for row in STATES:
                if row not in STATES_THAT_DIFFER.get(mutant, ()):
                    with self.subTest(mutant=mutant, row=row):
                        self.assertFalse(first_list_differs(row, mutant))
