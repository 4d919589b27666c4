"""Tests of the comparison with a driver, without a driver: tests/reference/renderer.py stands on both sides, and on the
driver's side one of its mutants. Each mutant must be found under its own subject, and only if it can be seen there.
conformance/test_mutants.py tries the others.

    python3 -m pytest conformance/test_conformance.py
"""

from __future__ import annotations

import hashlib
import json
import os
import random
import subprocess
import sys
import tempfile
import unittest
from typing import Callable, Sequence

import pytest

from conformance import suites
from conformance.comparison import Tally, compare_suite, compare_values, only_sample, pixels_that_differ, planes
from conformance.findings import QUESTIONS, findings
from conformance.model import Model
from conformance.neighbourhood import as_characters
from conformance.program import Program, as_bytes
from conformance.renderer import Candidate, CannotAsk
from conformance.report import Report, page, text
from conformance.run import measure
from conformance.suites.setting import Setting
from conformance.suites.shapes import Lists, coarser, draw, rectangle, scene
from tests.reference import renderer
from tools.draw_list import DrawList
from tools.opengl.frames import DrawState, Mesh, Viewport
from tools.places import TOP

# Their first lists are small enough for the reference renderer. The last four have whole-pixel rectangles alone.
ABOUT_EDGES = ("top-left", "shared-edges", "slivers", "sample-positions", "subpixel-bits")
ABOUT_STATES = ("scissor", "sample-mask", "depth-tests", "write-mask")
TRIED = tuple(suite for suite in suites.OPENGL if suite.name in ABOUT_EDGES + ABOUT_STATES)
EDGES, BITS, PLACE_OF_ONE, PLACES_OF_FOUR = (question for question, _ask in QUESTIONS)


class Remembering:
    """A renderer that draws each list once."""

    def __init__(self, renderer: Candidate) -> None:
        self.renderer = renderer
        self.drawn: dict[bytes, bytes] = {}

    def said(self) -> list[tuple[str, str]]:
        return self.renderer.said()

    def left_out(self) -> Sequence[tuple[str, str]]:
        return ()

    def through(self, _setting: Setting) -> Candidate:
        return self

    def pixels(self, scene: DrawList) -> bytes:
        return self.renderer.pixels(scene)

    def picture(self, scene: DrawList) -> bytes:
        key = as_bytes(scene)
        if key not in self.drawn:
            self.drawn[key] = self.renderer.picture(scene)
        return self.drawn[key]


class Painted(Model):
    """The model with each byte of its pictures changed."""

    def __init__(self, change: Callable[[int], int]) -> None:
        super().__init__()
        self.change = change

    def picture(self, scene: DrawList) -> bytes:
        return bytes(map(self.change, super().picture(scene)))


class Refusing(Model):
    """The model, which cannot be asked for this number of samples."""

    def __init__(self, samples: int) -> None:
        super().__init__()
        self.samples = samples

    def picture(self, scene: DrawList) -> bytes:
        if scene["samples"] == self.samples:
            raise CannotAsk(f"{self.samples} samples")
        return super().picture(scene)


RULES = Remembering(Model())


def differing(renderer: Candidate) -> set[str]:
    """The names of the tried subjects under which a renderer differs from the rules."""
    tallies = (compare_suite(suite, n, RULES, renderer, limit=1) for suite in TRIED for n in suite.samples)
    return {tally.name for tally in tallies if not tally.agrees}


def readings(renderer: Candidate) -> dict[str, str]:
    """What pictures show of a renderer, if they show something else of the rules."""
    return {question: shown for question, rules, shown in findings(RULES, renderer) if rules != shown}


def digest() -> str:
    """A digest of all lists of all suites."""
    sum_of_lists = hashlib.sha256()
    for suite in suites.OPENGL:
        for samples in suite.samples:
            for title, listed in suite.lists(samples):
                sum_of_lists.update(title.encode() + as_bytes(listed))
    return sum_of_lists.hexdigest()


class SuiteLists(unittest.TestCase):
    def test_the_same_bytes_in_another_process(self) -> None:
        found = {digest()}
        for seed in ("1", "2"):
            command = [sys.executable, "-c", "from conformance.test_conformance import digest; print(digest())"]
            run = subprocess.run(command, cwd=TOP, env=dict(os.environ, PYTHONHASHSEED=seed), stdout=subprocess.PIPE)
            found.add(run.stdout.decode().strip())
        self.assertEqual(len(found), 1)

    def test_no_list_is_refused(self) -> None:
        for suite in suites.OPENGL:
            if suite.has_alpha:
                continue  # draw lists have no such equations
            for samples in suite.samples:
                for number, (title, listed) in enumerate(suite.lists(samples)):
                    with self.subTest(suite=suite.name, title=title):
                        drawn = suite.setting(number).by_rules(listed)
                        self.assertEqual(renderer.read(as_bytes(drawn)).samples, samples)

    def test_positions_of_fewer_bits(self) -> None:
        points = [(0, 7), (8, -8), (-9, 24), (8388607, -8388608)]
        listed = scene([draw([[[x, y, 0, 1, 2, 3, 4] for x, y in points[:3]], [[*points[3], 0, 1, 2, 3, 4]] * 3])], 1)
        rounded = [tuple(v[:2]) for v in coarser(listed, 4)["draws"][0]["vertices"][:4]]
        # To multiples of 16, halves up; the last one in the band where the nearest one is outside of it.
        self.assertEqual(rounded, [(0, 0), (16, 0), (-16, 32), (8388592, -8388608)])
        self.assertEqual(coarser(listed, 8), listed)

    def test_colours_of_exact_lists_survive_the_resolve(self) -> None:
        for suite in suites.OPENGL:
            if suite.exact and 4 in suite.samples:
                colours = {tuple(v[3:6]) for _, l in suite.lists(4) for d in l["draws"] for v in d["vertices"]}
                self.assertEqual({channel % 4 for colour in colours for channel in colour}, {0})
                # A plane of depths behind layers is black, which is the clear colour too; no layer is.
                self.assertEqual((0, 0, 0) in colours, suite.name in ("steep-depths", "float-planes"))


class PlantedFaults(unittest.TestCase):
    """What is found of each mutant, and that nothing else is."""

    @pytest.mark.long
    def test_the_rules_themselves_agree(self) -> None:
        self.assertEqual(differing(Model()), set())
        self.assertEqual(readings(Model()), {})

    def test_turned_pattern(self) -> None:
        renderer = Remembering(Model("turned pattern"))
        names = differing(renderer)
        self.assertIn("sample-positions-4", names)
        self.assertEqual({name for name in names if name.endswith("-1")}, set())
        self.assertEqual({name for name in names if name.startswith(ABOUT_STATES)}, set())
        # A quarter of a turn takes (x, y) to (256 - y, x).
        self.assertEqual(readings(renderer), {PLACES_OF_FOUR: "(224, 96), (160, 224), (96, 32), (32, 160)"})

    @pytest.mark.long
    def test_bottom_right_rule(self) -> None:
        renderer = Remembering(Model("bottom-right rule"))
        names = differing(renderer)
        self.assertLessEqual({"top-left-1", "top-left-4"}, names)
        self.assertEqual({name for name in names if name.startswith(ABOUT_STATES)}, set())
        found = readings(renderer)
        self.assertEqual(found[EDGES], "right, bottom")
        self.assertNotIn(BITS, found)

    @pytest.mark.long
    def test_seven_subpixel_bits(self) -> None:
        renderer = Remembering(Model("seven subpixel bits"))
        names = differing(renderer)
        self.assertIn("subpixel-bits-1", names)
        self.assertEqual({name for name in names if name.startswith(ABOUT_STATES)}, set())
        found = readings(renderer)
        self.assertTrue(found[BITS].startswith("7 "), found)
        self.assertNotIn(EDGES, found)

    def test_moved_scissor(self) -> None:
        renderer = Remembering(Model("moved scissor"))
        self.assertEqual(differing(renderer), {"scissor-1", "scissor-4"})
        self.assertEqual(readings(renderer), {})


class OpenGl(unittest.TestCase):
    """What is handed to OpenGL, which needs no driver."""

    CORNERS = [[0, 0, 0, 1, 2, 3, 4], [512, 0, 65535, 5, 6, 7, 8], [512, 512, 0, 0, 0, 0, 0], [0, 512, 0, 0, 0, 0, 0]]

    def test_the_picture_as_viewport(self) -> None:
        mesh = Mesh({"vertices": self.CORNERS, "triangles": [[0, 1, 2]]}, Viewport.around(2, 2))
        self.assertEqual(list(mesh.positions), [-1, -1, -1, 1, -1, 1, 1, 1, -1, -1, 1, -1])
        self.assertEqual(list(mesh.colours)[:8], [1, 2, 3, 4, 5, 6, 7, 8])

    def test_a_viewport_around_the_picture(self) -> None:
        viewport = Viewport.around(2, 4, 8)
        self.assertEqual((viewport.left, viewport.top, viewport.width, viewport.height), (-3, -2, 8, 8))
        self.assertEqual(viewport.clip_coordinates(256, 512), (0, 0))
        self.assertEqual(viewport.clip_coordinates(-768, 1536), (-1, 1))

    def test_triangles_of_each_kind_of_draw(self) -> None:
        drawn: dict[str, tuple[list[object], list[int]]] = {
            "triangles": ([[0, 1, 2]], [0, 1, 2]),
            "strip": ([0, 1, 3, 2], [0, 1, 3, 1, 2, 3]),
            "quads": ([[0, 1, 2, 3]], [0, 1, 2, 2, 3, 0]),
        }
        for key, (faces, indices) in drawn.items():
            mesh = Mesh({"vertices": self.CORNERS, key: faces}, Viewport.around(2, 2))
            self.assertEqual(list(mesh.indices), indices, key)

    def test_states(self) -> None:
        self.assertEqual(DrawState.of({}), DrawState("none", "always", False, False, (True, True, True), 15, None))
        state = DrawState.of(
            {"cull": "back", "blend": "over", "depth_test": "less", "depth_write": True, "scissor": [0, 1, 2, 3]}
        )
        self.assertEqual(state, DrawState("back", "less", True, True, (True, True, True), 15, [0, 1, 2, 3]))


class Counting(unittest.TestCase):
    def test_pixels_that_differ(self) -> None:
        one = bytes(3 * 200)
        cases: list[list[int]] = [[], [0], [63, 64], [199], [1, 130]]
        for pixels in cases:
            other = bytearray(one)
            for pixel in pixels:
                other[3 * pixel + pixel % 3] = 1
            self.assertEqual(pixels_that_differ(one, bytes(other)), pixels)

    def test_one_sample_of_a_list(self) -> None:
        listed = scene([draw(rectangle(0, 0, 1, 1), sample_mask=6)], 4, 2, 1, clear=[9, 9, 9])
        self.assertEqual([only_sample(listed, n)["draws"][0]["sample_mask"] for n in range(4)], [0, 2, 4, 0])
        drawn = bytes((63, 63, 63, 0, 0, 0))  # a quarter of 252, then nothing
        self.assertEqual(planes(Model(), listed), [bytes(6), drawn, drawn, bytes(6)])

    def test_differences_of_values_by_size(self) -> None:
        listed = scene([draw(rectangle(0, 0, 1, 1, (10, 20, 255)))], 1, 2, 2)
        for change, errors in ((lambda v: v, {0: 12}), (lambda v: min(255, v + 2), {0: 1, 2: 11})):
            tally = Tally(Reports.NEAR, 1)
            compare_values(tally, "two more", listed, listed, Model(), Painted(change))
            self.assertEqual(tally.errors, errors)
            self.assertEqual((tally.compared, tally.differ), (12, 12 - errors[0]))

    def test_lists_that_cannot_be_asked(self) -> None:
        tally = compare_suite(suites.OPENGL[0], 1, RULES, Refusing(1), limit=3)
        self.assertEqual((tally.lists, tally.compared, sum(tally.left_out.values())), (0, 0, 3))


def one_scissor(_rng: random.Random, samples: int) -> Lists:
    yield "a scissor of 3 by 3 pixels", scene([draw(rectangle(0, 0, 8, 8), scissor=[2, 2, 5, 5])], samples, 8, 8)


PROGRAM = """#!{python}
import sys
sys.path.insert(0, "{top}")
from tests.reference.renderer import main
sys.exit(main())
"""


class Reports(unittest.TestCase):
    SUITE = suites.Suite("one-scissor", "One <scissor>", one_scissor)
    NEAR = suites.Suite("near", "Near", one_scissor, (1,), exact=False)

    def report(self, renderer: Candidate, folder: str) -> Report:
        return measure(RULES, renderer, [self.SUITE, self.NEAR], folder)

    def test_agreement(self) -> None:
        with tempfile.TemporaryDirectory() as folder:
            report = self.report(Model(), folder)
            self.assertTrue(report.coverage_agrees())
            self.assertEqual(os.listdir(folder), [])
            self.assertIn("Coverage agrees: 320 samples compared, none differs.", text(report))

    def test_a_moved_scissor_is_shown(self) -> None:
        with tempfile.TemporaryDirectory() as folder:
            report = self.report(Model("moved scissor"), folder)
            self.assertFalse(report.coverage_agrees())
            # By the rules columns 2 to 4 of rows 2 to 4 are drawn, by the fault columns 3 to 5: 6 pixels differ.
            self.assertEqual([tally.differ for tally in report.tallies], [6, 24, 18])
            shown = as_characters(report.tallies[0].example)
            self.assertEqual(shown, ["......."] * 2 + ["..-##+."] * 3 + ["......."] * 2)
            self.assertIn("* One <scissor>", text(report))

    def test_the_list_of_a_difference_shows_it(self) -> None:
        with tempfile.TemporaryDirectory() as folder:
            report = self.report(Model("moved scissor"), folder)
            for name in ("one-scissor-1", "one-scissor-4"):
                with open(report.files[name], encoding="utf-8") as file:
                    listed = json.load(file)
                pictures = Model().picture(listed), Model("moved scissor").picture(listed)
                self.assertEqual(len(pixels_that_differ(*pictures)), 6)

    def test_the_page_needs_no_other_file(self) -> None:
        with tempfile.TemporaryDirectory() as folder:
            shown = page(self.report(Model("moved scissor"), folder))
        for word in ("http:", "https:", "src=", "href=", "@import", "url(", "<script"):
            self.assertNotIn(word, shown)
        self.assertIn("One &lt;scissor&gt;", shown)
        self.assertNotIn("One <scissor>", shown)
        # Three pictures of each kind: two of the exact subjects, one of the near one.
        self.assertEqual(shown.count("<svg"), 15)

    def test_what_is_open_and_what_is_left_out_is_said(self) -> None:
        with tempfile.TemporaryDirectory() as folder:
            report = self.report(Model(), folder)
        for shown in (text(report), page(report)):
            self.assertIn("rounded is open in Direct3D 11, OpenGL and Vulkan", shown)
        for left_out in (suites.OPENGL_LEFT_OUT, suites.VULKAN_LEFT_OUT, suites.DIRECT3D_LEFT_OUT):
            self.assertEqual(left_out[:2], suites.NOT_AT_SAMPLES)

    def test_no_list_compared_is_no_agreement(self) -> None:
        with tempfile.TemporaryDirectory() as folder:
            report = measure(RULES, Model(), [self.NEAR], folder)
            self.assertFalse(report.coverage_agrees())
            self.assertEqual(report.summary(), "Coverage was not tried: 0 samples compared.")

    def test_lists_left_out_are_reported(self) -> None:
        with tempfile.TemporaryDirectory() as folder:
            report = self.report(Refusing(4), folder)
            self.assertEqual(report.summary(), "Coverage agrees: 64 samples compared, 1 lists left out, none differs.")
            self.assertIn("one-scissor-4 (1)", text(report))

    def test_the_rules_as_a_mutant_changes_them(self) -> None:
        listed = scene([draw(rectangle(0, 0, 8, 8), scissor=[2, 2, 5, 5])], 1, 8, 8)
        with tempfile.TemporaryDirectory() as folder:
            path = os.path.join(folder, "program")
            with open(path, "w", encoding="utf-8") as file:
                file.write(PROGRAM.format(python=sys.executable, top=TOP))
            os.chmod(path, 0o755)
            pictures = [Program(path, mutant).picture(listed) for mutant in ("", "moved scissor")]
            self.assertEqual(pictures, [Model(mutant).picture(listed) for mutant in ("", "moved scissor")])
            report = self.report(Model(), folder)
        report.mutant = "moved scissor"
        self.assertTrue(report.summary().startswith("Coverage agrees with the rules changed, moved scissor: "))

    def test_no_program(self) -> None:
        command = [sys.executable, "-m", "conformance.run", "--program", "no-program"]
        run = subprocess.run(command, cwd=TOP, stdout=subprocess.PIPE, stderr=subprocess.PIPE)
        self.assertEqual((run.returncode, run.stdout), (2, b""))
        self.assertIn(b"no program", run.stderr)
