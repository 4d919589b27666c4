"""Tests of results as data: the JSON against its schema, the comparison of two files, files of expected differences,
and answers that were damaged.

    python3 -m pytest conformance/test_results.py
"""

from __future__ import annotations

import contextlib
import copy
import io
import json
import os
import random
import tempfile
import unittest
from fractions import Fraction
from typing import Any, ContextManager
from unittest import mock

import pytest

from conformance import blending, compare, driver, expected, results, suites
from conformance.blending import FACTORS, OPERATIONS, OVER, Equation
from conformance.comparison import VALUE, compare_suite
from conformance.d3d11 import pictures, run
from conformance.d3d11.direct3d import asked
from conformance.d3d11.stand_in import draw_by
from conformance.d3d11.streams import (
    PICTURE, Answer, Answers, read_answers, read_requests, write_answers, write_requests
)
from conformance.model import Model
from conformance.report import Report, page
from conformance.results import Json
from conformance.run import measure
from conformance.suites.blends import any_equation, any_pixel
from conformance.suites.depth_ends import within_depths
from conformance.suites.shapes import Lists, draw, rectangle, scene, vertex
from tools.opengl import gl
from tools.places import text_of


def one_scissor(_rng: object, samples: int) -> Lists:
    for left in (2, 3):
        yield f"a scissor from {left}", scene([draw(rectangle(0, 0, 8, 8), scissor=[left, 2, 5, 5])], samples, 8, 8)


SUITES = (
    suites.Suite("one-scissor", "One scissor", one_scissor),
    suites.Suite("near", "Near", one_scissor, (1,), exact=False, tolerances=(1,)),
)


def few_findings() -> ContextManager[object]:
    """Leaves out what pictures show, which takes the reference renderer seconds."""
    return mock.patch("conformance.run.findings", return_value=[("edges", "top, left", "top, left")])


def report_of(mutant: str, chosen: tuple[suites.Suite, ...] = SUITES) -> Report:
    with tempfile.TemporaryDirectory() as folder, few_findings():
        return measure(Model(), Model(mutant), chosen, folder)


def results_of(mutant: str) -> Json:
    return results.as_json(report_of(mutant))


class Data(unittest.TestCase):
    def test_the_schema(self) -> None:
        jsonschema = pytest.importorskip("jsonschema")
        schema = json.loads(text_of("docs", "conformance.schema.json"))
        for mutant in ("", "moved scissor"):
            jsonschema.validate(results_of(mutant), schema)
        changes: tuple[Json, ...] = ({"format": 2}, {"more": 1}, {"subjects": [{}]}, {"interface": "Metal"})
        for change in changes:
            with self.assertRaises(jsonschema.ValidationError):
                jsonschema.validate({**results_of(""), **change}, schema)

    def test_the_counts(self) -> None:
        found = results_of("moved scissor")
        self.assertEqual((found["samples_compared"], found["samples_that_differ"]), (2 * 5 * 64, (6 + 6) * 5))
        one, four, near = found["subjects"]
        self.assertEqual((one["differ"], four["differ"], near["differ"]), (12, 48, 36))
        self.assertEqual(one["kinds"], {"extra": 6, "missing": 6})
        self.assertEqual(one["cases"], [{"list": n, "title": f"a scissor from {n + 2}", "differ": 6} for n in (0, 1)])
        self.assertEqual(one["examples"][0]["around"], ["......."] * 2 + ["..-##+."] * 3 + ["......."] * 2)

    def test_the_identity_is_that_of_the_lists(self) -> None:
        found = [results_of(mutant)["subjects"][0]["identity"] for mutant in ("", "moved scissor")]
        self.assertEqual(found[0], found[1])
        self.assertNotEqual(found[0], results_of("")["subjects"][1]["identity"])

    def test_what_is_written_is_read(self) -> None:
        with tempfile.TemporaryDirectory() as folder:
            path = os.path.join(folder, "one.json")
            results.write(path, results_of(""))
            self.assertEqual(results.read(path), results_of(""))
            for text in ("", "{", "[]", '{"format": 2}', '{"format": 1, "interface": "Vulkan"}'):
                with open(path, "w", encoding="utf-8") as file:
                    file.write(text)
                with self.assertRaises(results.NotResults):
                    results.read(path)


class SideBySide(unittest.TestCase):
    RULES, MOVED = results_of(""), results_of("moved scissor")

    def test_nothing_changed(self) -> None:
        self.assertEqual(compare.changes([self.MOVED, self.MOVED], compare.rows_of([self.MOVED, self.MOVED])), [])
        self.assertIn("Nothing changed.", compare.text([self.RULES, self.RULES]))

    def test_what_changed(self) -> None:
        lines = compare.changes([self.RULES, self.MOVED], compare.rows_of([self.RULES, self.MOVED]))
        self.assertIn("One scissor (1): 0 -> 12", lines)
        self.assertIn("new: one-scissor-1/0 (6 differ)", lines)
        back = compare.changes([self.MOVED, self.RULES], compare.rows_of([self.MOVED, self.RULES]))
        self.assertIn("differs no more: one-scissor-4/1", back)

    def test_other_lists_are_not_compared(self) -> None:
        other = copy.deepcopy(self.MOVED)
        other["subjects"][0]["identity"] = "0" * 64
        lines = compare.changes([self.RULES, other], compare.rows_of([self.RULES, other]))
        self.assertIn("One scissor (1): other lists, not compared", lines)
        self.assertFalse([line for line in lines if "one-scissor-1/" in line or line.startswith("One scissor (1): 0")])

    def test_lists_that_one_interface_allows_to_differ(self) -> None:
        """OpenGL has no number, so that each list that differs is named; by Direct3D those past what is allowed are."""
        other = copy.deepcopy(self.MOVED)
        other["subjects"][2].update(allowed=None, cases=[])
        lines = compare.changes([other, self.MOVED], compare.rows_of([other, self.MOVED]))
        self.assertEqual(lines, [])

    def test_a_subject_that_one_file_lacks(self) -> None:
        less = {**self.RULES, "subjects": self.RULES["subjects"][1:]}
        self.assertIn(
            ("One scissor", "1", "128", "-", "12"), [row.cells() for row in compare.rows_of([less, self.MOVED])]
        )

    def test_the_page_has_the_count_first_and_then_pictures(self) -> None:
        shown = compare.page([self.RULES, self.MOVED])
        places = [shown.index(word) for word in ("60 of 640 samples differ", "<svg", "<table>")]
        self.assertEqual(places, sorted(places))
        alone = page(report_of("moved scissor"))
        places = [alone.index(word) for word in ("60 differ", "<svg", "<table>")]
        self.assertEqual(places, sorted(places))
        for word in ("http:", "https:", "src=", "href=", "<script"):
            self.assertNotIn(word, shown)


class ExpectedDifferences(unittest.TestCase):
    CASES = {"scissor-4/12": 55, "scissor-4/3": 2}

    def test_lines(self) -> None:
        lines = expected.parse("# known\n scissor-4/12 55 # here\n\nscissor-*/3\n")
        self.assertEqual(lines, [expected.Expected("scissor-4/12", 55), expected.Expected("scissor-*/3")])
        for line in ("scissor", "scissor-4/1 x", "a/1 2 3"):
            with self.assertRaises(expected.BadLine):
                expected.parse(line)

    def test_only_new_ones_count(self) -> None:
        for text, new in (
            ("scissor-4/*", {}), ("scissor-4/12 55\nscissor-4/3 2", {}),
            ("scissor-4/12 54\nscissor-4/3", {"scissor-4/12": 55}), ("", self.CASES), ("scissor-1/*", self.CASES),
        ):
            self.assertEqual(expected.judge(self.CASES, expected.parse(text)).new, new, text)
        self.assertEqual(expected.judge({}, expected.parse("scissor-4/3")).unused, ["scissor-4/3"])

    def test_what_is_written_expects_just_that(self) -> None:
        self.assertEqual(expected.judge(self.CASES, expected.parse(expected.written(self.CASES))).new, {})
        more = {**self.CASES, "scissor-4/3": 3}
        self.assertEqual(expected.judge(more, expected.parse(expected.written(self.CASES))).new, {"scissor-4/3": 3})


class Equations(unittest.TestCase):
    """The rule of blend equations by worked values."""

    def test_presets(self) -> None:
        new, old = (200, 100, 50, 64), (10, 20, 30, 128)
        # 200 * 64 + 10 * 191 = 14710, which is 57.7 of 255; alpha 64 + 128 * 191 / 255 = 159.9.
        self.assertEqual(blending.blended(OVER, new, old), (58, 40, 35, 160))
        self.assertEqual(blending.blended(blending.PRESETS["keep"], new, old), old)
        self.assertEqual(blending.blended(blending.NONE, new, old), new)
        self.assertEqual(blending.blended(blending.PRESETS["multiply"], new, old), (8, 8, 6, 32))
        self.assertEqual(blending.blended(blending.PRESETS["add"], new, old), (60, 45, 43, 192))

    def test_halves_and_ends(self) -> None:
        # x is rounded to the q with 255 q <= x + 127 < 255 (q + 1), then clamped.
        for x, q in ((127, 0), (128, 1), (-128, 0), (255 * 255, 255), (2 * 255 * 255, 255), (-255 * 255, 0)):
            equation = OPERATIONS["add"] if x >= 0 else OPERATIONS["reverse_subtract"]
            one, two = (abs(x), 0) if abs(x) <= 255 else (255, 255 if abs(x) == 65025 else 510)
            value = (
                blending.channel_of(one, 0, 1, 0, equation)
                if two == 0 else blending.channel_of(one, 0, two, 0, equation)
            )
            self.assertEqual(value, q, x)

    def test_each_factor(self) -> None:
        new, old, constant = (200, 100, 50, 64), (10, 20, 30, 230), (1, 2, 3, 4)
        values = {
            "zero": (0, 0), "one": (255, 255), "source_color": (100, 64), "inverse_source_color": (155, 191),
            "source_alpha": (64, 64), "inverse_source_alpha": (191, 191), "stored_alpha": (230, 230),
            "inverse_stored_alpha": (25, 25), "stored_color": (20, 230), "inverse_stored_color": (235, 25),
            "source_alpha_saturated": (25, 255), "constant": (2, 4), "inverse_constant": (253, 251),
        }
        self.assertEqual(set(values), set(FACTORS))
        for name, pair in values.items():
            found = tuple(blending.factor(FACTORS[name], channel, new, old, constant) for channel in (1, 3))
            self.assertEqual(found, pair, name)

    def test_each_factor_has_a_name_in_each_interface(self) -> None:
        numbers = driver.FACTORS
        self.assertEqual(set(numbers), set(FACTORS.values()))
        self.assertEqual((numbers[1], numbers[2]), (0, 1))
        self.assertEqual((numbers[5], numbers[6]), (gl.SRC_ALPHA, gl.ONE_MINUS_SRC_ALPHA))
        self.assertEqual(len(set(numbers.values())), len(numbers))

    def test_by_fractions(self) -> None:
        """The rule in rational numbers: a sum of products, rounded to the nearest integer, then clamped."""
        signs = {"add": (1, 1), "subtract": (1, -1), "reverse_subtract": (-1, 1)}
        rng = random.Random("fractions")
        for _ in range(200):
            equation = any_equation(rng)
            pixels = [(*colour, alpha) for colour, alpha in (any_pixel(rng), any_pixel(rng))]
            new, old = pixels
            for channel, made in enumerate(blending.blended(equation, new, old)):
                source, stored, operation = equation[3:6] if channel == 3 else equation[:3]
                values = new[channel], old[channel]
                name = next(name for name, number in OPERATIONS.items() if number == operation)
                if name in signs:
                    numerators = (blending.factor(n, channel, new, old, equation[6:]) for n in (source, stored))
                    products = (Fraction(value * numerator, 255) for value, numerator in zip(values, numerators))
                    exact = sum(sign * product for sign, product in zip(signs[name], products))
                    self.assertEqual(made, max(0, min(255, round(exact))), (equation, pixels, channel))
                else:
                    self.assertEqual(made, (min if name == "min" else max)(values), (equation, pixels, channel))

    def test_each_factor_and_operation_is_asked(self) -> None:
        suite = next(suite for suite in suites.DIRECT3D if suite.name == "equations")
        asked_ = [listed["draws"][1]["equation"] for _title, listed in suite.lists(1)]
        for preset in blending.PRESETS.values():
            self.assertIn(list(preset), asked_)
        for place, table in enumerate((FACTORS, FACTORS, OPERATIONS) * 2):
            self.assertEqual({equation[place] for equation in asked_}, set(table.values()))

    def test_operations(self) -> None:
        made = {name: blending.channel_of(100, 40, 255, 255, number) for name, number in OPERATIONS.items()}
        self.assertEqual(made, {"add": 140, "subtract": 60, "reverse_subtract": 0, "min": 40, "max": 100})

    def test_over_is_that_of_draw_lists(self) -> None:
        rows = [shape for n in range(8) for shape in rectangle(0, n, 8, n + 1, (31 * n, 255 - n, 128), alpha=36 * n)]
        for clear in ((0, 0, 0), (255, 3, 77)):
            listed = scene([draw(rows, blend="over")], 1, 8, 8, clear=list(clear))
            same = scene([draw(rows, equation=list(OVER))], 1, 8, 8, clear=list(clear))
            found = blending.pixels(same)
            self.assertEqual(bytes(found[k] for k in range(len(found)) if k % 4 < 3), Model().picture(listed))

    def test_a_shape_that_is_no_rectangle(self) -> None:
        with self.assertRaises(ValueError):
            blending.pixels(scene([draw([[vertex((0, 0)), vertex((256, 0)), vertex((0, 128))]] * 2)], 1, 8, 8))

    def test_an_equation_reads_the_old_alpha(self) -> None:
        # Colour by the stored alpha, while alpha becomes 0.
        equation = Equation(7, 1, 1, 1, 1, 1)
        self.assertEqual(blending.blended(equation, (255, 255, 255, 255), (0, 0, 0, 51)), (51, 51, 51, 0))


class DepthEnds(unittest.TestCase):
    def test_a_triangle_is_cut(self) -> None:
        corners = [vertex((0, 0), z=-256), vertex((2560, 0), z=2304), vertex((0, 2560), z=-256)]
        (kept,) = within_depths(scene([draw([corners])], 1, 16, 16), False)["draws"]
        self.assertEqual(
            sorted(tuple(corner[:3]) for corner in kept["vertices"]), [(256, 0, 0), (256, 2304, 0), (2560, 0, 2304)]
        )

    def test_within_the_range_nothing_changes(self) -> None:
        listed = scene([draw(rectangle(0, 0, 8, 8, z=65535)), draw(rectangle(0, 0, 8, 8, z=0))], 1, 8, 8)
        self.assertEqual(within_depths(listed, False), listed)


class Damaged(unittest.TestCase):
    """Answers that were damaged on their way: what is counted of them, or the error without a count."""

    SUITE = (suites.Suite("one-scissor", "One scissor", one_scissor, (1,)),)

    def run_with(self, change: Any, *arguments: str) -> tuple[int, str, str]:
        """The exit status, standard output and standard error of a comparison of changed answers with whole ones."""
        output, errors = io.StringIO(), io.StringIO()
        with tempfile.TemporaryDirectory() as folder, mock.patch.object(suites, "DIRECT3D", self.SUITE), few_findings():
            listed = run.requests_of(self.SUITE)
            whole = draw_by(Model())(write_requests(listed))
            paths = [os.path.join(folder, name) for name in ("changed.bin", "whole.bin")]
            for path, stream in zip(paths, (change(whole, listed), whole)):
                with open(path, "wb") as file:
                    file.write(stream)
            words = ["run", "--read", paths[0], "--against", paths[1], "--lists", folder, *arguments]
            names = ["one-scissor"]
            with mock.patch("sys.argv", words), mock.patch.object(run, "NAMES", names):
                with contextlib.redirect_stdout(output), contextlib.redirect_stderr(errors):
                    status = run.main()
        return status, output.getvalue(), errors.getvalue()

    def test_two_answers_that_are_the_same(self) -> None:
        status, output, errors = self.run_with(lambda whole, _listed: whole)
        self.assertEqual((status, errors), (0, ""))
        self.assertTrue(output.startswith("Coverage agrees: 128 samples compared, none differs."), output)

    def test_a_moved_sample(self) -> None:
        status, output, _errors = self.run_with(self.moved)
        self.assertEqual(status, 1)
        self.assertIn("128 samples compared, 2 differ", output)

    @staticmethod
    def moved(whole: bytes, listed: list[bytes]) -> bytes:
        """The answers with the colour of one pixel of the first list at the pixel beside it."""
        answers = read_answers(whole, listed)
        first = next(
            k
            for k, one in enumerate(answers.answers)
            if one.status == PICTURE and len(pictures.decode(one.data, 64)) == 192
        )
        picture = bytearray(pictures.decode(answers.answers[first].data, 64))
        at = 3 * (8 * 2 + 2)
        picture[at - 3 : at], picture[at : at + 3] = picture[at : at + 3], picture[at - 3 : at]
        answers.answers[first] = Answer(PICTURE, pictures.encode(bytes(picture)))
        return write_answers(read_requests(write_requests(listed))[0], Answers(answers.about, answers.answers))

    def test_no_count_of_half_a_stream(self) -> None:
        for name, change in (
            ("CutShort", lambda whole, _listed: whole[: len(whole) // 2]),
            ("CutShort", lambda whole, _listed: whole[:-1]),
            ("CutShort", lambda whole, _listed: b""),  # what a lost device leaves
            ("OtherSuite", lambda whole, listed: draw_by(Model())(write_requests(listed[::-1]))),
            ("BadChecksum", lambda whole, _listed: whole[:60] + bytes((whole[60] ^ 1,)) + whole[61:]),
        ):
            status, output, errors = self.run_with(change)
            self.assertEqual((status, output), (2, ""), name)
            self.assertTrue(errors.startswith(f"conformance: {name}: "), errors)

    def test_an_answer_that_has_not_what_was_asked_for(self) -> None:
        def other_status(whole: bytes, listed: list[bytes]) -> bytes:
            answers = read_answers(whole, listed)
            answers.answers[0] = Answer(2, bytes(4))
            return write_answers(read_requests(write_requests(listed))[0], Answers(answers.about, answers.answers))

        status, output, errors = self.run_with(other_status)
        self.assertEqual((status, output), (2, ""))
        self.assertIn("Malformed", errors)

    def test_no_mutant_of_other_answers(self) -> None:
        status, output, errors = self.run_with(lambda whole, _listed: whole, "--mutant", "moved scissor")
        self.assertEqual((status, output), (2, ""))
        self.assertIn("--mutant changes the rules, which are not asked with --against", errors)

    def test_expected_differences_decide(self) -> None:
        with tempfile.TemporaryDirectory() as folder:
            path = os.path.join(folder, "expected")
            self.assertEqual(self.run_with(self.moved, "--write-expected", path)[0], 1)
            status, output, _errors = self.run_with(self.moved, "--expected", path)
            self.assertEqual(status, 0)
            self.assertIn("Lists that differ: 1 expected, 0 new.", output)
            for text, wanted in (("one-scissor-1/* 1\n", 1), ("", 1), ("one-scissor-1/*\n", 0), ("nonsense\n", 2)):
                with open(path, "w", encoding="utf-8") as file:
                    file.write(text)
                self.assertEqual(self.run_with(self.moved, "--expected", path)[0], wanted, text)

    def test_values_are_compared_with_alpha(self) -> None:
        suite = next(suite for suite in suites.DIRECT3D if suite.name == "layered-alpha")
        listed = asked(lambda questions: compare_suite(suite, 1, run.Black(), questions, limit=1))
        self.assertEqual(len(listed), 1)
        tally = compare_suite(suite, 1, Model(), Model("alpha kept"), limit=1)
        self.assertFalse(tally.agrees)
        self.assertEqual(tally.compared, 4 * 64 * 64)
        self.assertIn(VALUE, tally.examples)
