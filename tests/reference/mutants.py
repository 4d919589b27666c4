"""Mutants of the reference renderer, which its comparison with the program has to find.

    python3 -m pytest tests/reference/mutants.py

For each mutant some list of tests/reference/generated_lists.py has another answer than the program's. The program
answers each list once, with one tile size and one worker, since the rules are what is tried here.
"""

from __future__ import annotations

import sys
import types
from functools import lru_cache, partial
from typing import Any

import pytest

from tests import cases, mutants
from tests.cases import Case
from tests.mutants import Mutant
from tests.reference import compare, generated_lists, renderer
from tools.answers import Answer
from tools.places import PROGRAM, is_built, text_of

SEED = 1
# How many accepted lists are tried, and how many broken ones.
LISTS, BROKEN = 300, 600
# The name of each mistake, the text of the rule in tests/reference/renderer.py, and what stands in its place.
MUTANTS = [Mutant(name, (("renderer.py", old, new),)) for name, old, new in (
    ("a sample pattern mirrored", "(-2, -6), (6, -2), (-6, 2), (2, 6)", "(2, -6), (-6, -2), (6, 2), (-2, 6)"),
    ("two samples in each other's place", "(-2, -6), (6, -2)", "(6, -2), (-2, -6)"),
    ("a centre off by one unit", "(128 + 16 * x, 128 + 16 * y)", "(128 + 16 * x - (count == 1), 128 + 16 * y)"),
    ("bottom edges in place of top edges", "top = a[1] == b[1] and c[1] > a[1]", "top = a[1] == b[1] and c[1] < a[1]"),
    ("right edges in place of left edges", "(b[0] - a[0]) * (c[1] - a[1])) > 0", "(b[0] - a[0]) * (c[1] - a[1])) < 0"),
    ("points of every edge counted in", "(value == 0 and self.owns_its_points)", "value == 0"),
    ("points of no edge counted in", "(value == 0 and self.owns_its_points)", "False"),
    ("front and back in each other's place", '(cull == "front" and area > 0)', '(cull == "front" and area < 0)'),
    ("less passes equal depths", '"less": lambda new, old: new < old', '"less": lambda new, old: new <= old'),
    ("greater passes equal depths", '"greater": lambda new, old: new > old', '"greater": lambda new, old: new >= old'),
    ("the stored depth on the left", "[state.depth_test](depth, old[3])", "[state.depth_test](old[3], depth)"),
    ("a failed depth test passed over", "        return old\n    new = list(old)", "        pass\n    new = list(old)"),
    ("the write mask passed over", "if state.write[channel]:", "if True:"),
    ("depths stored without depth writes", "if state.depth_write:", "if True:"),
    ("depths never stored", "if state.depth_write:", "if False:"),
    ("blending rounded down", "(255 - alpha) + 127) // 255", "(255 - alpha)) // 255"),
    (
        "the stored colour over the new one", "(source * alpha + stored * (255 - alpha)",
        "(stored * alpha + source * (255 - alpha)",
    ),
    (
        "the alpha of one vertex", "over(source, value(6), old[channel])",
        "over(source, triangle.vertices[0][6], old[channel])",
    ),
    (
        "values rounded to nearest",
        "zip(weights, triangle.vertices)) // size",
        "zip(weights, triangle.vertices)) * 2 // size + 1 >> 1",
    ),
    (
        "two weights in each other's place",
        "weights = (abs(at_a), abs(at_b), abs(at_c))",
        "weights = (abs(at_b), abs(at_a), abs(at_c))",
    ),
    ("the resolve rounded down", "for sample in pixel) + count // 2) // count", "for sample in pixel)) // count"),
    (
        "three of four samples resolved", "for sample in pixel) + count // 2) // count",
        "for sample in pixel[:3]) + pixel[0][channel] + 2) // 4",
    ),
    (
        "a scissor one pixel too wide", "min(x + scene.width, right, max(xs) + 1)",
        "min(x + scene.width, right + 1, max(xs) + 1)",
    ),
    ("a scissor one pixel too low", "range(max(y, top, min(ys))", "range(max(y, top + 1, min(ys))"),
    ("the last column of a triangle left out", "right, max(xs) + 1)", "right, max(xs))"),
    ("the sample mask passed over", "if triangle.state.sample_mask >> s & 1]", "]"),
    ("the sample mask turned", "sample_mask >> s & 1", "sample_mask >> (3 - s) & 1"),
    (
        "triangles from the last to the first", "for triangle in scene.triangles:",
        "for triangle in reversed(scene.triangles):",
    ),
    (
        "a repeated triangle drawn once", "for triangle in scene.triangles:",
        "for triangle in dict.fromkeys(scene.triangles):",
    ),
    ("odd triangles of a strip not turned", "[a, c, b] if number % 2 else [a, b, c]", "[a, b, c]"),
    ("the other half of a quad as its second half", "[[a, b, c], [c, d, a]]", "[[a, b, c], [b, c, d]]"),
    ("quads convex in one direction alone", " or all(area < 0 for area in areas)", ""),
    ("convexity by three corners", "side(c, d, a), side(d, a, b)]", "side(c, d, a)]"),
    ("another clear depth", 'value.get("clear_depth", 65535)', 'value.get("clear_depth", 65534)'),
    (
        "the depth of the last sample",
        "for sample in samples[:: scene.samples]",
        "for sample in samples[scene.samples - 1 :: scene.samples]",
    ),
    ("the least significant byte first", 'to_bytes(2, "big")', 'to_bytes(2, "little")'),
    (
        "an index equal to the count accepted", "check_whole(index, 0, len(vertices) - 1,",
        "check_whole(index, 0, len(vertices),",
    ),
    ("the guard band one unit wider", "BAND = (-8_388_608, 8_388_607)", "BAND = (-8_388_608, 8_388_608)"),
    ("a bad index reported as out of range", "len(vertices) - 1, draw, BAD_INDEX)", "len(vertices) - 1, draw)"),
    (
        "an index under zero accepted", "check_whole(index, 0, len(vertices) - 1,",
        "check_whole(index, -1, len(vertices) - 1,",
    ),
    ("a dent in a quad passed over", "if not is_strictly_convex(", "if False and not is_strictly_convex("),
    (
        "three corners on a line accepted", "return all(area > 0 for area in areas) or",
        "return all(area >= 0 for area in areas) or",
    ),
    ("depths of vertices rounded to bytes", "return position + (depth,)", "return position + (depth // 256 * 256,)"),
    (
        "coverage by the centre at four samples", "p = (256 * i + ox, 256 * j + oy)",
        "p = (256 * i + 128, 256 * j + 128)",
    ),
    (
        "two lists reported before a missing key",
        '    check_keys(value, DRAW_KEYS, ("vertices",), draw)\n    named =',
        "    check_keys(value, DRAW_KEYS, (), draw)\n    named =",
    ),
    ("an unknown key passed over", "if any(key not in known for key in value):", "if False:"),
    ("a fraction taken as whole", "if type(value) is not int:", "if type(value) not in (int, float):"),
)]


def module(name: str, text: str) -> Any:
    """A text of Python as a module."""
    made = types.ModuleType(name)
    sys.modules[name] = made  # its data classes look for themselves there
    exec(compile(text, name, "exec"), made.__dict__)
    return made


def rules(mutant: Mutant) -> Any:
    """A mutant of tests/reference/renderer.py as a module, over its own blending.py if that is what is wrong."""
    read = partial(text_of, "tests", "reference")
    texts = mutant.texts(read)
    made = module("mutant", texts.get("renderer.py") or read("renderer.py"))
    if "blending.py" in texts:
        made.blending = module("mutant_blending", texts["blending.py"])
    return made


def answer(rules: Any, text: bytes) -> Answer | str:
    """The answer to a list by these rules, or a string if they cannot draw it, which differs from any answer."""
    try:
        return Answer(0, rules.render(rules.read(text)), b"")
    except rules.ListFault as error:
        return Answer(1, b"", str(error).encode() + b"\n")
    except (IndexError, KeyError, TypeError, ValueError) as error:
        return repr(error)


def text_of_list(k: int) -> bytes:
    """List k: accepted and broken ones in turn, as many of each as there are."""
    if k < 2 * min(LISTS, BROKEN):
        is_list, k = k % 2 == 0, k // 2
    else:
        k, is_list = k - min(LISTS, BROKEN), LISTS > BROKEN
    return generated_lists.accepted_text(SEED, k) if is_list else generated_lists.broken_text(SEED, k)


@lru_cache(maxsize=None)
def known_answer(k: int) -> tuple[bytes, Answer]:
    """List k, and the program's answer to it, which it is asked for once."""
    assert is_built(PROGRAM)
    text = text_of_list(k)
    return text, compare.Comparison(PROGRAM).run(text, 32, 1)


def first_difference(rules: Any) -> str | None:
    """The first list to which the program's answer is not that of these rules."""
    for k in range(LISTS + BROKEN):
        text, found = known_answer(k)
        if answer(rules, text) != found:
            return f"list {k}"
    return None


CASES = mutants.cases(MUTANTS, lambda mutant: first_difference(rules(mutant)))


def test_the_rules_differ_nowhere() -> None:
    assert first_difference(renderer) is None


@pytest.mark.parametrize("case", cases.parameters(CASES))
def test_mutant(case: Case) -> None:
    cases.run(case)
