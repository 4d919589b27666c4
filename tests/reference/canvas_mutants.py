"""Mutants of the reference for canvases, which its comparison with canvases of the library has to find.

    python3 -m pytest tests/reference/canvas_mutants.py

For each mutant some list of tests/reference/generated_lists.py has another pixel, or a sample another colour or depth,
than on a canvas. Each list is drawn once with each number of samples a pixel.
"""

from __future__ import annotations

import random
from dataclasses import replace
from functools import lru_cache
from typing import Any, Sequence

import pytest

from tests import cases, mutants
from tests.cases import Case
from tests.mutants import Mutant
from tests.reference import generated_lists, renderer
from tests.reference.compare_canvas import Readings, an_origin, drawn, of_canvas, of_reference
from tests.reference.mutants import rules
from tools.draw_list import encode
from tools.places import SHARED_LIBRARY, is_built

SEED = 1
LISTS = 200
PATTERN = "enumerate(SAMPLES[scene.samples])"
MASK = "triangle.state.sample_mask"
MASKED = f"if {MASK} >> s & 1]"
POSITION = "p = (256 * i + ox, 256 * j + oy)"
SCISSOR = "triangle.state.scissor"
FAILED = "(depth, old[3]):\n        return old"
FAILED_WITH_ALPHA = "(depth, old[3]):\n        return old[:4] + tuple([value(6)] if len(old) > 4 else [])"
MEAN = "out.append((sum(sample[channel] for sample in pixel) + count // 2) // count)"

# The name of each mistake, the numbers of samples that can show it, the text of the rule in
# tests/reference/renderer.py, and what stands in its place.
MUTANTS: list[tuple[str, Sequence[int], str, str]] = [
    ("two samples in each other's place", (2,), "((4, 4), (-4, -4))", "((-4, -4), (4, 4))"),
    ("two samples on the other diagonal", (2,), "((4, 4), (-4, -4))", "((4, -4), (-4, 4))"),
    ("a sample of two moved by 1/16", (2,), "((4, 4), (-4, -4))", "((4, 5), (-4, -4))"),
    ("two of eight samples in each other's place", (8,), "((1, -3), (-1, 3), ", "((-1, 3), (1, -3), "),
    ("two of eight samples, of two parts, in each other's place", (8,), "(-3, -5), (-5, 5)", "(-5, 5), (-3, -5)"),
    ("a sample of eight moved by 1/16", (8,), "(3, 7), (7, -7))", "(3, 7), (6, -7))"),
    ("eight samples mirrored", (8,), "(128 + 16 * x,", "(128 + 16 * (-x if count == 8 else x),"),
    ("two of sixteen samples in each other's place", (16,), "(-1, -3), (-3, 2)", "(-3, 2), (-1, -3)"),
    ("a sample of sixteen moved by 1/16", (16,), "(-2, 6), (0, -7)", "(-2, 6), (1, -7)"),
    ("the sample on the left border moved into the pixel", (16,), "(-8, 0)", "(-7, 0)"),
    ("the sample on the left border put on the right one", (16,), "(-8, 0)", "(8, 0)"),
    ("the sample on the upper border moved into the pixel", (16,), "(-7, -8)", "(-7, -7)"),
    ("sixteen samples mirrored", (16,), "128 + 16 * y)", "128 + 16 * (-y if count == 16 else y))"),
    ("the second four samples of eight left out", (8,), PATTERN, "enumerate(SAMPLES[scene.samples][:4])"),
    (
        "the first four samples for the others", (8, 16), PATTERN,
        "enumerate(SAMPLES[scene.samples][:4] * (scene.samples // 4))",
    ),
    (
        "the mask of the first four samples for the others", (8, 16), MASKED,
        "if triangle.state.sample_mask >> s % 4 & 1]",
    ),
    ("bit 8 of a mask taken as bit 0", (16,), MASKED, "if triangle.state.sample_mask >> s % 8 & 1]"),
    ("a mask of four bits", (8, 16), MASKED, "if triangle.state.sample_mask % 16 >> s & 1]"),
    (
        "a mask with bits of no sample drawn nowhere", (1, 2, 4, 8), MASKED,
        f"if {MASK} < 1 << scene.samples and {MASK} >> s & 1]",
    ),
    ("means rounded down", (2, 8, 16), MEAN, MEAN.replace(" + count // 2", "")),
    ("halves rounded down", (2, 8, 16), MEAN, MEAN.replace("count // 2", "(count - 1) // 2")),
    (
        "the mean of sixteen samples by eight", (16,), MEAN,
        "out.append(min(255, sum(sample[channel] for sample in pixel) // 8))",
    ),
    (
        "the mean of the first four samples", (8, 16), MEAN,
        "out.append((sum(sample[channel] for sample in pixel[:4]) + 2) // 4)",
    ),
    ("stored alpha taken as 0 without alpha", (1, 4), "OPAQUE = 255", "OPAQUE = 0"),
    (
        "the new alpha read by colours", (1, 4), "stored_alpha = old[4] if len(old) > 4 else OPAQUE",
        "stored_alpha = value(6) if len(old) > 4 else OPAQUE",
    ),
    ("alpha written that is kept", (1, 4), "if len(old) > 4 and state.write[3]:", "if len(old) > 4:"),
    (
        "keep taken for write at alpha", (1, 4), "if len(old) > 4 and state.write[3]:",
        "if len(old) > 4 and not state.write[3]:",
    ),
    ("alpha never written", (1, 4), "if len(old) > 4 and state.write[3]:", "if False:"),
    ("alpha stored where the depth test failed", (1, 4), FAILED, FAILED_WITH_ALPHA),
    ("the clear's alpha dropped", (1, 4), "[scene.clear] *", "[scene.clear[:4] + (0,) * (len(scene.clear) - 4)] *"),
    (
        "positions seen from a window's corner", (1, 2, 4, 8, 16), POSITION,
        "p = (256 * (i - scene.origin[0]) + ox, 256 * j + oy)",
    ),
    (
        "a scissor seen from a window's corner", (1, 2, 4, 8, 16), SCISSOR,
        f"(edge + scene.origin[k % 2] for k, edge in enumerate({SCISSOR}))",
    ),
]


# Those of tests/reference/blending.py.
BLENDING: list[tuple[str, str, str]] = [
    ("two factors in each other's place", "s * factors[source]", "s * factors[stored]"),
    ("an inverse taken from 256", "k: 255 - a,", "k: 256 - a,"),
    ("the inverse of a colour taken from 256", "k: 255 - d,", "k: 256 - d,"),
    ("the rounding dropped", "(x + 127) // 255", "x // 255"),
    ("halves rounded up", "(x + 127) // 255", "(x + 128) // 255"),
    ("rounding towards zero", "q = (x + 127) // 255", "q = int((x + 127) / 255) if x >= -127 else 1"),
    ("the upper clamp left out", "min(max(q, 0), 255)", "max(q, 0) % 256"),
    ("the lower clamp left out", "min(max(q, 0), 255)", "min(q % 256 if q < 0 else q, 255)"),
    ("the alpha of the constant for its channels", "equation.constant[channel]", "equation.constant[3]"),
    (
        "red and blue of the constant in each other's place", "equation.constant[channel]",
        "equation.constant[2 - channel]",
    ),
    ("the inverse of the constant forgotten", "k: 255 - k,", "k: k,"),
    (
        "the new colour subtracted from the stored one", '"subtract": lambda f, g: f - g',
        '"subtract": lambda f, g: g - f',
    ),
    (
        "the difference without a sign", '"reverse_subtract": lambda f, g: g - f',
        '"reverse_subtract": lambda f, g: abs(g - f)',
    ),
    ("the lesser for the greater", '"max": max', '"max": min'),
    ("min with factors", "ENDS[operation](s, d)", "ENDS[operation](s, d) * equation.constant[channel] // 255"),
    ("a saturated alpha that is not", "min(a, 255 - e)", "a"),
    ("multiply by the new colour", '"multiply": Equation("stored_color"', '"multiply": Equation("source_color"'),
    ("add without alpha", '"add": Equation("source_alpha"', '"add": Equation("one"'),
    ("premultiplied as over", '"premultiplied": Equation("one"', '"premultiplied": Equation("source_alpha"'),
    ("keep as none", '"keep": Equation("zero", "one"', '"keep": Equation("one", "zero"'),
    ("alpha's equation for colours", "equation[:3]", "equation[3:6]"),
    ("alpha blended as a colour", "equation[3:6] if channel == ALPHA else equation[:3]", "equation[:3]"),
    ("colours blended as alpha", "equation[3:6] if channel == ALPHA else equation[:3]", "equation[3:6]"),
    ("alpha saturated as a colour", "{**FACTORS, **ALPHA_FACTORS} if channel == ALPHA else FACTORS", "FACTORS"),
    ("colours divided by alpha and rounded down", "(255 * c + a // 2) // a", "255 * c // a"),
    ("colours divided by alpha without an end", "min((255 * c + a // 2) // a, 255)", "(255 * c + a // 2) // a % 256"),
    ("colours left where alpha is 0", "    if a == 0:\n        return 0", "    if a == 0:\n        return c"),
    ("alpha's operation for colours", "x = OPERATIONS[operation]", "x = OPERATIONS.get(equation.alpha_operation, max)"),
]
EVERY = {
    **{Mutant(name, (("renderer.py", old, new),)): counts for name, counts, old, new in MUTANTS},
    **{Mutant(name, (("blending.py", old, new),)): (1, 4) for name, old, new in BLENDING},
}


@lru_cache(maxsize=None)
def readings(number: int, samples: int) -> tuple[renderer.Scene, Readings]:
    """The list `number` with so many samples a pixel as a scene, every second one at a window of the screen, and what a
    canvas has of it, which the library is asked for once."""
    assert is_built(SHARED_LIBRARY, made_by="make library")
    listed = generated_lists.canvas_list(SEED, number, samples, number % 3 > 0)
    size = listed["width"], listed["height"]
    origin = an_origin(random.Random(f"{SEED} {number}"), listed) if number % 2 else (0, 0)
    scene = replace(renderer.read(encode(listed), renderer.CANVAS), origin=origin)
    return scene, of_canvas(drawn(listed, [listed["draws"]], size, origin, 1), 1)


def first_difference(rules: Any, counts: Sequence[int]) -> str | None:
    """The first list of which these rules make something else than a canvas has."""
    for number in range(LISTS):
        for samples in counts:
            scene, found = readings(number, samples)
            if of_reference(rules, scene) != found:
                return f"list {number}"
    return None


CASES = mutants.cases(EVERY, lambda mutant: first_difference(rules(mutant), EVERY[mutant]))


def test_the_rules_differ_nowhere() -> None:
    assert first_difference(renderer, renderer.CANVAS.counts) is None


@pytest.mark.parametrize("case", cases.parameters(CASES))
def test_mutant(case: Case) -> None:
    cases.run(case)
