"""What the scenes show by which polygons are compared with their rule: the ways of blocks that they reach, and the
mistakes that they find. No library is needed for that: the mutants of tests/reference/block_ways.py take its place."""

from __future__ import annotations

from collections import Counter
from functools import lru_cache
from typing import Any

import pytest

np = pytest.importorskip("numpy")

from python.tests.polygon_rule import is_inside
from tools.ci.checks import by_name
from tests.reference import block_ways, compare_polygons, renderer
from tests.reference.compare_canvas import Difference
from tests.reference.compare_polygons import COUNTS, seeded_scene
from tests.reference.polygon_samples import Samples, covered
from tests.reference.polygon_scenes import FEW_CORNERS, Clear, Picture, Polygons, Scene, Triangles

# The scenes of the short form of the check.
SCENES = int(by_name("compare-polygons").words()[-1])
TILE = block_ways.TILE


@lru_cache(maxsize=None)
def a_scene(number: int) -> Scene:
    return seeded_scene(1, number, COUNTS[number % len(COUNTS)])


@lru_cache(maxsize=None)
def due(number: int) -> list[Any]:
    """The samples of a scene after each call by the rule."""
    return block_ways.drawn(a_scene(number))[1]


def is_due(number: int, values: list[Any]) -> bool:
    """Whether these are the samples of a scene after each call."""
    return all(map(np.array_equal, values, due(number)))


def calls_of(kind: type[Any]) -> list[Any]:
    return [call for number in range(SCENES) for call in a_scene(number).calls if isinstance(call, kind)]


def test_ways_of_blocks_change_no_sample_and_each_is_taken_often() -> None:
    taken: Counter[str] = Counter()
    for number in range(SCENES):
        blocks, values = block_ways.drawn(a_scene(number), block_ways.Blocks)
        assert is_due(number, values), number
        assert isinstance(blocks, block_ways.Blocks)
        taken += blocks.counted
    for way in (
        "one sample", "both samples", "second sample replaced", "first sample replaced", "first sample extended",
        "two samples to own", "single to pair", "pair to single", "both planes", "single to own", "pair to own",
        "own to single", "two samples to four samples", "four samples to four samples", "four samples to two samples",
        "four samples to single", "four samples to own",
    ):
        assert taken[way] >= 100, (way, taken)
    for way in (
        "second sample extended", "second plane replaced", "first plane replaced", "whole cleared tile", "fifth sample",
        "two samples to two samples",
    ):
        assert taken[way] >= 40, (way, taken)
    assert taken["second plane extended"] >= 10, taken


@pytest.mark.parametrize("kind", block_ways.MUTANTS, ids=[kind.__name__ for kind in block_ways.MUTANTS])
def test_a_scene_finds(kind: type[Samples]) -> None:
    assert any(not is_due(number, block_ways.drawn(a_scene(number), kind)[1]) for number in range(SCENES))


def test_scenes_have_calls_of_every_kind() -> None:
    scenes = [a_scene(number) for number in range(SCENES)]
    assert {scene.samples for scene in scenes} == {1, 2, 4, 8, 16}
    for samples in (8, 16):
        assert {scene.has_alpha for scene in scenes if scene.samples == samples} == {True, False}
    assert any(scene.height > TILE and scene.threads > 1 for scene in scenes)
    assert any(scene.origin != (0, 0) for scene in scenes)
    assert len(calls_of(Clear)) > SCENES
    assert {call.sample is None for call in calls_of(Picture)} == {True, False}
    assert {call.first_id is None for call in calls_of(Triangles)} == {True, False}
    polygons = calls_of(Polygons)
    assert {call.rule for call in polygons} == {"even-odd", "nonzero"}
    assert {call.first_id is None for call in polygons} == {True, False}
    for key in ("scissor", "sample_mask", "write", "depth_test", "depth_write", "blend"):
        assert any(key in call.state for call in polygons), key


def test_small_polygons_stand_before_large_ones_and_behind_them() -> None:
    found = 0
    for call in calls_of(Polygons):
        corners = [sum(map(len, polygon)) for polygon in call.polygons]
        large = [number for number, count in enumerate(corners) if count > FEW_CORNERS]
        found += any(0 < number < len(corners) - 1 for number in large)
    assert found >= 3


@pytest.mark.parametrize("samples", renderer.SAMPLES)
def test_samples_are_covered_as_points_one_by_one_are(samples: int) -> None:
    ring, hole = [(-900, -200), (2000, 144), (1500, 1800), (112, 1900)], [(400, 400), (1200, 500), (500, 1300)]
    part, mask = renderer.Scene(8, 9, samples, (), "color", (), (-1, -2)), 0xFFFD
    for rule in ("even-odd", "nonzero"):
        found = covered([ring, hole], rule, mask, part)
        assert found.any() and not found.all()
        for (row, column, s), is_covered in np.ndenumerate(found):
            (x, y), (dx, dy) = (256 * (column - 1), 256 * (row - 2)), renderer.SAMPLES[samples][s]
            assert is_covered == (s != 1 and is_inside([ring, hole], rule, x + dx, y + dy)), (row, column, s)


def test_a_difference_is_named_and_counted(monkeypatch: Any, capsys: Any) -> None:
    def compare(scene: Scene, _kind: object) -> int:
        if scene.samples == COUNTS[1]:
            raise Difference("call 3, Polygons: other colours of sample 2")
        return 7

    monkeypatch.setattr(compare_polygons, "compare", compare)
    assert compare_polygons.compare_scenes(2, 5, COUNTS) == 1
    assert capsys.readouterr().out.splitlines() == [
        "seed 5, scene 1: call 3, Polygons: other colours of sample 2", "2 scenes, 7 values compared, 1 differences",
        "1 passed, 1 failed",
    ]
    assert compare_polygons.compare_scenes(1, 5, COUNTS) == 0


def test_no_scenes_fail() -> None:
    assert compare_polygons.compare_scenes(0, 1, COUNTS) == 1
