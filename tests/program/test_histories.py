"""Histories of small lists by bin/trirast_why, in JSON: reasons, events and counts that were worked by hand.

A triangle covers the centres of pixels (0, 0), (1, 0) and (0, 1). It is drawn where it is nearer, and stores its depth;
the clear depth is 1000.
"""

from __future__ import annotations

import json
from typing import Any

import pytest

from tests.program.lists import TRIANGLE, corner, draw, draw_list
from tests.program.program import call_why

BLACK = {"color": [0, 0, 0], "depth": 1000}


def white(depth: int) -> dict[str, Any]:
    return {"color": [255, 255, 255], "depth": depth}


def near(depth: int, keys: str = "", test: str = "less") -> str:
    """A draw of the triangle in white with this depth."""
    vertices = corner("255,255,255,255").replace(",0,255,", f",{depth},255,")
    return draw(vertices, f',"depth_test":"{test}","depth_write":true{keys}')


def asked(text: str, *arguments: str) -> Any:
    """What the program reports in JSON."""
    status, output, line = call_why(text, *arguments, "--json")
    assert (status, line) == (0, b""), arguments
    return json.loads(output)


def four(*draws: str, width: int = 4) -> str:
    """A list of 4 rows of pixels."""
    return draw_list(width, 4, *draws, keys=',"clear_depth":1000')


def test_reports_every_reason() -> None:
    """A front face that is culled, whose scissor begins at column 1, of whose samples the second one alone is drawn."""
    text = four(near(2000, ',"cull":"front","sample_mask":2,"scissor":[1,0,4,4]'))
    (event,) = asked(text, "0,0", "--all")["samples"][0]["events"]
    assert event["result"] == "missed"
    assert set(event["reasons"]) == {"culled", "outside_scissor", "masked", "depth_failed"}
    assert event["fragment"] == {"color": [255, 255, 255], "alpha": 255, "depth": 2000}
    assert event["before"] == event["after"] == BLACK


@pytest.mark.parametrize("words", [(), ("--all",)])
def test_follows_a_sample(words: tuple[str, ...]) -> None:
    """The first triangle is drawn, the second fails the depth test, and the third is drawn with another depth."""
    sample = asked(four(near(500), near(700), near(300)), "0,0", *words)["samples"][0]
    found = [(event["draw"], event["result"], event["before"], event["after"]) for event in sample["events"]]
    assert found == [
        (0, "drawn", BLACK, white(500)),
        (1, "depth_failed", white(500), white(500)),
        (2, "drawn", white(500), white(300)),
    ]
    assert (sample["begin"], sample["end"]) == (BLACK, white(300))


def test_counts_samples() -> None:
    assert asked(four(near(5)), "--triangle", "0,0")["covered"] == 3
    assert asked(four(near(5), width=1), "--triangle", "0,0")["covered"] == 2


@pytest.mark.parametrize(("pixel", "events"), [("1,0", 1), ("2,0", 0)])
def test_has_events_of_triangles_that_cover_the_sample(pixel: str, events: int) -> None:
    assert len(asked(four(near(5)), pixel)["samples"][0]["events"]) == events


@pytest.mark.parametrize(("number", "changed", "shown"), [(0, 1, 0), (1, 0, 0), (2, 1, 1), (3, 0, 0)])
def test_follows_triangles(number: int, changed: int, shown: int) -> None:
    """Of one pixel. The fourth triangle stores the same again."""
    draws = near(500), near(700), near(300), near(300, test="always")
    counts = asked(draw_list(1, 1, *draws, keys=',"clear_depth":1000'), "--triangle", f"{number},0")
    assert counts == {"draw": number, "triangle": 0, "covered": 1, "changed": changed, "shown": shown}


def test_reads_what_is_asked() -> None:
    many = draw(corner("255,255,255,255"), triangles=",".join(["[0,1,2]"] * 5))
    text = draw_list(8, 9, many, many, many, many, keys=',"samples":4')
    found = asked(text, "7,8", "--sample", "2")
    assert (found["x"], found["y"], [sample["sample"] for sample in found["samples"]]) == (7, 8, [2])
    assert found["samples"][0]["position"] == [7 * 256 + 32, 8 * 256 + 160]
    assert asked(text, "7,8")["samples"][3]["sample"] == 3
    status, output, line = call_why(text, "--triangle", "3,4")
    assert (status, output.splitlines()[0], line) == (0, b"draw 3 triangle 4", b"")


def test_prints_its_usage() -> None:
    status, output, line = call_why(TRIANGLE, "--help")
    assert (status, output.startswith(b"usage: trirast_why "), line) == (0, True, b"")
