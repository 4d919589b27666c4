"""The history of a sample by the rules: what each triangle of a draw list does to it, and every reason why. And of each
triangle how many samples it covers, changes and is shown by.

    python3 -m tests.reference.sample_history X,Y [--sample S] < list.json

It prints what `trirast_why X,Y --all --json` prints, as an equal JSON value. Like tests/reference/renderer.py it shares
no code with the program, takes every triangle in draw order, and computes with exact integers.
"""

from __future__ import annotations

import argparse
import json
import sys
from dataclasses import dataclass
from typing import Any, Optional

from tools import draw_list
from tests.reference import renderer
from tests.reference.renderer import (
    DEPTH_TESTS, SAMPLES, Edge, Point, Sample, Scene, Triangle, is_culled, resolve, shade, side
)

# A value of JSON whose keys docs/history.schema.json names.
Value = dict[str, Any]

OUTSIDE = "outside"
ON_UNCOVERED_EDGE = "on an edge that is neither top nor left"


@dataclass(frozen=True)
class EdgeAt:
    """An edge of a triangle at a sample: the edge function, and why the sample fails the top-left rule there."""

    value: int
    reason: Optional[str]


def edge_at(a: Point, b: Point, third: Point, p: Point) -> EdgeAt:
    """The edge ab. A triangle without area has no side on which it lies, so that it has no edge that a
    point is outside of."""
    value = side(a, b, p)
    if value * side(a, b, third) < 0:
        return EdgeAt(value, OUTSIDE)
    if value == 0 and not Edge(a, b, third).owns_its_points:
        return EdgeAt(value, ON_UNCOVERED_EDGE)
    return EdgeAt(value, None)


@dataclass(frozen=True)
class Place:
    """A sample of a picture."""

    column: int
    row: int
    sample: int
    position: Point


@dataclass(frozen=True)
class Event:
    """What a triangle did to a sample."""

    result: str
    reasons: list[str]
    area: int
    edges: tuple[EdgeAt, EdgeAt, EdgeAt]
    fragment: Optional[Value]
    before: Sample
    after: Sample


def fragment_of(triangle: Triangle, weights: tuple[int, int, int], size: int) -> Value:
    """Depth, colour and alpha at the point of these weights, each rounded down."""
    values = [sum(w * vertex[k] for w, vertex in zip(weights, triangle.vertices)) // size for k in range(2, 7)]
    return {"color": values[1:4], "alpha": values[4], "depth": values[0]}


def misses(triangle: Triangle, area: int, edges: tuple[EdgeAt, ...], place: Place) -> list[str]:
    """Every reason why the triangle misses the sample, whatever depth is stored there."""
    left, top, right, bottom = triangle.state.scissor
    holds = {
        "culled": is_culled(triangle.state.cull, area),
        "zero_area": area == 0,
        "not_covered": any(edge.reason for edge in edges),
        "outside_scissor": not (left <= place.column < right and top <= place.row < bottom),
        "masked": not triangle.state.sample_mask >> place.sample & 1,
    }
    return [name for name, is_so in holds.items() if is_so]


def event_of(triangle: Triangle, place: Place, before: Sample) -> Event:
    """What the triangle does to a sample that stores `before`."""
    a, b, c = triangle.vertices
    p = place.position
    area = side(a, b, c)
    edges = (edge_at(a, b, c, p), edge_at(b, c, a, p), edge_at(c, a, b, p))
    reasons = misses(triangle, area, edges, place)
    covers = (
        all(Edge(*corners).passes(edge.value) for corners, edge in zip(((a, b, c), (b, c, a), (c, a, b)), edges))
        and area != 0
    )
    if not covers:
        return Event("missed", reasons, area, edges, None, before, before)
    weights = (abs(edges[1].value), abs(edges[2].value), abs(edges[0].value))
    fragment = fragment_of(triangle, weights, abs(area))
    fails = not DEPTH_TESTS[triangle.state.depth_test](fragment["depth"], before[3])
    result = "missed" if reasons else "depth_failed" if fails else "drawn"
    after = shade(triangle, weights, abs(area), before) if not reasons else before
    return Event(result, reasons + ["depth_failed"] * fails, area, edges, fragment, before, after)


def place_of(scene: Scene, column: int, row: int, sample: int) -> Place:
    x, y = SAMPLES[scene.samples][sample]
    return Place(column, row, sample, (256 * column + x, 256 * row + y))


def events_at(scene: Scene, place: Place) -> list[Event]:
    """The events of all triangles at a sample, in draw order."""
    events: list[Event] = []
    stored = scene.clear
    for triangle in scene.triangles:
        events.append(event_of(triangle, place, stored))
        stored = events[-1].after
    return events


def numbers_in_draws(value: Value) -> list[tuple[int, int]]:
    """The draw of each triangle of a list, and its number in that draw."""
    return [(number, k) for number, draw in enumerate(value["draws"]) for k in range(len(draw_list.triangles_of(draw)))]


def stored_value(sample: Sample) -> Value:
    return {"color": list(sample[:3]), "depth": sample[3]}


def event_value(event: Event, draw: int, number: int) -> Value:
    return {
        "draw": draw,
        "triangle": number,
        "result": event.result,
        "reasons": event.reasons,
        "fragment": event.fragment,
        "before": stored_value(event.before),
        "after": stored_value(event.after),
    }


def sample_value(scene: Scene, places: list[tuple[int, int]], place: Place, events: list[Event]) -> Value:
    end = events[-1].after if events else scene.clear
    return {
        "sample": place.sample,
        "position": list(place.position),
        "begin": stored_value(scene.clear),
        "events": [event_value(event, *numbers) for event, numbers in zip(events, places)],
        "end": stored_value(end),
    }


def history(text: bytes, column: int, row: int, sample: Optional[int] = None) -> Value:
    """The history of one sample of a pixel, or of all of them: what `trirast_why --all --json` prints."""
    scene, places = renderer.read(text), numbers_in_draws(json.loads(text))
    all_places = [place_of(scene, column, row, s) for s in range(scene.samples)]
    events = [events_at(scene, place) for place in all_places]
    ends = [of_sample[-1].after if of_sample else scene.clear for of_sample in events]
    found: Value = {"x": column, "y": row}
    if scene.output == "depth":
        found["depth"] = ends[0][3]
    else:
        found["color"] = list(resolve(ends, scene.samples))
    chosen = range(scene.samples) if sample is None else [sample]
    found["samples"] = [sample_value(scene, places, all_places[s], events[s]) for s in chosen]
    return found


def counts(text: bytes) -> list[Value]:
    """The counts of each triangle: for each one what `trirast_why --triangle DRAW,NUMBER --json` prints. Each sample of
    the picture is followed through all triangles."""
    scene, places = renderer.read(text), numbers_in_draws(json.loads(text))
    found = [{"draw": draw, "triangle": number, "covered": 0, "changed": 0, "shown": 0} for draw, number in places]
    for row in range(scene.height):
        for column in range(scene.width):
            for sample in range(scene.samples):
                count_sample(found, events_at(scene, place_of(scene, column, row, sample)))
    return found


def count_sample(found: list[Value], events: list[Event]) -> None:
    """Adds a sample with these events to the counts of the triangles."""
    last = None
    for of_triangle, event in zip(found, events):
        of_triangle["covered"] += event.fragment is not None
        if event.after != event.before:
            of_triangle["changed"] += 1
            last = of_triangle
    if last is not None:
        last["shown"] += 1


def main() -> int:
    parser = argparse.ArgumentParser(description="The history of a pixel's samples, by the reference.")
    parser.add_argument("pixel", metavar="X,Y")
    parser.add_argument("--sample", type=int, metavar="S")
    options = parser.parse_args()
    column, row = (int(number) for number in options.pixel.split(","))
    print(json.dumps(history(sys.stdin.buffer.read(), column, row, options.sample)))
    return 0


if __name__ == "__main__":
    sys.exit(main())
