"""Compares the histories that the library writes with those that `trirast_why` prints, and their edges
with the reference's.

    python3 -m tests.reference.compare_library_history [--lists 500] [--samples 20] [--counted 500] [--seed 1]

The lists and the samples are those of tests/reference/compare_history.py, which compares the program's with the
reference's. Of each sample trirast_list_history is called for all triangles and for those that cover the sample, by
arrays that are large enough, too small and empty. Each event has to be the one that the program prints as JSON, the
array is unchanged behind the last one, and the edge functions, the doubled area and what is written are the
reference's. Then trirast.why of the Python package has to be the program's value, and trirast_list_triangle_samples to
have the program's counts. Samples and triangles that are not there and lists with a mistake are refused, and nothing is
written. Exit status 1 on any difference; the list is then left in out/compare/.
"""

from __future__ import annotations

import argparse
import ctypes
import json
import os
import random
import subprocess
import sys
from typing import Any, Iterable

from tools import answers
from tests.reference import generated_lists, renderer, sample_history
from tests.reference.compare_history import (
    COUNTED, LISTS, MAX_EVENTS, MAX_TRIANGLES, SAMPLES, called, first_difference, pixels_of
)
from tools.counts import Counts
from tests.library.commands import PACKAGE_ENVIRONMENT
from tools.places import PROGRAM, SHARED_LIBRARY, TOP, WHY_PROGRAM, is_built
from tests.reference.sample_history import ON_UNCOVERED_EDGE, OUTSIDE, Value

FAILURES = {None: 0, OUTSIDE: 1, ON_UNCOVERED_EDGE: 2}
MARK = b"\xa5"
BAD_LIST, BAD_SAMPLE, BAD_PIXEL, BAD_TRIANGLE = 1, 11, 13, 14


class Difference(Exception):
    """What differs."""


def must_equal(what: str, found: object, wanted: object) -> None:
    if found != wanted:
        raise Difference(f"{what}: {first_difference(found, wanted)}")


# ---- Values as the program prints them


def stored_value(stored: Any) -> Value:
    return {"color": list(stored.color), "depth": stored.depth}


def event_value(event: Any) -> Value:
    found = event.fragment
    fragment = found and {"color": list(found.color), "alpha": found.alpha, "depth": found.depth}
    numbers = {"draw": event.draw, "triangle": event.triangle, "result": event.result, "reasons": list(event.reasons)}
    return {**numbers, "fragment": fragment, "before": stored_value(event.before), "after": stored_value(event.after)}


def sample_value(sample: Any) -> Value:
    events = [event_value(event) for event in sample.events]
    ends = {"begin": stored_value(sample.begin), "end": stored_value(sample.end)}
    return {"sample": sample.sample, "position": list(sample.position), "events": events, **ends}


def pixel_value(pixel: Any) -> Value:
    shown = {"depth": pixel.depth} if pixel.color is None else {"color": list(pixel.color)}
    return {"x": pixel.x, "y": pixel.y, **shown, "samples": [sample_value(sample) for sample in pixel.samples]}


# ---- The calls of C


class Library:
    """The library's calls over memory that is marked."""

    def __init__(self) -> None:
        import trirast
        from trirast import _declarations, _ffi, _history

        self.ffi, self.declared, self.history, self.error = _ffi, _declarations, _history, trirast.Error

    def marked(self, kind: Any) -> Any:
        """An object all of whose bytes are marked."""
        return kind.from_buffer(bytearray(MARK * ctypes.sizeof(kind)))

    def ask(self, text: bytes, sample: tuple[int, int, int], is_all: bool, capacity: int) -> tuple[Any, Any]:
        """The array of events, and what the library says of the sample."""
        declared = self.declared
        events, info = self.marked(declared.CEvent * (capacity + 1)), self.marked(declared.CSampleInfo)
        try:
            request = declared.CHistoryRequest(0, 0, 0, *sample, is_all)
            error = declared.CError()
            self.ffi.library().trirast_list_history(text, len(text), request, events, capacity, info, error)
        except self.error:
            must_equal("memory after an error", set(bytes(events) + bytes(info)), set(MARK))
            raise
        return events, info

    def refused(self, text: bytes, sample: tuple[int, int, int]) -> tuple[int, str]:
        """The status and the line with which a history is refused."""
        try:
            self.ask(text, sample, True, 2)
        except self.error as error:
            return error.status, answers.line_of(error) if error.status == BAD_LIST else str(error)
        raise Difference(f"there is a history of {sample}")

    def refused_counts(self, text: bytes, place: tuple[int, int]) -> tuple[int, str]:
        counts = self.marked(self.declared.CSampleCounts)
        try:
            self.ffi.library().trirast_list_triangle_samples(text, len(text), *place, counts, self.declared.CError())
        except self.error as error:
            must_equal("memory after an error", set(bytes(counts)), set(MARK))
            return error.status, answers.line_of(error) if error.status == BAD_LIST else str(error)
        raise Difference(f"there are samples of triangle {place}")


def printed(text: bytes, *arguments: str) -> Value:
    """The value of JSON that the program prints."""
    run = called(WHY_PROGRAM, text, *arguments, "--json")
    if run.returncode or run.stderr:
        raise Difference(f"the program refuses {arguments}: {run.stderr!r}")
    value: Value = json.loads(run.stdout)
    return value


def written_by(triangle: renderer.Triangle) -> int:
    """What a triangle's draw writes, in the bits of the library."""
    return sum(1 << bit for bit, is_set in enumerate((*triangle.state.write, triangle.state.depth_write)) if is_set)


def by_reference(scene: renderer.Scene, sample: tuple[int, int, int], is_all: bool) -> list[list[int]]:
    """Of each event that is asked for what the program does not print as JSON."""
    events = sample_history.events_at(scene, sample_history.place_of(scene, *sample))
    found = []
    for number, (triangle, event) in enumerate(zip(scene.triangles, events)):
        failures = [FAILURES[edge.reason] for edge in event.edges]
        if is_all or event.fragment is not None:
            values = [event.area, *(edge.value for edge in event.edges), number]
            found.append([*values, *failures, written_by(triangle), int(event.fragment is not None)])
    return found


def by_library(events: Iterable[Any]) -> list[list[int]]:
    """The same of the library's events."""
    edges = (
        "doubled_area", "edge_ab", "edge_bc", "edge_ca", "number", "failure_ab", "failure_bc", "failure_ca", "writes",
        "covered",
    )
    return [[getattr(event, name) for name in edges] for event in events]


# ---- One list


class Comparison:
    """Compares lists, and counts the samples, the events, the triangles and the refusals."""

    def __init__(self, library: Library) -> None:
        self.library = library
        self.samples = self.events = self.triangles = self.refusals = self.differences = 0

    def compare_events(
        self, text: bytes, scene: renderer.Scene, sample: tuple[int, int, int], is_all: bool, pick: random.Random
    ) -> None:
        """Compares a sample's history by arrays of several sizes."""
        x, y, s = sample
        wanted = printed(text, f"{x},{y}", "--sample", str(s), *(["--all"] if is_all else []))["samples"][0]
        count = len(wanted["events"])
        size = ctypes.sizeof(self.library.declared.CEvent)
        whole, info = self.library.ask(text, sample, is_all, count)
        for capacity in {0, pick.randint(0, count), count, count + 2}:
            events, again = self.library.ask(text, sample, is_all, capacity)
            written = min(capacity, count)
            must_equal("the number of events", (again.event_count, bytes(again)), (count, bytes(info)))
            must_equal("an array", bytes(events)[: written * size] == bytes(whole)[: written * size], True)
            must_equal(
                "the array behind the events", bytes(events)[written * size :], MARK * size * (capacity + 1 - written)
            )
        made = self.library.history
        found = made.SampleHistory(
            s, (info.x, info.y), made.stored_of(info.begin), tuple(map(made.event_of, whole[:count])),
            made.stored_of(info.end),
        )
        must_equal(f"sample {sample}", sample_value(found), wanted)
        must_equal("the picture", (info.samples, info.output), (scene.samples, int(scene.output == "depth")))
        must_equal(f"edges at {sample}", by_library(whole[:count]), by_reference(scene, sample, is_all))
        self.events += count

    def compare_sample(
        self, text: bytes, scene: renderer.Scene, sample: tuple[int, int, int], pick: random.Random
    ) -> None:
        import trirast

        x, y, s = sample
        for is_all in (False, True):
            self.compare_events(text, scene, sample, is_all, pick)
        must_equal("trirast.why", pixel_value(trirast.why(text, x, y)), printed(text, f"{x},{y}"))
        one = pixel_value(trirast.why(text, x, y, s, all_triangles=True))
        must_equal("trirast.why of a sample", one, printed(text, f"{x},{y}", "--sample", str(s), "--all"))
        self.samples += 1

    def compare_samples(self, text: bytes, pick: random.Random, more: random.Random, samples: int) -> None:
        value, scene = json.loads(text), renderer.read(text)
        for x, y in pixels_of(pick, value, samples):
            self.compare_sample(text, scene, (x, y, pick.randrange(scene.samples)), more)
        for sample, status in (
            ((scene.width, 0, 0), BAD_PIXEL),
            ((0, scene.height, scene.samples), BAD_PIXEL),
            ((0, 0, scene.samples), BAD_SAMPLE),
            ((4294967295, 4294967295, 4294967295), BAD_PIXEL),
        ):
            must_equal(f"the status of {sample}", self.library.refused(text, sample)[0], status)
            self.refusals += 1
        for place in (
            (len(value["draws"]), 0), (0, len(scene.triangles)), (18446744073709551615, 18446744073709551615)
        ):
            must_equal(f"the status of triangle {place}", self.library.refused_counts(text, place)[0], BAD_TRIANGLE)
            self.refusals += 1

    def compare_counts(self, text: bytes, pick: random.Random) -> None:
        """Compares the counts of some of a list's triangles with the program's."""
        import trirast

        scene = renderer.read(text)
        if not scene.triangles or len(scene.triangles) * scene.width * scene.height * scene.samples > MAX_EVENTS:
            return
        expected = sample_history.counts(text)
        for value in pick.sample(expected, min(MAX_TRIANGLES, len(expected))):
            place = value["draw"], value["triangle"]
            found = trirast.triangle_samples(text, *place)._asdict()
            must_equal(f"triangle {place}", found, printed(text, "--triangle", f"{place[0]},{place[1]}"))
            self.triangles += 1

    def compare_broken(self, text: bytes) -> None:
        """A list with a mistake is refused with the program's line, and nothing is written."""
        expected = answers.expected(text)
        if expected.status:
            wanted = (BAD_LIST, expected.line.decode())
            must_equal("a history of a list with a mistake", self.library.refused(text, (0, 0, 0)), wanted)
            must_equal("counts of a list with a mistake", self.library.refused_counts(text, (0, 0)), wanted)
            self.refusals += 2

    def attempt(self, text: bytes, name: str, compare: Any, *arguments: Any) -> None:
        try:
            compare(text, *arguments)
        except Difference as difference:
            self.differences += 1
            print(f"{answers.keep(name, text)}: {difference}", flush=True)


def compare_lists(lists: int, samples: int, counted: int, seed: int) -> int:
    comparison = Comparison(Library())
    for k in range(lists):
        text, name = generated_lists.accepted_text(seed, k), f"library-history-{seed}-{k}"
        picks = random.Random(f"history {seed} {k}"), random.Random(f"capacities {seed} {k}")
        comparison.attempt(text, name, comparison.compare_samples, *picks, samples)
        comparison.attempt(generated_lists.broken_text(seed, k), f"{name}-broken", comparison.compare_broken)
    for k in range(counted):
        text = generated_lists.accepted_text(seed, k)
        comparison.attempt(
            text, f"library-counts-{seed}-{k}", comparison.compare_counts, random.Random(f"counts {seed} {k}")
        )
    done = comparison.samples + comparison.refusals + comparison.triangles
    print(
        f"{comparison.samples} samples, {comparison.events} events, {comparison.triangles} triangles, "
        f"{comparison.refusals} refusals"
    )
    print(Counts(done, comparison.differences), flush=True)
    return 1 if comparison.differences or not comparison.events else 0


def main() -> int:
    parser = argparse.ArgumentParser(description="Compares the library's histories with the program's.")
    parser.add_argument("--lists", type=int, default=LISTS, help=f"number of lists (default {LISTS})")
    parser.add_argument("--samples", type=int, default=SAMPLES, help=f"of each list (default {SAMPLES})")
    parser.add_argument(
        "--counted", type=int, default=COUNTED, help=f"number of lists whose samples are counted (default {COUNTED})"
    )
    parser.add_argument("--seed", type=int, default=1, help="of the lists (default 1)")
    options = parser.parse_args()
    if not is_built(PROGRAM, WHY_PROGRAM, SHARED_LIBRARY, made_by="make compare-history"):
        return 2
    if "TRIRAST_HISTORIES_COMPARED" not in os.environ:
        # The package is found in an environment of its own.
        environment = {**PACKAGE_ENVIRONMENT, "TRIRAST_HISTORIES_COMPARED": "1"}
        command = [sys.executable, "-m", "tests.reference.compare_library_history", *sys.argv[1:]]
        return subprocess.run(command, env=environment, cwd=TOP).returncode
    return compare_lists(options.lists, options.samples, options.counted, options.seed)


if __name__ == "__main__":
    sys.exit(main())
