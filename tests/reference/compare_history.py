"""Compares the histories that `trirast_why` prints with the reference's, reason by reason, and their
ends with the picture.

    python3 -m tests.reference.compare_history [--lists 500] [--samples 20] [--counted 500] [--seed 1]
        [--why ..] [--program ..]

For each list of tests/reference/generated_lists.py some samples are asked for, by pixels that are near its vertices
or anywhere. Of each the JSON value is compared with that of tests/reference/sample_history.py: each event of each
triangle, its reasons, its fragment, and the sample before and after it. Then the events that are printed without
--all are those of triangles that cover the sample; the table has the edge functions that the reference computes; the
end is the pixel of the picture that the program draws; and docs/history.schema.json accepts the value, if Python's
jsonschema is there.

Of a list with few samples and triangles together, the counts of up to three triangles are compared too: how
many samples the triangle covers, how many it changes, and how many still show it. The reference follows each
sample of the picture.

Pixels outside of the picture, triangles that there are not, numbers that are none and lists with a mistake are
refused as by the program. Exit status 1 on any difference. The last line is `N passed, M failed`, over the samples,
the counts and the refusals.
"""

from __future__ import annotations

import argparse
import json
import os
import random
import re
import subprocess
import sys
from collections import Counter
from typing import Any, Callable, Iterator, Optional

from tools import answers, picture_file
from tests.reference import generated_lists, renderer, sample_history
from tools.counts import Counts
from tools.places import PROGRAM, WHY_PROGRAM, is_built, text_of
from tests.reference.sample_history import ON_UNCOVERED_EDGE, OUTSIDE, Event, Value

LISTS = 500
SAMPLES = 20
COUNTED = 500  # lists whose triangles' samples are counted
MAX_EVENTS = 20_000  # of such a list: triangles by samples of the picture
MAX_TRIANGLES = 3
MAX_SECONDS = 60
REASONS = ("culled", "zero_area", "not_covered", "outside_scissor", "masked", "depth_failed")
USAGE = b"usage: trirast_why (X,Y [--sample S] [--all] | --triangle DRAW,NUMBER) [--json] < list.json\n"
REFUSAL = b"trirast: command line refused\n"

# An edge of an event's line in the table: how the sample fails there, the edge, and the edge function.
EDGE = re.compile(r"; (outside|on) edge (ab|bc|ca)(?:, neither top nor left)? \((-?\d+)\)")


def called(why: str, text: bytes, *arguments: str) -> "subprocess.CompletedProcess[bytes]":
    return subprocess.run((why, *arguments), input=text, capture_output=True, timeout=MAX_SECONDS, check=False)


def validator() -> Optional[Callable[[Value], None]]:
    """A check of a value by the schema, or none if the package is missing. It raises an exception at a
    value that is refused."""
    try:
        import jsonschema
    except ImportError:
        return None
    check = jsonschema.Draft202012Validator(json.loads(text_of("docs", "history.schema.json")))

    def validate(value: Value) -> None:
        check.validate(value)

    return validate


def pixels_of(pick: random.Random, value: Value, count: int) -> Iterator[tuple[int, int]]:
    """Pixels of a list's picture: half of them at its vertices or beside them, the others anywhere."""
    width, height = value["width"], value["height"]
    vertices = [vertex for draw in value["draws"] for vertex in draw["vertices"]]
    for _ in range(count):
        x, y = pick.randrange(width), pick.randrange(height)
        if vertices and pick.random() < 0.5:
            near = pick.choice(vertices)
            x, y = (z // 256 + pick.randint(-1, 1) for z in near[:2])
        yield min(max(x, 0), width - 1), min(max(y, 0), height - 1)


def edges_in_table(line: str) -> dict[str, tuple[str, int]]:
    """Of an event's line the edges at which the sample fails, each with how it fails, and the edge function."""
    return {edge: (how, int(value)) for how, edge, value in EDGE.findall(line)}


def edges_of(event: Event) -> dict[str, tuple[str, int]]:
    """The same by the reference."""
    words = {OUTSIDE: "outside", ON_UNCOVERED_EDGE: "on"}
    named = zip(("ab", "bc", "ca"), event.edges)
    return {name: (words[edge.reason], edge.value) for name, edge in named if edge.reason}


class Comparison:
    """Compares histories, and counts the samples, the reasons and the differences."""

    def __init__(self, why: str, program: str) -> None:
        self.why, self.program = why, program
        self.validate = validator()
        self.seen: Counter[str] = Counter()
        self.samples = self.events = self.refusals = self.triangles = self.hidden = 0
        self.differences: list[str] = []

    def report(self, text: bytes, name: str, what: str) -> None:
        self.differences.append(name)
        print(f"{answers.keep(name, text)}: {what}")

    def difference(self, text: bytes, scene: renderer.Scene, picture: bytes, x: int, y: int, s: int) -> Optional[str]:
        """How the history of a sample differs from the rules, or `None`."""
        pixel = f"{x},{y}"
        run = called(self.why, text, pixel, "--sample", str(s), "--all", "--json")
        if run.returncode != 0 or run.stderr:
            return f"{pixel}: status {run.returncode}, {run.stderr!r}"
        found: Value = json.loads(run.stdout)
        expected = sample_history.history(text, x, y, s)
        if found != expected:
            return f"{pixel} sample {s}: {first_difference(found, expected)}"
        shown = found["depth"].to_bytes(2, "big") if scene.output == "depth" else bytes(found["color"])
        if picture_file.decode(picture).pixels()[y * scene.width + x] != shown:
            return f"{pixel}: the picture has another pixel than the history ends with"
        if self.validate:
            self.validate(found)
        return self.shorter_forms(text, found, scene, x, y, s)

    def shorter_forms(self, text: bytes, whole: Value, scene: renderer.Scene, x: int, y: int, s: int) -> Optional[str]:
        """How the events of covering triangles, the whole pixel, or the table differ, or `None`."""
        pixel, chosen = f"{x},{y}", ("--sample", str(s))
        covering: Value = json.loads(called(self.why, text, pixel, *chosen, "--json").stdout)
        whole["samples"][0]["events"] = [
            event for event in whole["samples"][0]["events"] if event["fragment"] is not None
        ]
        if covering != whole:
            return f"{pixel} sample {s}, without --all: {first_difference(covering, whole)}"
        all_samples: Value = json.loads(called(self.why, text, pixel, "--json").stdout)
        if len(all_samples["samples"]) != scene.samples or all_samples["samples"][s] != whole["samples"][0]:
            return f"{pixel}: the samples of the pixel do not have that of --sample {s}"
        lines = called(self.why, text, pixel, *chosen, "--all").stdout.decode().split("\n")
        events = sample_history.events_at(scene, sample_history.place_of(scene, x, y, s))
        lines = [line for line in lines if line.startswith("  draw ")]
        if len(lines) != len(events):
            return f"{pixel} sample {s}: the table has {len(lines)} events and not {len(events)}"
        for line, event in zip(lines, events):
            if edges_in_table(line) != edges_of(event):
                return f"{pixel} sample {s}: the table has {line}, and the rule {edges_of(event)}"
        self.count(events)
        return None

    def count(self, events: list[Event]) -> None:
        self.samples += 1
        self.events += len(events)
        for event in events:
            self.seen.update(event.reasons)
            self.seen.update(["on an edge"] if any(edge.reason == ON_UNCOVERED_EDGE for edge in event.edges) else [])
            self.seen[event.result] += 1

    def compare(self, text: bytes, name: str, pick: random.Random, samples: int) -> None:
        """Compares this number of samples of a list."""
        value, scene = json.loads(text), renderer.read(text)
        picture = answers.drawn(self.program, text, []).output
        for x, y in pixels_of(pick, value, samples):
            different = self.difference(text, scene, picture, x, y, pick.randrange(scene.samples))
            if different:
                self.report(text, name, different)
                return

    def compare_counts(self, text: bytes, name: str, pick: random.Random) -> None:
        """Compares the counts of some of a list's triangles, if the list is small enough for the reference."""
        scene = renderer.read(text)
        if not scene.triangles or len(scene.triangles) * scene.width * scene.height * scene.samples > MAX_EVENTS:
            return
        expected = sample_history.counts(text)
        for value in pick.sample(expected, min(MAX_TRIANGLES, len(expected))):
            found = self.counts_found(text, f"{value['draw']},{value['triangle']}")
            if found != (value, counts_table(value)):
                self.report(text, f"{name}-counts", f"triangle {value}: found {found}")
            if self.validate:
                self.validate(value)
            self.triangles += 1
            self.hidden += value["shown"] < value["changed"]

    def counts_found(self, text: bytes, place: str) -> tuple[Value, str]:
        """What the program reports of the triangle, as JSON and as text."""
        value = called(self.why, text, "--triangle", place, "--json").stdout
        return json.loads(value or b"null"), called(self.why, text, "--triangle", place).stdout.decode()

    def refuse(self, text: bytes, name: str, arguments: tuple[str, ...], status: int, line: bytes) -> None:
        """Compares the status and the line of a call that is refused."""
        run = called(self.why, text, *arguments)
        self.refusals += 1
        if (run.returncode, run.stdout, run.stderr) != (status, b"", line):
            self.report(text, name, f"{arguments}: status {run.returncode}, {run.stdout[:80]!r}, {run.stderr!r}")

    def compare_refusals(self, text: bytes, seed: int, lists: int) -> None:
        """Pixels outside of a picture of 2 by 2 pixels, bad numbers, and lists with a mistake."""
        for word in ("2,0", "0,2", "4096,0", "-1,0", "0", "0,", ",0", "x,0", "0,0,0", "1.0,0", "", "4294967296,0"):
            self.refuse(text, "pixel", (word,), 2, REFUSAL)
        for words in (
            ("0,0", "--sample", "1"), ("0,0", "--sample", "x"), ("0,0", "--sample"), ("0,0", "--tile", "8"), (),
            ("0,0", "1,1"),
        ):
            self.refuse(text, "arguments", words, 2, REFUSAL)
        for words in (
            ("0,0",), ("0",), ("x,0",), ("0,-1",), (), ("0,0", "1,1"), ("0,0", "--all"), ("0,0", "--sample", "0")
        ):
            self.refuse(text, "triangle", ("--triangle", *words), 2, REFUSAL)
        usage = called(self.why, b"", "--help")
        self.refusals += 1
        if (usage.returncode, usage.stdout, usage.stderr) != (0, USAGE, b""):
            self.report(text, "usage", f"--help: status {usage.returncode}, {usage.stdout!r}")
        for k in range(lists):
            broken = generated_lists.broken_text(seed, k)
            expected = answers.expected(broken)
            if expected.status:
                self.refuse(broken, f"broken-{seed}-{k}", ("0,0",), expected.status, expected.line)

    def unseen(self) -> list[str]:
        """The reasons and results that no sample showed."""
        counted = [] if self.hidden or not self.triangles else ["a triangle of which other triangles hide a part"]
        return [name for name in (*REASONS, "on an edge", "drawn", "missed") if not self.seen[name]] + counted


def counts_table(value: Value) -> str:
    """The text of a triangle's counts."""
    counts = [
        f"  {name:<9} {value[key]:>8} samples"
        for name, key in (("covers", "covered"), ("changes", "changed"), ("shown by", "shown"))
    ]
    return "\n".join([f"draw {value['draw']} triangle {value['triangle']}", *counts]) + " in the end\n"


def first_difference(found: Any, expected: Any, path: str = "") -> str:
    """Where two values of JSON first differ."""
    if isinstance(found, dict) and isinstance(expected, dict) and found.keys() == expected.keys():
        pairs = [(f"{path}.{key}", found[key], expected[key]) for key in expected]
    elif isinstance(found, list) and isinstance(expected, list) and len(found) == len(expected):
        pairs = [(f"{path}[{k}]", *pair) for k, pair in enumerate(zip(found, expected))]
    else:
        return f"{path or 'the value'} is {str(found)[:200]}, and by the rules {str(expected)[:200]}"
    return next((first_difference(a, b, where) for where, a, b in pairs if a != b), f"{path}: equal")


def main() -> int:
    parser = argparse.ArgumentParser(description="Compares histories with the reference's.")
    parser.add_argument("--lists", type=int, default=LISTS, help=f"number of lists (default {LISTS})")
    parser.add_argument("--samples", type=int, default=SAMPLES, help=f"of each list (default {SAMPLES})")
    parser.add_argument(
        "--counted", type=int, default=COUNTED, help=f"number of lists whose samples are counted (default {COUNTED})"
    )
    parser.add_argument("--seed", type=int, default=1, help="of the lists (default 1)")
    parser.add_argument("--why", default=WHY_PROGRAM, help="default bin/trirast_why")
    parser.add_argument("--program", default=PROGRAM, help="default bin/trirast")
    options = parser.parse_args()
    if not is_built(options.why, options.program):
        return 2
    comparison = Comparison(os.path.abspath(options.why), os.path.abspath(options.program))
    comparison.compare_refusals(b'{"width":2,"height":2,"draws":[]}', options.seed, options.lists)
    for k in range(options.lists):
        text = generated_lists.accepted_text(options.seed, k)
        comparison.compare(
            text, f"history-{options.seed}-{k}", random.Random(f"history {options.seed} {k}"), options.samples
        )
    for k in range(options.counted):
        text = generated_lists.accepted_text(options.seed, k)
        comparison.compare_counts(text, f"history-{options.seed}-{k}", random.Random(f"counts {options.seed} {k}"))
    for name in comparison.unseen():
        comparison.differences.append(name)
        print(f"no sample shows {name}")
    schema = "the schema accepts each" if comparison.validate else "no schema was tried: needs python3-jsonschema"
    print(
        f"{comparison.samples} samples, {comparison.events} events: {dict(comparison.seen)}; "
        f"{comparison.refusals} refusals; {schema}"
    )
    print(
        f"{comparison.triangles} triangles counted, {comparison.hidden} of them hidden in part or whole by later ones"
    )
    done, failed = comparison.samples + comparison.refusals + comparison.triangles, len(comparison.differences)
    print(Counts(max(0, done - failed), failed))
    return 1 if failed else 0


if __name__ == "__main__":
    sys.exit(main())
