"""What was measured of a driver as one JSON value, by docs/conformance.schema.json, so that other
programs can read it."""

from __future__ import annotations

import json
from typing import Any

from conformance.comparison import Example, Tally
from conformance.neighbourhood import as_characters
from conformance.report import Report

FORMAT = 1
# A value of JSON, whose parts the schema names.
Json = dict[str, Any]


class NotResults(Exception):
    """A file that has no results of this format."""


def example_of(report: Report, name: str, example: Example) -> Json:
    expected, drawn = example.colours()
    found = report.histories.get(name)
    history = {
        "position": found.position, "begin": found.begin, "events": [list(row) for row in found.rows], "end": found.end,
    } if found else None
    return {
        "kind": example.kind, "list": example.title, "sample": example.sample, "pixel": list(example.place),
        "expected": list(expected), "drawn": list(drawn), "around": as_characters(example), "history": history,
    }


def subject_of(report: Report, tally: Tally) -> Json:
    return {
        "name": tally.suite.name, "title": tally.suite.title, "samples": tally.samples, "exact": tally.suite.exact,
        "identity": tally.identity, "lists": tally.lists, "left_out": dict(tally.left_out), "compared": tally.compared,
        "differ": tally.differ, "kinds": dict(tally.kinds), "allowed": tally.suite.tolerance(tally.samples),
        "errors": {str(size): tally.errors[size] for size in sorted(tally.errors)},
        "cases": [{"list": case.number, "title": case.title, "differ": case.differ} for case in tally.cases],
        "examples": [example_of(report, name, example) for name, example in tally.named_examples()],
    }


def as_json(report: Report) -> Json:
    """The results of one run."""
    return {
        "format": FORMAT, "interface": report.interface, "device": report.device(),
        "said": [list(pair) for pair in report.said], "compared_with": report.compared_with, "bits": report.bits,
        "samples_compared": report.samples_compared(),
        "samples_that_differ": sum(tally.differ for tally in report.differing()),
        "findings": [list(row) for row in report.findings],
        "subjects": [subject_of(report, tally) for tally in report.tallies],
        "values": [
            {
                "title": row.title, "samples": row.samples, "values": row.values, "greatest": row.greatest,
                "wrong": row.wrong, "unit": row.unit, "explained": row.explained, "refused": row.refused,
            }
            for row in report.values
        ],
        "not_asked": [list(pair) for pair in report.left_out()],
    }


def write(path: str, results: Json) -> None:
    with open(path, "w", encoding="utf-8") as file:
        json.dump(results, file, indent=1)
        file.write("\n")


def read(path: str) -> Json:
    """The results of a file. Raises `NotResults`, or `OSError` if it cannot be read."""
    with open(path, encoding="utf-8") as file:
        try:
            found = json.load(file)
        except ValueError as error:
            raise NotResults(f"{path}: {error}") from None
    if not isinstance(found, dict) or found.get("format") != FORMAT:
        raise NotResults(f"{path} has no results of format {FORMAT}")
    missing = [key for key in ("interface", "device", "subjects", "samples_compared") if key not in found]
    if missing:
        raise NotResults(f"{path} has no {missing[0]}")
    return found


def name_of(subject: Json) -> str:
    """A row's name: the subject and its samples a pixel."""
    return f"{subject['name']}-{subject['samples']}"


def cases_of(results: Json) -> dict[str, int]:
    """The lists that differ, by their names, each with how many of its samples do, or of its channels by
    more than is allowed."""
    return {
        f"{name_of(subject)}/{case['list']}": case["differ"]
        for subject in results["subjects"]
        for case in subject["cases"]
    }
