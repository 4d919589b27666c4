"""Shows the results of several drivers, or of versions of one, side by side.

    python3 -m conformance.compare A.json B.json [..] [--html page.html]

The table has a row for each subject and number of samples, and a column for each file. What changed between the first
file and the last is listed: subjects, and lists that differ in one of the two alone. Subjects whose lists are not the
same are named, and not compared.

Exit status 0: nothing changed. 1: something did. 2: a file has no results.
"""

from __future__ import annotations

import argparse
import sys
from dataclasses import dataclass
from html import escape
from typing import Sequence

from conformance import panel
from conformance.report import Section, document, html_table, text_table
from conformance.results import Json, NotResults, cases_of, name_of, read

ABSENT, OTHER_LISTS, NOT_ASKED = "-", "other lists", "not asked"


def share(subject: Json) -> str:
    """What is shown of a subject: samples that differ, or the greatest difference of a channel."""
    if not subject["lists"]:
        return NOT_ASKED
    if subject["exact"]:
        return f"{subject['differ']:,}"
    greatest = max(map(int, subject["errors"]), default=0)
    by_one = subject["errors"].get("1", 0)
    more = sum(count for size, count in subject["errors"].items() if int(size) > 1)
    return f"by {greatest}: {by_one:,} by one, {more:,} by more" if greatest else "0"


@dataclass
class Row:
    """A subject with one number of samples, by file; `None` if a file has none."""

    name: str
    title: str
    samples: int
    found: list[Json | None]

    def is_comparable(self) -> bool:
        return len({subject["identity"] for subject in self.found if subject}) <= 1

    def counts_the_same(self) -> bool:
        """Whether the first file and the last have the same lists and allow the same difference of a channel."""
        first, last = self.found[0], self.found[-1]
        return first is not None and last is not None and self.is_comparable() and first["allowed"] == last["allowed"]

    def cells(self) -> tuple[str, ...]:
        cells = [share(subject) if subject else ABSENT for subject in self.found]
        if not self.is_comparable():
            cells = [ABSENT if cell == ABSENT else OTHER_LISTS for cell in cells]
        compared = max(subject["compared"] for subject in self.found if subject)
        return (self.title, str(self.samples), f"{compared:,}", *cells)

    def change(self) -> str:
        """What changed from the first file to the last, or nothing."""
        first, last = self.found[0], self.found[-1]
        if first is None or last is None or not self.is_comparable():
            return ""
        one, other = share(first), share(last)
        return "" if one == other else f"{one} -> {other}"


def rows_of(files: Sequence[Json]) -> list[Row]:
    """The rows of all files, in the order of the first one that has each."""
    tables = [{name_of(subject): subject for subject in results["subjects"]} for results in files]
    names = list(dict.fromkeys(name for table in tables for name in table))
    rows = []
    for name in names:
        found = [table.get(name) for table in tables]
        known = next(subject for subject in found if subject)
        rows.append(Row(name, known["title"], known["samples"], found))
    return rows


def changes(files: Sequence[Json], rows: Sequence[Row]) -> list[str]:
    """What changed from the first file to the last, a line each."""
    lines = [f"{row.title} ({row.samples}): {row.change()}" for row in rows if row.change()]
    same = {row.name for row in rows if row.counts_the_same()}
    first, last = (
        {case: n for case, n in cases_of(one).items() if case.rpartition("/")[0] in same}
        for one in (files[0], files[-1])
    )
    lines += [f"new: {case} ({count:,} differ)" for case, count in last.items() if case not in first]
    lines += [f"differs no more: {case}" for case in first if case not in last]
    return lines + [
        f"{row.title} ({row.samples}): {OTHER_LISTS}, not compared" for row in rows if not row.is_comparable()
    ]


def column_of(results: Json) -> str:
    return f"{results['device']}, {results['interface']}"


def counts(results: Json) -> str:
    """The line of a file that stands first."""
    differ = sum(subject["differ"] for subject in results["subjects"] if subject["exact"])
    refused = sum(sum(subject["left_out"].values()) for subject in results["subjects"])
    left_out = f", {refused:,} lists left out" if refused else ""
    return f"{column_of(results)}: {differ:,} of {results['samples_compared']:,} samples differ{left_out}"


def section_of(files: Sequence[Json]) -> Section:
    head = ("subject", "samples a pixel", "compared", *map(column_of, files))
    return Section(
        "Side by side", head, lambda _report: (),
        lambda row: any(cell not in ("0", ABSENT, NOT_ASKED) for cell in row[3:]),
    )


def text(files: Sequence[Json]) -> str:
    rows, section = rows_of(files), section_of(files)
    lines = [*map(counts, files), "", *text_table(section, [row.cells() for row in rows]), ""]
    found = changes(files, rows)
    return "\n".join(
        [*lines, *(["What changed from the first to the last"] + found if found else ["Nothing changed."])]
    )


def page(files: Sequence[Json]) -> str:
    """The same as one HTML file: counts, pictures, and the table."""
    rows, section = rows_of(files), section_of(files)
    parts = [f'<p class="{"differs" if cases_of(one) else "agrees"}">{escape(counts(one))}</p>' for one in files]
    for row in rows:
        shown = [
            panel.of_characters(
                example["around"], f"{column_of(results)}: {example['list']}, sample {example['sample']}"
            )
            for results, subject in zip(files, row.found) if subject and subject["exact"]
            for example in subject["examples"][:1]
        ]
        if shown:
            parts += [
                f"<h2>{escape(row.title)}, samples a pixel: {row.samples}</h2>",
                f'<div class="figures">{"".join(shown)}</div>',
            ]
    parts += ["<h2>All subjects</h2>", html_table(section, [row.cells() for row in rows])]
    return document("Drivers side by side", parts)


def main() -> int:
    parser = argparse.ArgumentParser(description="Shows the results of several runs side by side.")
    parser.add_argument("files", nargs="+", metavar="FILE", help="results, as --json of a run writes them")
    parser.add_argument("--html", metavar="FILE", help="write the page of all devices too")
    options = parser.parse_args()
    try:
        files = [read(path) for path in options.files]
        print(text(files))
        if options.html:
            with open(options.html, "w", encoding="utf-8") as file:
                file.write(page(files))
    except (NotResults, OSError) as error:
        print(f"conformance: {error}", file=sys.stderr)
        return 2
    return 1 if changes(files, rows_of(files)) else 0


if __name__ == "__main__":
    sys.exit(main())
