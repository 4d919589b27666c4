"""What was measured, as text and as one HTML file."""

from __future__ import annotations

import html
from dataclasses import dataclass, field
from typing import Callable, Iterable, Iterator, Sequence

from conformance.comparison import KINDS, Example, Tally
from conformance.history import HEAD, History
from conformance.neighbourhood import as_characters, coverage_panels, value_panels

Row = tuple[str, ...]

STYLE = """
body { font: 15px/1.45 system-ui, sans-serif; margin: 2em auto; max-width: 72em; padding: 0 1em; color: #222; }
table { border-collapse: collapse; margin: 0.6em 0 1.6em; }
th, td { text-align: left; padding: 0.25em 0.9em 0.25em 0; border-bottom: 1px solid #ddd; vertical-align: top; }
td.number { text-align: right; font-variant-numeric: tabular-nums; }
.agrees { color: #17692b; } .differs { color: #b3140f; }
p.differs { font-weight: 600; } tr.differs { background: #fdeceb; }
.figures { display: flex; flex-wrap: wrap; gap: 1.2em; } figure { margin: 0; } figcaption { color: #555; }
svg { border: 1px solid #999; background: #fff; max-width: 100%; } code { font-size: 0.93em; }
.scissor { fill: none; stroke: #00796b; stroke-width: 1.5; stroke-dasharray: 5 3; }
.key span { display: inline-block; width: 0.8em; height: 0.8em; border-radius: 50%; margin: 0 0.3em 0 1em; }
"""
KEY = """<p class="key">Left and middle: a sample has the colour of its triangle, and is a ring if nothing is drawn \
there. Right:
<span style="background:#d62728"></span>drawn by the driver alone
<span style="background:#1f3fd6"></span>missing <span style="background:#c21fd6"></span>of another triangle
<span style="background:#bbbbbb"></span>equal. Lines are the list's triangles, dashed boxes its scissors, and the framed
pixel is the worst.</p>"""


@dataclass(frozen=True)
class Values:
    """Values of one kind at samples against exact fractions: how many, the greatest error in its unit, how many
    are wrong, and why."""

    title: str
    samples: int
    values: int
    greatest: float
    wrong: int
    unit: str
    explained: str = ""
    refused: str = ""  # why nothing was asked

    def row(self) -> Row:
        if self.refused:
            return self.title, str(self.samples), "0", "-", "-", self.unit, f"not asked: {self.refused}"
        numbers = (f"{self.values:,}", f"{self.greatest:,.2f}", f"{self.wrong:,}")
        return self.title, str(self.samples), *numbers, self.unit, self.explained or "-"


@dataclass
class Report:
    """All that was measured of a driver."""

    said: list[tuple[str, str]]
    findings: list[tuple[str, str, str]]
    tallies: list[Tally]
    files: dict[str, str]  # the file of the list, by an example's name
    never_asked: Sequence[tuple[str, str]] = ()
    histories: dict[str, History] = field(default_factory=dict)  # by an example's name
    no_histories: str = ""  # why there is none
    interface: str = "OpenGL"
    compared_with: str = "the rules"
    bits: int = 8
    values: list[Values] = field(default_factory=list)
    mutant: str = ""  # how the rules were changed that the driver was compared with

    def device(self) -> str:
        return dict(self.said).get("renderer", "driver")

    def exact(self) -> list[Tally]:
        return [tally for tally in self.tallies if tally.suite.exact]

    def near(self) -> list[Tally]:
        return [tally for tally in self.tallies if not tally.suite.exact]

    def differing(self) -> list[Tally]:
        return [tally for tally in self.exact() if not tally.agrees]

    def beyond(self) -> list[Tally]:
        """The near subjects of which a channel differs by more than the interface's specification allows."""
        return [tally for tally in self.near() if tally.suite.tolerances and not tally.agrees]

    def examples(self) -> list[tuple[str, Example]]:
        """All that are shown, with their names."""
        return [named for tally in self.tallies for named in tally.named_examples()]

    def samples_compared(self) -> int:
        return sum(tally.compared for tally in self.exact())

    def coverage_agrees(self) -> bool:
        return self.samples_compared() > 0 and not self.differing()

    def agrees(self) -> bool:
        """Whether coverage agrees, and values do within what the interface's specification allows."""
        return self.coverage_agrees() and not self.beyond()

    def summary(self) -> str:
        beyond = ", ".join(f"{tally.suite.title} ({tally.samples})" for tally in self.beyond())
        return self.coverage_summary() + (f" Values differ by more than is allowed: {beyond}." if beyond else "")

    def coverage_summary(self) -> str:
        differing = self.differing()
        compared = f"{self.samples_compared():,} samples compared"
        left_out = sum(sum(tally.left_out.values()) for tally in self.tallies)
        if left_out:
            compared += f", {left_out} lists left out"
        if not self.samples_compared():
            return f"Coverage was not tried: {compared}."
        changed = f" with the rules changed, {self.mutant}" if self.mutant else ""
        if not differing:
            return f"Coverage agrees{changed}: {compared}, none differs."
        count = sum(tally.differ for tally in differing)
        samples: dict[str, list[str]] = {}
        for tally in differing:
            samples.setdefault(tally.suite.title, []).append(str(tally.samples))
        names = "; ".join(f"{title} ({' and '.join(counts)})" for title, counts in samples.items())
        return f"Coverage differs{changed}: {compared}, {count:,} differ, by subject and samples a pixel: {names}."

    def left_out(self) -> list[tuple[str, str]]:
        """What was not asked: of this interface at all, and of this driver."""
        refused: dict[str, list[str]] = {}
        for tally in self.tallies:
            for why, count in tally.left_out.items():
                refused.setdefault(why, []).append(f"{tally.name} ({count})")
        return [*self.never_asked, *((f"lists of {', '.join(names)}", why) for why, names in refused.items())]


def share(tally: Tally) -> str:
    """The part that differs, in percent with two digits that count."""
    return f"{100 * tally.differ / tally.compared:.2g} %" if tally.differ else "0"


def exact_rows(report: Report) -> Iterator[Row]:
    for tally in report.exact():
        first = f"{tally.first.title} ({report.files[tally.name]})" if tally.first else "-"
        numbers = (str(tally.samples), str(tally.lists), f"{tally.compared:,}", f"{tally.differ:,}", share(tally))
        kinds = ", ".join(f"{tally.kinds[kind]:,} {words}" for kind, words in KINDS.items() if tally.kinds[kind])
        yield (tally.suite.title, *numbers, kinds or "-", first)


BINS = ((0, 0), (1, 1), (2, 2), (3, 3), (4, 15), (16, 63), (64, 255))


def histogram(tally: Tally) -> str:
    """The number of channels by the size of their difference, without the bins that have none."""
    counts = ((low, high, sum(tally.errors[size] for size in range(low, high + 1))) for low, high in BINS)
    named = ((f"{low}" if low == high else f"{low} to {high}", count) for low, high, count in counts if count)
    return ", ".join(f"{size}: {count:,}" for size, count in named)


def near_rows(report: Report) -> Iterator[Row]:
    for tally in report.near():
        greatest, allowed = max(tally.errors, default=0), tally.suite.tolerance(tally.samples)
        limit = "-" if allowed is None else str(allowed)
        yield (
            tally.suite.title, str(tally.samples), str(tally.lists), f"{tally.compared:,}", str(greatest), limit,
            histogram(tally),
        )


EXACT_HEAD = (
    "subject", "samples a pixel", "lists", "compared", "differ", "share", "of these", "first list that differs"
)
NEAR_HEAD = (
    "subject", "samples a pixel", "lists", "channels", "greatest difference", "allowed", "channels by difference"
)
VALUES_HEAD = ("values", "samples a pixel", "compared", "greatest error", "wrong", "unit", "explained")
ROUNDING_IS_OPEN = (
    "How an interpolated value and a blend are rounded is open in Direct3D 11, OpenGL and Vulkan: a channel that "
    "differs by one is no error of the driver."
)
FINDINGS_HEAD = ("read from pictures", "the program", "the driver")


@dataclass
class Section:
    """A table of the report, with a note. A row of which `departs` is true is marked: the driver does otherwise."""

    title: str
    head: Row
    rows: Callable[[Report], Iterable[Row]]
    departs: Callable[[Row], bool] = lambda row: False
    note: str = ""


SECTIONS = (
    Section("What the driver says of itself", (), lambda report: report.said),
    Section("What its pictures show", FINDINGS_HEAD, lambda report: report.findings, lambda row: row[1] != row[2]),
    Section("Coverage, sample by sample", EXACT_HEAD, exact_rows, lambda row: row[4] != "0"),
    Section(
        "Colours and depths, in 1/255 of a channel", NEAR_HEAD, near_rows,
        lambda row: row[5] != "-" and int(row[4]) > int(row[5]), ROUNDING_IS_OPEN,
    ),
    Section(
        "Values at samples against exact fractions", VALUES_HEAD, lambda report: (row.row() for row in report.values),
        lambda row: row[4] not in ("0", "-"),
    ),
    Section("Not asked", (), Report.left_out),
)


# ---- Text ----------------------------------------------------------------------------------------------------------


def text_table(section: Section, rows: Sequence[Row]) -> list[str]:
    """The lines of a table. A star stands before a row in which the driver does otherwise."""
    marks = [*([" "] if section.head else []), *("*" if section.departs(row) else " " for row in rows)]
    rows = [*([section.head] if section.head else []), *rows]
    widths = [max(map(len, column)) for column in zip(*rows)]
    lines = ("  ".join(cell.ljust(width) for cell, width in zip(row, widths)) for row in rows)
    return [f"{mark} {line}".rstrip() for mark, line in zip(marks, lines)]


def text_history(found: History) -> Iterator[str]:
    """The history of a sample by the rules, a line for each triangle."""
    yield f"   by the rules, at {found.position}, from {found.begin}:"
    for row in found.rows:
        yield "   " + "; ".join(f"{name} {value}" for name, value in zip(HEAD, row) if value not in ("-", ""))
    yield f"   to {found.end}"


def text_example(report: Report, name: str, example: Example) -> Iterator[str]:
    yield f"{name}: {example.title}, sample {example.sample}, around pixel {example.place}; list {report.files[name]}"
    yield "   # equal   . not drawn   + by the driver alone   - missing   * of another triangle"
    for line in as_characters(example):
        yield f"   {line}"
    if name in report.histories:
        yield from text_history(report.histories[name])
    yield ""


def text(report: Report) -> str:
    lines = [report.summary(), ""]
    for section in SECTIONS:
        rows = list(section.rows(report))
        if rows:
            note = [section.note] if section.note else []
            lines += [section.title, "-" * len(section.title), *note, *text_table(section, rows), ""]
    for tally in report.differing():
        for name, example in tally.named_examples():
            lines += text_example(report, name, example)
    if report.differing() and report.no_histories:
        lines.append(report.no_histories)
    return "\n".join(lines)


# ---- HTML ----------------------------------------------------------------------------------------------------------


def cell(value: str, tag: str = "td") -> str:
    kind = ' class="number"' if tag == "td" and value.replace(",", "").isdigit() else ""
    return f"<{tag}{kind}>{html.escape(value)}</{tag}>"


def html_table(section: Section, rows: Sequence[Row]) -> str:
    lines = ["<table>"]
    if section.head:
        lines.append(f"<tr>{''.join(cell(name, 'th') for name in section.head)}</tr>")
    for row in rows:
        mark = ' class="differs"' if section.departs(row) else ""
        lines.append(f"<tr{mark}>{''.join(map(cell, row))}</tr>")
    return "\n".join([*lines, "</table>"])


def html_history(found: History) -> str:
    lines = [
        f"<p>By the rules, at {html.escape(found.position)}: from {html.escape(found.begin)} "
        f"to {html.escape(found.end)}.</p>"
    ]
    rows = (f"<tr>{''.join(map(cell, row))}</tr>" for row in found.rows)
    return "\n".join([*lines, "<table>", f"<tr>{''.join(cell(name, 'th') for name in HEAD)}</tr>", *rows, "</table>"])


def html_example(report: Report, tally: Tally, name: str, example: Example) -> str:
    kind = f", {KINDS[example.kind]}" if example.kind in KINDS else ""
    place = f"{example.title}, sample {example.sample}, around pixel {example.place}: "
    command = "" if tally.suite.has_alpha else f"bin/trirast < {report.files[name]}"
    panels = coverage_panels if tally.suite.exact else value_panels
    shown = html_history(report.histories[name]) if name in report.histories else ""
    return (
        f'<h3 id="{name}">{html.escape(tally.suite.title)}, samples a pixel: {tally.samples}{kind}</h3>'
        f"<p>{html.escape(place)}<code>{html.escape(command)}</code></p>"
        f'<div class="figures">{panels(example)}</div>{shown}'
    )


def document(title: str, parts: Sequence[str]) -> str:
    """An HTML file of these parts that needs no other file."""
    head = f'<meta charset="utf-8"><title>{html.escape(title)}</title><style>{STYLE}</style>'
    body = [f"<h1>{html.escape(title)}</h1>", *parts]
    return "\n".join([f'<!doctype html><html lang="en"><head>{head}</head><body>', *body, "</body></html>", ""])


def page(report: Report) -> str:
    """The report as one HTML file: the count, the pictures, and then all tables."""
    kind = "agrees" if report.agrees() else "differs"
    parts = [f'<p class="{kind}">{html.escape(report.summary())}</p>']
    shown = [tally for tally in [*report.differing(), *report.near()] if tally.first]
    if shown:
        parts += ["<h2>Where they differ</h2>", KEY]
        parts += [f"<p>{html.escape(report.no_histories)}</p>"] if report.no_histories else []
    for tally in shown:
        parts += [html_example(report, tally, name, example) for name, example in tally.named_examples()]
    for section in SECTIONS:
        rows = list(section.rows(report))
        if rows:
            note = [f"<p>{html.escape(section.note)}</p>"] if section.note else []
            parts += [f"<h2>{section.title}</h2>", *note, html_table(section, rows)]
    return document(f"{report.device()} by {report.interface}, sample by sample", parts)
