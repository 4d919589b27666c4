"""Tests that the tables of docs/performance.md have the figures of bench/results/, and its headline their range.

    python3 -m pytest tests/documents/test_performance.py
"""

from __future__ import annotations

from typing import Iterator

from tools.markdown import rows
from tools.places import text_of

PAGE = "docs/performance.md"


def table(heading: str) -> list[list[str]]:
    """The rows of the first table below a heading of the page."""
    section = text_of(PAGE).split(f"\n## {heading}\n")[1].split("\n## ")[0]
    return list(rows(section))[1:]


def results(name: str) -> Iterator[list[str]]:
    """The rows of a table of bench/results."""
    found = rows(text_of("bench", "results", f"{name}.txt"))
    next(found)
    return found


def span(ratios: list[str]) -> str:
    return f"{min(ratios, key=float)} to {max(ratios, key=float)}"


def test_frames_beside_llvmpipe() -> None:
    found = {(row[0], row[1]): row for row in results("llvmpipe")}
    scenes = [scene for scene, workers in found if workers == "1"]
    assert table("Compared with llvmpipe") == [
        [f"`{scene}`", one[2].split()[0], one[3], one[5], four[5]]
        for scene, one, four in ((scene, found[scene, "1"], found[scene, "4"]) for scene in scenes)
    ]
    assert f"With four threads each, it takes {span([row[4] for row in table('Compared with llvmpipe')])}" in flat()


def test_polygons_beside_cairo() -> None:
    one = [row for row in results("polygons") if row[1] == "1"]
    page = table("Compared with cairo")
    assert [row[1:] for row in page] == [row[2:] for row in one]
    assert all(cells[0].startswith(f"`{row[0]}`") for cells, row in zip(page, one))
    four = [row for row in results("polygons") if row[1] == "4"]
    ranges = [span([row[column] for row in four]) for column in (4, 5)]
    assert f"the ratios are {ranges[0]} with 4 samples, and {ranges[1]} with 16" in flat()


def test_shaded_frames() -> None:
    found = {(row[0], row[2], row[3]): row[5] for row in results("shading")}
    page = table("Shaded frames")
    for scene, *ratios in page:
        name = scene.split("`")[1]
        assert ratios == [found[name, rate, threads] for rate in ("pixel", "sample") for threads in "14"]
    assert len(found) == 4 * len(page)
    assert f"Textured, lit frames take {span(list(found.values()))} times llvmpipe's time" in flat()


def flat() -> str:
    """The page on one line."""
    return " ".join(text_of(PAGE).split())
