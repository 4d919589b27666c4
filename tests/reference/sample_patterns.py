"""Draws where the samples of a pixel lie, in the patterns of docs/rules.md, as an SVG file.

    python3 -m tests.reference.sample_patterns > docs/samples.svg
"""

from __future__ import annotations

import sys
from typing import Iterator

from tests.reference.renderer import PATTERNS, Point

# In the picture: 1/16 pixel, the room round a pixel, the line of text above it, and the radius of a sample.
STEP, GAP, HEAD, RADIUS = 11, 16, 24, 4
SIDE = 16 * STEP


def shapes(count: int, pattern: tuple[Point, ...], left: int) -> Iterator[str]:
    """A pixel whose left border has this x, with lines of 1/16 pixel and its samples by their numbers."""
    top = GAP + HEAD
    yield f'<text x="{left}" y="{GAP + 10}" font-size="14">{count} sample{"s" if count > 1 else ""}</text>'
    for line in range(17):
        at, color = line * STEP, "#9aa4b2" if line % 8 == 0 else "#e3e7ec"
        yield f'<path d="M{left + at} {top}v{SIDE}M{left} {top + at}h{SIDE}" stroke="{color}"/>'
    yield f'<rect x="{left}" y="{top}" width="{SIDE}" height="{SIDE}" fill="none" stroke="#4a5568" stroke-width="1.5"/>'
    for number, (right, down) in enumerate(pattern):
        x, y = left + SIDE // 2 + right * STEP, top + SIDE // 2 + down * STEP
        yield f'<circle cx="{x}" cy="{y}" r="{RADIUS}" fill="#c2410c"/>'
        # Its number stands to the right of it, or near the right border to the left, and below a border
        # on which it lies.
        place, anchor = (x - RADIUS - 2, "end") if right >= 6 else (x + RADIUS + 2, "start")
        yield f'<text x="{place}" y="{y + (13 if down == -8 else 4)}" text-anchor="{anchor}">{number}</text>'


def svg() -> str:
    """The text of the file."""
    width, height = GAP + len(PATTERNS) * (SIDE + GAP), 2 * GAP + HEAD + SIDE
    lines = [
        f'<svg xmlns="http://www.w3.org/2000/svg" width="{width}" height="{height}" font-family="sans-serif" '
        'font-size="11" fill="#1a202c">',
        '<rect width="100%" height="100%" fill="#ffffff"/>',
    ]
    for place, (count, pattern) in enumerate(PATTERNS.items()):
        lines += shapes(count, pattern, GAP + place * (SIDE + GAP))
    return "\n".join([*lines, "</svg>", ""])


if __name__ == "__main__":
    sys.stdout.write(svg())
