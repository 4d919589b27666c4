"""A neighbourhood of characters as a drawing: how each pixel around the one that differs compares."""

from __future__ import annotations

from html import escape
from typing import Sequence

SCALE = 16  # of a pixel in the drawing
# The colours of equal pixels, and of those that the driver alone draws, that are missing, or that are
# of another triangle.
FILLS = {"#": "#bbbbbb", "+": "#d62728", "-": "#1f3fd6", "*": "#c21fd6"}


def of_characters(lines: Sequence[str], caption: str) -> str:
    """The drawing as a figure of HTML."""
    width, height = SCALE * max(map(len, lines), default=0), SCALE * len(lines)
    squares = "".join(
        f'<rect x="{SCALE * column}" y="{SCALE * row}" width="{SCALE}" height="{SCALE}" '
        f'fill="{FILLS.get(mark, "none")}" stroke="#ddd"/>'
        for row, line in enumerate(lines) for column, mark in enumerate(line)
    )
    drawing = f'<svg width="{width}" height="{height}" viewBox="0 0 {width} {height}">{squares}</svg>'
    return f"<figure>{drawing}<figcaption>{escape(caption)}</figcaption></figure>"
