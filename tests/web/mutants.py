"""Mutants of the page: wrong lines, one at a time, which the comparison of random figures has to find."""

from __future__ import annotations

from functools import partial

from tests.cases import CheckError
from tests.mutants import Mutant
from tests.web.explorer import FOLDER, Explorer, served
from tests.web.positions import check_positions
from tools.places import text_of

FIGURES = 25

# What is wrong, the file, its text, and what is served in its place.
MUTANTS = [Mutant(name, ((file, old, new),)) for name, file, old, new in (
    ("two samples of the pattern are swapped", "interface.js", "[[96, 32], [224, 96], ", "[[224, 96], [96, 32], "),
    ("two of sixteen samples are swapped", "interface.js", "[144, 144], [112, 80], ", "[112, 80], [144, 144], "),
    ("culling takes back for front", "interface.js", "'none', 'front', 'back'", "'none', 'back', 'front'"),
    ("vertices snap to 1/128", "figure.js", "Math.round(value) || 0", "2 * Math.round(value / 2)"),
    ("a bottom edge is marked as a top one", "coverage.js", "py < ry ? 'top'", "py > ry ? 'top'"),
    ("a right edge is marked as a left one", "coverage.js", "Math.sign(excess) > 0", "Math.sign(excess) < 0"),
    (
        "the scissor has its right edge inside", "draw_list.js", "scissor: draw.scissor ??",
        "scissor: draw.scissor?.map((edge, k) => edge + (k === 2)) ??",
    ),
    ("a figure is never reversed", "figure.js", "turned === 'yes' ?", "turned === 'never' ?"),
    (
        "signs are those of the other triangle", "grid.js", "of.map(({ values }) => values",
        "[...of].reverse().map(({ values }) => values",
    ),
    (
        "a list without its scissor is drawn and given away", "figure.js", "if (figure.scissor) draw.scissor",
        "if (false) draw.scissor",
    ),
    (
        "an arrow key moves by 1/16", "handle.js", "event.shiftKey ? UNIT : this.step",
        "event.shiftKey ? UNIT : 16 * this.step",
    ),
    ("a sample is marked as drawn wherever it is covered", "grid.js", "bits(of, 'drawn')", "bits(of, 'covers')"),
)]


def found_by(explorer: Explorer, mutant: Mutant) -> str | None:
    """How the figures differ on a page with this mistake."""
    with served(mutant.texts(partial(text_of, FOLDER))) as address:
        try:
            check_positions(explorer, address, FIGURES, ("mutants",))
        except CheckError as error:
            return str(error)
    return None
