"""Random figures in the explorer, moved by mouse and keys: each sample, edge and pixel that it shows
against the program."""

from __future__ import annotations

import json
import random
from collections import Counter
from typing import Any, Sequence

from tools import picture_file
from tests.cases import CheckError, must
from tests.reference.renderer import SAMPLES
from tests.web.explorer import SHIFT, Explorer
from tests.web.figure import (
    COLUMNS, MARGIN, NAMES, ROWS, UNIT, Figure, figure_in, run_program, some_figure, wanted_edges, wanted_samples
)

ARROWS = {"ArrowLeft": (-1, 0), "ArrowRight": (1, 0), "ArrowUp": (0, -1), "ArrowDown": (0, 1)}
CORNERS = ("upper left", "lower right")


def tints_of(scene: Any) -> dict[str, Any]:
    """The colours in which the page draws, as its draw list has them."""
    vertices = scene["draws"][0]["vertices"]
    colours = [tuple(vertex[3:6]) for vertex in vertices]
    return {"cell": scene["clear"], "triangles": (colours[0], colours[-1]), "quad": colours[0]}


def check_pixels(seen: Any, figure: Figure) -> bool:
    """The draw list is the figure's, and the page has the program's pixels or its error. Returns whether
    the list is refused."""
    scene = json.loads(seen["list"])
    must(scene == figure.draw_list(tints_of(scene)), f"another draw list: {json.dumps(scene)}")
    answer = run_program(scene)
    if answer.status == 0:
        must(seen["refused"] == "", f"the page says: {seen['refused']}")
        must(bytes(seen["fills"]) == picture_file.decode(answer.output).pixel_data, "pixels differ")
        return False
    line = answer.line.decode().strip().replace("trirast: ", "")
    must(line in seen["refused"], f"the program says {line}, and the page {seen['refused']!r}")
    must(seen["fills"] == scene["clear"] * (COLUMNS * ROWS), "a refused list is drawn")
    return True


def check_shown(explorer: Explorer) -> Counter[str]:
    """What the page shows is what the program does with the figure of its link. Returns what was seen."""
    seen = explorer.read()
    figure = figure_in(seen["text"])
    try:
        is_refused = check_pixels(seen, figure)
        wanted = wanted_samples(figure, is_refused)
        shown = {at: (covers, drawn, signs) for at, _, _, covers, drawn, signs in seen["samples"]}
        must(shown.keys() == wanted.keys(), "other samples")
        differ = [at for at in wanted if shown[at] != wanted[at]]
        must(
            not differ,
            f"{len(differ)} samples differ, first {differ[:1]}: {[(shown[at], wanted[at]) for at in differ[:1]]}",
        )
        for at, x, y, *_ in seen["samples"]:
            column, row, sample = map(int, at.split(","))
            ox, oy = SAMPLES[figure.samples][sample]
            must((x, y) == (UNIT * column + ox, UNIT * row + oy), f"sample {at} stands at {(x, y)}")
        must([tuple(edge) for edge in seen["edges"]] == wanted_edges(figure), f"edges are marked {seen['edges']}")
    except CheckError as error:
        raise CheckError(f"{error} ({seen['text']})") from error
    states = Counter(drawn for _, drawn, _ in wanted.values())
    on_edges = sum("0" in signs.replace(";", ",").split(",") for _, _, signs in wanted.values())
    return Counter(samples=len(wanted), drawn=len(wanted) - states["00"], edge=on_edges, refused=int(is_refused))


def clamped(value: int, pixels: int) -> int:
    return min(max(value, -MARGIN), UNIT * pixels + MARGIN)


def drag(explorer: Explorer, pick: random.Random, name: str) -> bool:
    """Drags a vertex by the mouse. Returns `False` if another handle lies over it."""
    place = explorer.handle(name)
    if not place["isFree"]:
        return False
    before = figure_in(explorer.page.run("page.text()")).points[NAMES.index(name)]
    by = (pick.randint(-120, 120), pick.randint(-90, 90))
    explorer.page.drag(place["at"], by)
    after = figure_in(explorer.page.run("page.text()")).points[NAMES.index(name)]
    for old, new, pixels, moved in zip(before, after, (COLUMNS, ROWS), by):
        wanted = clamped(round(old + UNIT * moved / place["scale"]), pixels)
        must(abs(new - wanted) <= 1, f"{name} was dragged from {before} by {by} pixels of the screen to {after}")
    return True


def press(explorer: Explorer, pick: random.Random, name: str) -> bool:
    """Moves a vertex by arrow keys."""
    index = NAMES.index(name)
    x, y = figure_in(explorer.page.run("page.text()")).points[index]
    explorer.focus(name)
    for _ in range(pick.randint(1, 4)):
        key, is_whole = pick.choice(list(ARROWS)), pick.random() < 0.3
        explorer.key(key, SHIFT if is_whole else 0)
        step = UNIT if is_whole else 1
        x, y = clamped(x + step * ARROWS[key][0], COLUMNS), clamped(y + step * ARROWS[key][1], ROWS)
    after = figure_in(explorer.page.run("page.text()")).points[index]
    must(after == (x, y), f"keys moved {name} to {after}, and not to {(x, y)}")
    return True


def cut(explorer: Explorer, pick: random.Random, figure: Figure) -> bool:
    """Moves a corner of the scissor by some pixels, by the mouse if nothing lies over it, else by arrow keys."""
    if not figure.scissor:
        return False
    corner, by = pick.randrange(2), (pick.randint(-3, 3), pick.randint(-3, 3))
    wanted = list(figure.scissor)
    for axis, limit in ((0, COLUMNS), (1, ROWS)):
        wanted[2 * corner + axis] = min(max(wanted[2 * corner + axis] + by[axis], 0), limit)
    place = explorer.handle(CORNERS[corner])
    if place["isFree"]:
        explorer.page.drag(place["at"], (round(by[0] * place["scale"]), round(by[1] * place["scale"])))
    else:
        explorer.focus(CORNERS[corner])
        for axis, keys in ((0, ("ArrowLeft", "ArrowRight")), (1, ("ArrowUp", "ArrowDown"))):
            for _ in range(abs(by[axis])):
                explorer.key(keys[by[axis] > 0])
    after = figure_in(explorer.page.run("page.text()")).scissor
    must(after == tuple(wanted), f"the scissor {figure.scissor} was moved to {after}, and not to {tuple(wanted)}")
    return True


def check_positions(explorer: Explorer, address: str, count: int, seed: Sequence[object]) -> str:
    """Figures by links, each with a vertex dragged then, and some moved in other ways; each is compared."""
    pick = random.Random(f"figures {seed}")
    must(explorer.load(address) == "ready", "the page did not start")
    seen: Counter[str] = Counter()
    for _ in range(count):
        figure = some_figure(pick)
        explorer.go(figure.text())
        must(figure_in(explorer.page.run("page.text()")) == figure, f"{figure.text()} does not open")
        seen["dragged"] += drag(explorer, pick, pick.choice(NAMES))
        seen["keys"] += pick.random() < 0.3 and press(explorer, pick, pick.choice(NAMES))
        seen["scissors"] += cut(explorer, pick, figure)
        seen += check_shown(explorer)
    return (
        f"{count} figures, a vertex dragged in {seen['dragged']}, moved by keys in {seen['keys']}, "
        f"{seen['scissors']} scissors moved, "
        f"{seen['refused']} refused; {seen['samples']} samples, {seen['drawn']} drawn, {seen['edge']} on an edge's line"
    )
