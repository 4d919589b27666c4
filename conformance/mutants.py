"""What a driver may do otherwise: mutants of the rules, which the comparison must find under their own subjects."""

from __future__ import annotations

import contextlib
from dataclasses import dataclass, replace
from fractions import Fraction
from itertools import chain
from typing import Callable, ContextManager, Iterator
from unittest import mock

from conformance.blending import ADD, REVERSE_SUBTRACT, SUBTRACT, Equation, equation_of
from conformance.suites.depth_ends import Corner, cut, fan
from conformance.suites.setting import Setting, colour_by, move, turn_culling
from conformance.suites.shapes import PIXEL, Triangle, coarser, each_draw, triangles_in, with_triangles
from tests.reference import renderer
from tools.draw_list import Draw, DrawList, Vertex


class BottomRightEdge(renderer.Edge):
    """An edge that owns its points if the rules' edge does not, and the reverse."""

    def __init__(self, a: renderer.Point, b: renderer.Point, c: renderer.Point) -> None:
        super().__init__(a, b, c)
        self.owns_its_points = not self.owns_its_points


class BottomLeftEdge(renderer.Edge):
    """An edge that owns its points if it is a bottom or a left edge."""

    def __init__(self, a: renderer.Point, b: renderer.Point, c: renderer.Point) -> None:
        super().__init__(a, b, c)
        if a[1] == b[1]:
            self.owns_its_points = c[1] < a[1]


class ClosedEdge(renderer.Edge):
    """An edge that owns its points on either side, so that both triangles draw a sample on it."""

    def __init__(self, a: renderer.Point, b: renderer.Point, c: renderer.Point) -> None:
        super().__init__(a, b, c)
        self.owns_its_points = True


def with_edges(kind: type[renderer.Edge]) -> Callable[[], ContextManager[object]]:
    return lambda: mock.patch.object(renderer, "Edge", kind)


def with_patterns(
    change: Callable[[tuple[renderer.Point, ...]], tuple[renderer.Point, ...]]
) -> Callable[[], ContextManager[object]]:
    changed = {count: change(places) for count, places in renderer.SAMPLES.items() if count > 1}
    return lambda: mock.patch.dict(renderer.SAMPLES, changed)


def turned(places: tuple[renderer.Point, ...]) -> tuple[renderer.Point, ...]:
    """A quarter of a turn around the pixel's centre."""
    return tuple((256 - y, x) for x, y in places)


def swapped(places: tuple[renderer.Point, ...]) -> tuple[renderer.Point, ...]:
    return (places[1], places[0], *places[2:])


FOUR = renderer.SAMPLES[4]
OTHER_EQUALITY = {"less": "less_equal", "less_equal": "less", "greater": "greater_equal", "greater_equal": "greater"}


def small_dropped(draw: Draw) -> Draw:
    """Drops triangles of less than half a pixel."""
    return with_triangles(draw, (one for one in triangles_in(draw) if abs(renderer.side(*one)) >= PIXEL * PIXEL))


def clipped_coarsely(scene: DrawList) -> DrawList:
    """Cuts triangles at the picture's border, and rounds the vertices that this makes to 1/16 pixel."""

    def rounded(corner: Corner) -> Corner:
        x, y, z = corner
        return Fraction(16 * round(x / 16)), Fraction(16 * round(y / 16)), z

    def parts(triangle: Triangle) -> Iterator[Triangle]:
        whole: list[Corner] = [(Fraction(x), Fraction(y), Fraction(z)) for x, y, z, *_rest in triangle]
        corners = whole
        for axis, side in enumerate((scene["width"], scene["height"])):
            corners = cut(cut(corners, 0, 1, axis), PIXEL * side, -1, axis)
        yield from fan([corner if corner in whole else rounded(corner) for corner in corners], triangle[0][3:])

    return each_draw(scene, lambda draw: with_triangles(draw, chain.from_iterable(map(parts, triangles_in(draw)))))


def near_positions(draw: Draw) -> Draw:
    """Keeps each coordinate between -256 and 256 pixels."""
    limit = 256 * PIXEL

    def near(corner: Vertex) -> Vertex:
        return [*(max(-limit, min(limit, place)) for place in corner[:2]), *corner[2:]]

    return {**draw, "vertices": list(map(near, draw["vertices"]))}


def moved_scissor(draw: Draw) -> Draw:
    """A scissor one pixel to the right of its place."""
    if "scissor" not in draw:
        return draw
    left, top, right, bottom = draw["scissor"]
    return {**draw, "scissor": [left + 1, top, right + 1, bottom]}


def scissor_by_samples(draw: Draw) -> Draw:
    """A scissor that lets in samples of the right half of pixels on its left, and of the lower half of
    pixels above it."""
    masks = {1 << sample: place for sample, place in enumerate(FOUR)}
    place = masks.get(draw.get("sample_mask", 15))
    if "scissor" not in draw or place is None:
        return draw
    left, top, *rest = draw["scissor"]
    return {**draw, "scissor": [max(0, left - (place[0] > 128)), max(0, top - (place[1] > 128)), *rest]}


def equality_turned(draw: Draw) -> Draw:
    test = draw.get("depth_test", "always")
    return {**draw, "depth_test": OTHER_EQUALITY.get(test, test)}


def truncated(draw: Draw) -> Draw:
    """Positions rounded down to 1/16 pixel."""
    return {**draw, "vertices": [[x // 16 * 16, y // 16 * 16, *rest] for x, y, *rest in draw["vertices"]]}


def depths_in_steps(step: int) -> Callable[[DrawList], DrawList]:
    """Rounds depths down to multiples of this many 1/65535."""

    def change(draw: Draw) -> Draw:
        return {**draw, "vertices": [[x, y, z // step * step, *rest] for x, y, z, *rest in draw["vertices"]]}

    return in_each_draw(change)


def six_bits_of_alpha(draw: Draw) -> Draw:
    """Rounds alpha down to a multiple of four."""
    return {**draw, "vertices": [[*rest, alpha // 4 * 4] for *rest, alpha in draw["vertices"]]}


def blending_ignored(draw: Draw) -> Draw:
    return {**draw, "blend": "none"}


def first_sample_everywhere(draw: Draw) -> Draw:
    """Gives each sample of a pixel what the first one has."""
    return {**draw, "sample_mask": 15 * (draw.get("sample_mask", 15) & 1)}


def depths_elsewhere(place_of: Callable[[renderer.Point], renderer.Point]) -> Callable[[DrawList], DrawList]:
    """Takes depths of sloping planes at a sample's other place: a draw becomes one for each sample, its plane moved.
    Its outline moves too, by less than a pixel."""

    def by_samples(draw: Draw) -> list[Draw]:
        if len({vertex[2] for vertex in draw["vertices"]}) <= 1:
            return [draw]
        made = []
        for sample, place in enumerate(FOUR):
            right, down = (there - taken for there, taken in zip(place, place_of(place)))
            corners = [[x + right, y + down, *rest] for x, y, *rest in draw["vertices"]]
            made.append({**draw, "vertices": corners, "sample_mask": draw.get("sample_mask", 15) & 1 << sample})
        return made

    return lambda scene: {**scene, "draws": [one for draw in scene["draws"] for one in by_samples(draw)]}


def mirrored(place: renderer.Point) -> renderer.Point:
    """The place from left to right, as SwiftShader takes it for depths."""
    return (256 - place[0], *place[1:])


def scissor_of_16_bits(draw: Draw) -> Draw:
    """A scissor whose sides keep 16 bits, as those of lavapipe do."""
    if "scissor" not in draw:
        return draw
    return {**draw, "scissor": [max(0, side) % 65536 for side in draw["scissor"]]}


def mask_but_0_ignored(draw: Draw) -> Draw:
    """A sample mask of which 0 alone is heeded, as lavapipe does with one sample."""
    return {**draw, "sample_mask": 15 if draw.get("sample_mask", 15) else 0}


def a_pixel_off(setting: Setting) -> Setting:
    """Moves a viewport whose place has a negative fraction a pixel too far, as Wine's Direct3D does by OpenGL."""
    x, y = (move - 256 if move < 0 and move % 256 else move for move in setting.moved)
    return replace(setting, moved=(x, y))


def turns_ignored(draw: Draw) -> Draw:
    """A strip whose triangles all have their vertices in the strip's order."""
    if "strip" not in draw:
        return draw
    state = {key: value for key, value in draw.items() if key != "strip"}
    return {**state, "triangles": [list(draw["strip"][k : k + 3]) for k in range(len(draw["strip"]) - 2)]}


def with_equation(change: Callable[[Equation], Equation]) -> Callable[[DrawList], DrawList]:
    """Draws each equation as another one."""

    def changed(draw: Draw) -> Draw:
        return {**draw, "equation": list(change(equation_of(draw)))} if "equation" in draw else draw

    return in_each_draw(changed)


def factors_swapped(equation: Equation) -> Equation:
    return equation._replace(color_source=equation.color_stored, color_stored=equation.color_source)


def subtract_turned(equation: Equation) -> Equation:
    """Takes the new value from the stored one if the stored one is to be taken from the new one, and the reverse."""
    other = {SUBTRACT: REVERSE_SUBTRACT, REVERSE_SUBTRACT: SUBTRACT}
    return equation._replace(color_operation=other.get(equation.color_operation, equation.color_operation))


def alpha_kept(equation: Equation) -> Equation:
    return equation._replace(alpha_source=1, alpha_stored=2, alpha_operation=ADD)


def constant_ignored(equation: Equation) -> Equation:
    return equation._replace(red=0, green=0, blue=0, alpha=0)


def write_mask_ignored(draw: Draw) -> Draw:
    return {**draw, "write": [True] * 3}


def reversed_order(scene: DrawList) -> DrawList:
    return {**scene, "draws": [{**draw, "triangles": draw["triangles"][::-1]} for draw in scene["draws"][::-1]]}


def mask_ignored(scene: DrawList) -> DrawList:
    return each_draw(scene, lambda draw: {**draw, "sample_mask": 15})


def clear_by_one(scene: DrawList) -> DrawList:
    """Each channel of the clear colour that is not black is one greater, at most 255."""
    return {**scene, "clear": [min(255, channel + (channel > 0)) for channel in scene.get("clear", (0, 0, 0))]}


def clear_depth_by_one(scene: DrawList) -> DrawList:
    return {**scene, "clear_depth": max(0, scene.get("clear_depth", 65535) - 1)}


def in_each_draw(change: Callable[[Draw], Draw]) -> Callable[[DrawList], DrawList]:
    return lambda scene: each_draw(scene, change)


def for_samples(count: int, change: Callable[[DrawList], DrawList]) -> Callable[[DrawList], DrawList]:
    """The change, of lists with this number of samples alone."""
    return lambda scene: change(scene) if scene.get("samples", 1) == count else scene


@dataclass(frozen=True)
class Mutant:
    """What is otherwise: the list that is drawn, the list that is asked for, the setting, the setting's floating point
    depths, or the rules themselves."""

    change: Callable[[DrawList], DrawList] = lambda scene: scene
    asked: Callable[[DrawList], DrawList] = lambda scene: scene
    setting: Callable[[Setting], Setting] = lambda setting: setting
    float_depths: Callable[[DrawList], DrawList] = lambda scene: scene
    rules: Callable[[], ContextManager[object]] = contextlib.nullcontext

    def drawn(self, scene: DrawList, setting: Setting) -> DrawList:
        """The list that is drawn in place of this one."""
        made = self.change(self.setting(setting).by_rules(self.asked(scene)))
        return self.float_depths(made) if setting.depth_bits == 32 else made


MUTANTS: dict[str, Mutant] = {
    "turned pattern": Mutant(rules=with_patterns(turned)),
    "swapped samples": Mutant(rules=with_patterns(swapped)),
    "bottom-right rule": Mutant(rules=with_edges(BottomRightEdge)),
    "bottom-left rule": Mutant(rules=with_edges(BottomLeftEdge)),
    "seven subpixel bits": Mutant(lambda scene: coarser(scene, 7)),
    "truncated subpixels": Mutant(in_each_draw(truncated)),
    "closed edges": Mutant(rules=with_edges(ClosedEdge)),
    "small triangles dropped": Mutant(in_each_draw(small_dropped)),
    "coarse clipping": Mutant(clipped_coarsely),
    "far vertices moved near": Mutant(in_each_draw(near_positions)),
    "half-pixel offset": Mutant(lambda scene: move(scene, -128, -128)),
    "viewport by 1/256": Mutant(lambda scene: move(scene, 1, 0)),
    "viewport a pixel off": Mutant(setting=a_pixel_off),
    "viewport's fraction ignored": Mutant(setting=lambda setting: replace(setting, moved=(0, 0))),
    "moved scissor": Mutant(in_each_draw(moved_scissor)),
    "scissor by samples": Mutant(for_samples(4, in_each_draw(scissor_by_samples))),
    "culling turned": Mutant(turn_culling),
    "front orientation ignored": Mutant(setting=lambda setting: replace(setting, anticlockwise_front=False)),
    "equality of depths turned": Mutant(in_each_draw(equality_turned)),
    "coarse float depths": Mutant(float_depths=depths_in_steps(256)),
    "depths of fourteen bits": Mutant(depths_in_steps(4)),
    "floating point of 16 bits": Mutant(setting=lambda setting: replace(setting, depth_bits=16)),
    "depths mirrored": Mutant(for_samples(4, depths_elsewhere(mirrored))),
    "depths at the centre": Mutant(for_samples(4, depths_elsewhere(lambda _place: (128, 128)))),
    "last vertex leads": Mutant(
        setting=lambda setting: replace(setting, leading=None if setting.leading is None else 2)
    ),
    "mask ignored": Mutant(mask_ignored),
    "mask of one sample ignored": Mutant(for_samples(1, mask_ignored)),
    "mask of one sample but 0 ignored": Mutant(for_samples(1, in_each_draw(mask_but_0_ignored))),
    "write mask ignored": Mutant(in_each_draw(write_mask_ignored)),
    "order reversed": Mutant(reversed_order),
    "depths clamped": Mutant(setting=lambda setting: replace(setting, beyond="clamped" if setting.beyond else "")),
    "scissor of 16 bits": Mutant(asked=in_each_draw(scissor_of_16_bits)),
    "turns of strips ignored": Mutant(asked=in_each_draw(turns_ignored)),
    "flat colours": Mutant(lambda scene: colour_by(scene, 0)),
    "first sample resolved": Mutant(for_samples(4, in_each_draw(first_sample_everywhere))),
    "blending ignored": Mutant(in_each_draw(blending_ignored)),
    "six bits of alpha": Mutant(in_each_draw(six_bits_of_alpha)),
    "blend factors swapped": Mutant(with_equation(factors_swapped)),
    "subtraction turned": Mutant(with_equation(subtract_turned)),
    "alpha kept": Mutant(with_equation(alpha_kept)),
    "blend constant ignored": Mutant(with_equation(constant_ignored)),
    "clear by one": Mutant(clear_by_one),
    "clear depth by one": Mutant(clear_depth_by_one),
}
# Those that change lists alone, which a program can draw too.
DRAWABLE = [name for name, mutant in MUTANTS.items() if mutant.rules is contextlib.nullcontext]


def mutant_of(name: str) -> Mutant:
    """The mutant of this name, or the rules themselves."""
    return MUTANTS[name] if name else Mutant()
