"""How an interface is asked to draw a list, beyond what the list itself says."""

from __future__ import annotations

from dataclasses import dataclass

from conformance.suites.depth_ends import within_depths
from conformance.suites.shapes import Triangle, each_draw, triangles_in, with_triangles
from tools.draw_list import Draw, DrawList

# The vertices of a draw in perspective have these in turn, in 1/256.
WS = (256, 512, 128, 1024, 64)
OTHER_SIDE = {"none": "none", "front": "back", "back": "front"}


def move(scene: DrawList, x: int, y: int) -> DrawList:
    """The list with its positions moved, in 1/256 pixel. Scissors stay."""

    def change(draw: Draw) -> Draw:
        return {**draw, "vertices": [[left + x, top + y, *rest] for left, top, *rest in draw["vertices"]]}

    return each_draw(scene, change)


def turn_culling(scene: DrawList) -> DrawList:
    """The list that culls back faces instead of front faces, and the reverse."""
    return each_draw(scene, lambda draw: {**draw, "cull": OTHER_SIDE[draw.get("cull", "none")]})


def w_of(vertex: int) -> int:
    """The w of a draw's vertex in perspective, in 1/256."""
    return WS[vertex % len(WS)]


def finest_depths(scene: DrawList) -> DrawList:
    """The list with all depths multiplied by the greatest factor that leaves them in range. Its integers tell depths
    apart that differ by less than 1/65535, as floating point does."""
    greatest = max(
        [scene.get("clear_depth", 65535), *(vertex[2] for draw in scene["draws"] for vertex in draw["vertices"])]
    )
    factor = 65535 // max(greatest, 1)
    if factor == 1:
        return scene

    def change(draw: Draw) -> Draw:
        return {**draw, "vertices": [[x, y, factor * z, *rest] for x, y, z, *rest in draw["vertices"]]}

    return {**each_draw(scene, change), "clear_depth": factor * scene.get("clear_depth", 65535)}


def colour_by(scene: DrawList, leading: int) -> DrawList:
    """The list whose triangles have the colour and the alpha of this one of their vertices. It has vertices of
    its own for each."""

    def coloured(triangle: Triangle) -> Triangle:
        return [[*corner[:3], *triangle[leading][3:]] for corner in triangle]

    return each_draw(scene, lambda draw: with_triangles(draw, map(coloured, triangles_in(draw))))


def within_picture(draw: Draw, width: int, height: int) -> Draw:
    """The draw with its scissor's part in the picture."""
    if "scissor" not in draw:
        return draw
    sides = (width, height, width, height)
    return {**draw, "scissor": [min(max(0, place), side) for place, side in zip(draw["scissor"], sides)]}


@dataclass(frozen=True)
class Setting:
    """The viewport is the picture, or a square of `viewport` pixels around it; then it is moved by `moved`, in 1/256
    pixel. Depths are kept in integers of 16 bits, or in floating point of 32 bits. With `leading` a triangle has the
    colour of this one of its vertices. In perspective vertices have a w, which the rules' coverage, depths and flat
    colours do not see. With `strips` a strip is drawn as one. Depths past their ends are `cut`, by the triangle's part
    that has them, or `clamped`."""

    viewport: int | None = None
    moved: tuple[int, int] = (0, 0)
    anticlockwise_front: bool = False
    depth_bits: int = 16
    leading: int | None = None
    perspective: bool = False
    strips: bool = False
    beyond: str = ""

    def by_rules(self, scene: DrawList) -> DrawList:
        """The list that the rules draw if an interface draws this one under this setting."""
        if self.moved != (0, 0):
            scene = move(scene, *self.moved)
        if self.beyond:
            scene = within_depths(scene, self.beyond == "clamped")
        if self.depth_bits == 32:
            scene = finest_depths(scene)
        scene = each_draw(scene, lambda draw: within_picture(draw, scene["width"], scene["height"]))
        if self.leading is not None:
            scene = colour_by(scene, self.leading)
        return turn_culling(scene) if self.anticlockwise_front else scene


PLAIN = Setting()
