"""A canvas that keeps its blocks in up to four samples, in one plane, as pairs or in planes of their own, as
docs/polygons.md says, and mutants of it: by these the tests show that the scenes of tests/reference/polygon_scenes.py
find mistakes of ways.

It is no second library: it has the samples of tests/reference/polygon_samples.py, and of each pair the two planes and
the masks, or the few samples of a block and which of them each sample is. It is drawn on canvases of whole tiles, so
that all blocks are whole. Needs numpy.
"""

from __future__ import annotations

from collections import Counter
from dataclasses import replace
from typing import Any, Iterator, NamedTuple

import numpy as np

from tests.reference import renderer
from tests.reference.polygon_samples import DEPTH_SHIFT, Place, Samples
from tests.reference.polygon_scenes import FEW_CORNERS, Call, Clear, Picture, Polygon, Polygons, Scene

BLOCK, TILE = 8, 64
# The most samples that a block is kept in.
FEW = 4
# A column of blocks and a row.
At = tuple[int, int]
# What has to be the same in planes that become one: depth and alpha.
BESIDE_COLOURS = ~0xFFFFFF


class Pair(NamedTuple):
    """Two planes of pixels, and of each sample whether it is that of the second."""

    first: Any
    second: Any
    masks: Any


class Flat(NamedTuple):
    """Two samples, and of each sample of the block whether it is the second of them."""

    first: Any
    second: Any
    masks: Any


class Four(NamedTuple):
    """Up to four samples, no two of them the same, and of each sample of the block the number of the one that it is."""

    samples: list[int]
    numbers: Any


def replaces_colours(shape: renderer.Triangle, samples: int) -> bool:
    """Whether a shape gives its colour to each sample that it covers in its scissor."""
    state, full = shape.state, (1 << samples) - 1
    is_replaced = state.blend == "none" or (state.blend == "over" and shape.vertices[0][6] == renderer.OPAQUE)
    return is_replaced and all(state.write[:3]) and state.depth_test == "always" and state.sample_mask & full == full


class Blocks(Samples):
    """Samples of a canvas of whole tiles, whose blocks are kept in ways. `counted` has how often each way was taken.
    Mutants of it give one method another body."""

    def __init__(self, scene: Scene) -> None:
        self.counted: Counter[str] = Counter()
        self.pairs: dict[At, Pair] = {}
        # Blocks of two samples. A block of one is any that is kept in no other way, and is all the same.
        self.flats: dict[At, Flat] = {}
        # Blocks of three samples or four.
        self.fours: dict[At, Four] = {}
        # The blocks with planes of their own.
        self.own: set[At] = set()
        # The rows and columns of tiles that are as they were cleared, or were drawn whole since.
        self.cleared: set[At] = set()
        # The columns of blocks that the polygon can meet which is drawn.
        self.columns: set[int] = set()
        super().__init__(scene)

    # ---- Calls but polygons

    def clear(self, call: Clear) -> None:
        self.pairs, self.flats, self.fours, self.own = {}, {}, {}, set()
        self.cleared = set(tiles_of((slice(0, self.frame.height), slice(0, self.frame.width))))
        super().clear(call)

    def store(self, call: Picture) -> None:
        """A picture of one sample index gives blocks planes of their own, and so does one over other depths."""
        super().store(call)
        self.cleared = set()
        for at in blocks_of((slice(0, self.frame.height), slice(0, self.frame.width))):
            self.free(at)
            self.own.discard(at)
            if not self.is_alike(at):
                self.own.add(at)

    def draw_triangle(self, triangle: renderer.Triangle) -> None:
        _part, place = self.box(triangle)
        self.cleared -= set(tiles_of(place))
        for at in blocks_of(place):
            self.free(at)
            self.own.add(at)
        super().draw_triangle(triangle)

    # ---- Polygons

    def paint(self, place: Place, where: Any, shape: renderer.Triangle) -> None:
        whole = np.zeros(self.values.shape, bool)
        whole[place] = where
        self.columns = {column for _row, column in blocks_of(place)}
        for tile in self.cleared & set(tiles_of(place)):
            if whole[square(tile, TILE)].all():
                self.counted["whole cleared tile"] += 1
            elif whole[square(tile, TILE)].any():
                self.cleared.remove(tile)
        for at in blocks_of(place):
            if (words := whole[square(at)]).any():
                self.paint_block(at, words, shape)

    def paint_block(self, at: At, words: Any, shape: renderer.Triangle) -> None:
        if self.allows(at, shape) and any(
            paint(at, words, shape) for paint in (self.paint_flat, self.paint_four, self.paint_planes)
        ):
            return
        self.counted[f"{self.way(at)} to own"] += 1
        self.free(at)
        self.own.add(at)
        self.values[square(at)][words] = self.merged(self.values[square(at)][words], shape)

    def way(self, at: At) -> str:
        ways = {"own": self.own, "pair": self.pairs, "two samples": self.flats, "four samples": self.fours}
        return next((way for way, blocks in ways.items() if at in blocks), "single")

    def allows(self, at: At, shape: renderer.Triangle) -> bool:
        """Whether the state lets all samples of the block's tile be drawn."""
        state, full = shape.state, (1 << self.frame.samples) - 1
        left, top = (at[1 - k] * BLOCK // TILE * TILE + self.frame.origin[k] for k in range(2))
        holds = state.scissor[0] <= left and state.scissor[1] <= top
        holds = holds and left + TILE <= state.scissor[2] and top + TILE <= state.scissor[3]
        return holds and state.sample_mask & full == full

    def paint_flat(self, at: At, words: Any, shape: renderer.Triangle) -> bool:
        """Whether the block had one sample or two, and has no more now."""
        flat = self.flat_of(at)
        if self.frame.samples < 4 or flat is None:
            return False
        first, second = self.drawn(flat, shape)
        if first != second:
            self.counted["both samples"] += bool(words.all())
            return bool(words.all()) and self.put_flat(at, Flat(first, second, flat.masks))
        if words.all():
            self.counted["one sample"] += 1
            return self.put_flat(at, Flat(first, first, flat.masks & False))
        if self.holds(words, flat.masks):
            self.counted["second sample replaced"] += 1
            return self.put_flat(at, Flat(flat.first, first, words))
        if flat.first == first or (words | flat.masks).all():
            self.counted["first sample extended" if flat.first == first else "first sample replaced"] += 1
            return self.put_flat(at, Flat(first, flat.second, self.rest(flat.masks, words)))
        if flat.second == first:
            self.counted["second sample extended"] += 1
            return self.put_flat(at, Flat(flat.first, first, self.joined(flat.masks, words)))
        return False

    def flat_of(self, at: At) -> Flat | None:
        if at in self.flats:
            return self.flats[at]
        found = self.values[square(at)]
        if self.way(at) != "single" or not self.is_uniform(found):
            return None
        return Flat(found[0, 0, 0], found[0, 0, 0], np.zeros(found.shape, bool))

    def is_uniform(self, found: Any) -> bool:
        return bool((found == found[0, 0, 0]).all())

    def drawn(self, flat: Flat, shape: renderer.Triangle) -> tuple[Any, Any]:
        """What the shape makes of the two samples."""
        first, second = self.merged(np.array([flat.first, flat.second]), shape)
        return first, second

    def put_flat(self, at: At, flat: Flat) -> bool:
        self.free(at)
        if flat.masks.any():
            self.flats[at] = flat
        self.values[square(at)] = np.where(self.seen(flat.masks), flat.second, flat.first)
        return True

    def paint_four(self, at: At, words: Any, shape: renderer.Triangle) -> bool:
        """Whether the block had up to four samples, and has no more now."""
        four, way = self.four_of(at), self.way(at)
        if self.frame.samples < 4 or four is None or self.is_of_a_crowd():
            return False
        changed = self.gathered(self.groups(four, words, self.drawn_four(four, shape)), four.numbers.shape)
        if len(changed.samples) > FEW:
            self.counted["fifth sample"] += 1
            return False
        self.put_four(at, changed)
        self.counted[f"{way} to {self.way(at)}"] += 1
        return True

    def is_of_a_crowd(self) -> bool:
        """Whether the polygon is so small that blocks with four samples a pixel are expected to get a fifth sample."""
        return self.frame.samples == 4 and len(self.columns) < 4

    def four_of(self, at: At) -> Four | None:
        flat = self.flat_of(at)
        if flat is None:
            return self.fours.get(at)
        return Four([flat.first, flat.second], flat.masks.astype(int))

    def drawn_four(self, four: Four, shape: renderer.Triangle) -> list[int]:
        """What the shape makes of the samples of a block."""
        drawn: list[int] = self.merged(np.array(four.samples), shape).tolist()
        return drawn

    def groups(self, four: Four, words: Any, drawn: list[int]) -> Iterator[tuple[Any, int]]:
        """Of each number which samples of the block stay, and which are drawn, with what they are then."""
        for number, sample in enumerate(four.samples):
            found = four.numbers == number
            yield found & ~words, sample
            yield found & words, drawn[number]

    def gathered(self, groups: Iterator[tuple[Any, int]], shape: tuple[int, ...]) -> Four:
        """The samples of the groups that are not empty, which may be more than four."""
        four = Four([], np.zeros(shape, int))
        for found, sample in groups:
            if found.any():
                four.numbers[found] = self.number(four.samples, sample)
        return four

    def number(self, samples: list[int], sample: int) -> int:
        """The number of a sample among these, to which it is added if it is none of them."""
        if sample not in samples:
            samples.append(sample)
        return samples.index(sample)

    def put_four(self, at: At, four: Four) -> None:
        if (four.numbers < 2).all():
            self.put_flat(at, Flat(four.samples[0], four.samples[-1], four.numbers == 1))
            return
        self.free(at)
        self.fours[at] = four
        self.values[square(at)] = np.array(four.samples)[self.numbered(four.numbers)]

    def numbered(self, numbers: Any) -> Any:
        """The numbers as they are read."""
        return numbers

    def paint_planes(self, at: At, words: Any, shape: renderer.Triangle) -> bool:
        """Whether the block was drawn in one plane or two. A block of few samples is not: it is drawn in these wherever
        it is covered whole."""
        is_full = words.all()
        if is_full and at not in self.pairs and self.has_one_plane(at, shape):
            plane = self.values[square(at)][..., 0]
            self.put_single(at, self.merged(plane.ravel(), shape).reshape(plane.shape))
            return True
        if self.frame.samples >= 4 and self.paint_as_pair(at, words, shape):
            return True
        if is_full and at in self.pairs:
            self.counted["both planes"] += 1
            self.paint_both(at, shape)
            return True
        return False

    def has_one_plane(self, at: At, shape: renderer.Triangle) -> bool:
        """Whether one plane stands for all samples, or can where the shape replaces the colours."""
        if at not in self.own:
            return True
        if not replaces_colours(shape, self.frame.samples) or not self.has_same_depths(at):
            return False
        self.counted["own to single"] += 1
        return True

    def has_same_depths(self, at: At) -> bool:
        beside = self.values[square(at)] & BESIDE_COLOURS
        return bool((beside == beside[..., :1]).all())

    def paint_as_pair(self, at: At, words: Any, shape: renderer.Triangle) -> bool:
        if at not in self.pairs:
            if self.way(at) != "single":
                return False
            first = self.values[square(at)][..., 0].copy()
            self.counted["single to pair"] += 1
            self.put_pair(at, Pair(first, self.plane(first, shape), words))
            return True
        pair = self.pairs[at]
        if not self.replaces_pair(pair, shape):
            return False
        return self.replace_in_pair(at, words, self.plane(pair.first, shape))

    def replaces_pair(self, pair: Pair, shape: renderer.Triangle) -> bool:
        """Whether one colour, depth and alpha come in place of those of samples of either plane."""
        is_same = bool(((pair.first ^ pair.second) & BESIDE_COLOURS == 0).all())
        return is_same and replaces_colours(shape, self.frame.samples)

    def replace_in_pair(self, at: At, words: Any, plane: Any) -> bool:
        pair = self.pairs[at]
        if words.all():
            self.counted["pair to single"] += 1
            self.put_single(at, plane)
        elif self.holds(words, pair.masks):
            self.counted["second plane replaced"] += 1
            self.put_pair(at, Pair(pair.first, plane, words))
        elif (words | pair.masks).all():
            self.counted["first plane replaced"] += 1
            self.put_pair(at, Pair(plane, pair.second, self.rest(pair.masks, words)))
        elif (plane == pair.second).all():
            self.counted["second plane extended"] += 1
            self.put_pair(at, Pair(pair.first, plane, self.joined(pair.masks, words)))
        else:
            return False
        return True

    def holds(self, words: Any, masks: Any) -> bool:
        """Whether all samples of the second plane are replaced."""
        return bool((words | ~masks).all())

    def rest(self, masks: Any, words: Any) -> Any:
        """The samples that stay in the second plane."""
        return masks & ~words

    def joined(self, masks: Any, words: Any) -> Any:
        """The samples of the second plane once these are drawn in its colour too."""
        return masks | words

    def paint_both(self, at: At, shape: renderer.Triangle) -> None:
        first, second, masks = self.pairs[at]
        self.put_pair(at, Pair(self.plane(first, shape), self.plane(second, shape), masks))

    # ---- Planes

    def plane(self, plane: Any, shape: renderer.Triangle) -> Any:
        return self.merged(plane.ravel(), shape).reshape(plane.shape)

    def put_single(self, at: At, plane: Any) -> None:
        self.free(at)
        self.own.discard(at)
        self.values[square(at)] = plane[..., None]

    def put_pair(self, at: At, pair: Pair) -> None:
        self.pairs[at] = pair
        self.values[square(at)] = np.where(self.seen(pair.masks), pair.second[..., None], pair.first[..., None])

    def seen(self, masks: Any) -> Any:
        """The masks as they are read."""
        return masks

    def free(self, at: At) -> None:
        """The block is no pair any more, nor of few samples; its samples are those that were read of it."""
        self.pairs.pop(at, None)
        self.flats.pop(at, None)
        self.fours.pop(at, None)

    def is_alike(self, at: At) -> bool:
        found = self.values[square(at)]
        return bool((found == found[..., :1]).all())


def square(at: At, side: int = BLOCK) -> Place:
    """The pixels of a block, or of another square of this side."""
    return slice(side * at[0], side * at[0] + side), slice(side * at[1], side * at[1] + side)


def blocks_of(place: Place, side: int = BLOCK) -> list[At]:
    """The rows and columns of the blocks that have pixels of a place."""
    rows, columns = (range(part.start // side, -(-part.stop // side)) for part in place)
    return [(row, column) for row in rows for column in columns]


def tiles_of(place: Place) -> list[At]:
    return blocks_of(place, TILE)


# ---- Mutants


class FirstPlaneAlone(Blocks):
    """A polygon that covers a pair is drawn in its first plane alone."""

    def paint_both(self, at: At, shape: renderer.Triangle) -> None:
        first, second, masks = self.pairs[at]
        self.put_pair(at, Pair(self.plane(first, shape), second, masks))


class SecondPlaneAlone(Blocks):
    """A polygon that covers a pair is drawn in its second plane alone."""

    def paint_both(self, at: At, shape: renderer.Triangle) -> None:
        first, second, masks = self.pairs[at]
        self.put_pair(at, Pair(first, self.plane(second, shape), masks))


class MasksTurned(Blocks):
    """The masks of a pair are read in the opposite order of samples."""

    def seen(self, masks: Any) -> Any:
        return masks[..., ::-1]


class MasksSwapped(Blocks):
    """The masks of the last two samples of a pair are read in each other's place."""

    def seen(self, masks: Any) -> Any:
        order = [*range(masks.shape[2] - 2), masks.shape[2] - 1, masks.shape[2] - 2]
        return masks[..., order]


class MasksOfNextRow(Blocks):
    """The mask of the last sample of a pair is a row off."""

    def seen(self, masks: Any) -> Any:
        wrong = masks.copy()
        wrong[1:, :, -1] = masks[:-1, :, -1]
        return wrong


class SingleOverDepths(Blocks):
    """A block with its own planes goes back to one plane though its depths or alphas differ."""

    def has_same_depths(self, at: At) -> bool:
        return True


class SingleOverSecondDepths(Blocks):
    """Only the depths and alphas of the first pixel are compared before a block goes back to one plane."""

    def has_same_depths(self, at: At) -> bool:
        beside = self.values[square(at)][0, 0] & BESIDE_COLOURS
        return bool((beside == beside[0]).all())


class SingleOverAlphas(Blocks):
    """A block with its own planes goes back to one plane though its alphas differ."""

    def has_same_depths(self, at: At) -> bool:
        depths = self.values[square(at)] >> DEPTH_SHIFT
        return bool((depths == depths[..., :1]).all())


class PairOverDepths(Blocks):
    """A colour replaces samples of a pair though the depths or the alphas of its planes differ."""

    def replaces_pair(self, pair: Pair, shape: renderer.Triangle) -> bool:
        return replaces_colours(shape, self.frame.samples)


class PairOverBlending(Blocks):
    """A colour that is blended, tested or kept in part replaces samples of a pair."""

    def replaces_pair(self, pair: Pair, shape: renderer.Triangle) -> bool:
        return bool(((pair.first ^ pair.second) & BESIDE_COLOURS == 0).all())


class ThirdColourLost(Blocks):
    """The second plane of a pair is replaced though not all of its samples are covered."""

    def holds(self, words: Any, masks: Any) -> bool:
        return True


class MasksLeft(Blocks):
    """The masks of a pair are left as they are where its first plane is replaced."""

    def rest(self, masks: Any, words: Any) -> Any:
        return masks


class SecondPlaneShrunk(Blocks):
    """Only what is drawn last is in the second plane, though what it had before is of the same colour."""

    def joined(self, masks: Any, words: Any) -> Any:
        return words


class SecondSampleLeft(Blocks):
    """A polygon that covers a block of two samples is drawn at the first of them alone."""

    def drawn(self, flat: Flat, shape: renderer.Triangle) -> tuple[Any, Any]:
        first, second = super().drawn(flat, shape)
        return first, second if flat.first == flat.second else flat.second


class SamplesAlike(Blocks):
    """What a polygon makes of the first sample of a block is taken for what it makes of the second."""

    def drawn(self, flat: Flat, shape: renderer.Triangle) -> tuple[Any, Any]:
        first, _second = super().drawn(flat, shape)
        return first, first


class PixelsAlike(Blocks):
    """A block whose first two pixels are the same is taken for one of one sample."""

    def is_uniform(self, found: Any) -> bool:
        return bool((found[0, :2] == found[0, 0, 0]).all())


class FourthAsFirst(Blocks):
    """The first sample of a block is read where the fourth is due."""

    def numbered(self, numbers: Any) -> Any:
        return numbers % (FEW - 1)


class HighMasksForgotten(Blocks):
    """Of the number of a sample the upper bit is not read."""

    def numbered(self, numbers: Any) -> Any:
        return numbers % 2


class ThirdAsSecond(Blocks):
    """What a polygon makes of the second sample of a block is taken for what it makes of the third."""

    def drawn_four(self, four: Four, shape: renderer.Triangle) -> list[int]:
        drawn = super().drawn_four(four, shape)
        return [*drawn[:2], *drawn[1:2], *drawn[3:]]


class FifthAsFourth(Blocks):
    """A fifth sample takes the place of the fourth."""

    def number(self, samples: list[int], sample: int) -> int:
        if sample not in samples:
            del samples[FEW - 1 :]
        return super().number(samples, sample)


class FourthKeptAsThird(Blocks):
    """What is not drawn of the fourth sample of a block becomes the third."""

    def groups(self, four: Four, words: Any, drawn: list[int]) -> Iterator[tuple[Any, int]]:
        third = [sample for sample in four.samples[2:3] if len(four.samples) == FEW]
        return super().groups(four._replace(samples=[*four.samples[: FEW - 1], *third]), words, drawn)


class SampleOfPair(Blocks):
    """A picture of one sample of a pixel becomes that of all samples of a pair's plane."""

    def store(self, call: Picture) -> None:
        pairs = dict(self.pairs)
        super().store(call)
        if call.sample is not None:
            for at, pair in pairs.items():
                wrong = self.values[square(at)]
                wrong[...] = np.where(pair.masks, wrong, wrong[..., call.sample, None])


class PixelsWhole(Blocks):
    """A pixel of which one sample is covered is drawn whole where one plane stands for it."""

    def paint_planes(self, at: At, words: Any, shape: renderer.Triangle) -> bool:
        return super().paint_planes(at, words.any(2, keepdims=True) | np.zeros(words.shape, bool), shape)


class MaskOverlooked(Blocks):
    """The sample mask of polygons is overlooked."""

    def draw_polygon(self, polygon: Polygon, rule: str, shape: renderer.Triangle) -> None:
        every = replace(shape.state, sample_mask=renderer.CANVAS.mask)
        super().draw_polygon(polygon, rule, replace(shape, state=every))

class RowsReversed(Samples):
    """The polygons of a call are drawn in the opposite order in the second tile row."""

    def draw_polygons(self, call: Polygons) -> None:
        before = self.values.copy()
        for number in reversed(range(len(call.polygons))):
            self.draw_polygon(call.polygons[number], call.rule, self.shape(call, number))
        wrong, self.values = self.values[TILE : 2 * TILE], before
        super().draw_polygons(call)
        self.values[TILE : 2 * TILE] = wrong


class LargeFirst(Samples):
    """A polygon of many corners is drawn before the small ones of its call."""

    def draw_polygons(self, call: Polygons) -> None:
        large = [sum(map(len, polygon)) > FEW_CORNERS for polygon in call.polygons]
        for number in sorted(range(len(large)), key=lambda number: not large[number]):
            self.draw_polygon(call.polygons[number], call.rule, self.shape(call, number))


class LargeLeftOut(Samples):
    """The small polygon behind one of many corners is left out."""

    def draw_polygons(self, call: Polygons) -> None:
        large = [False, *(sum(map(len, polygon)) > FEW_CORNERS for polygon in call.polygons)]
        for number in range(len(call.polygons)):
            if not large[number]:
                self.draw_polygon(call.polygons[number], call.rule, self.shape(call, number))


MUTANTS: tuple[type[Samples], ...] = (
    FirstPlaneAlone, SecondPlaneAlone, MasksTurned, MasksSwapped, MasksOfNextRow, SingleOverDepths,
    SingleOverSecondDepths, SingleOverAlphas, PairOverDepths, PairOverBlending, ThirdColourLost, MasksLeft,
    SecondPlaneShrunk, SecondSampleLeft, SamplesAlike, PixelsAlike, FourthAsFirst, HighMasksForgotten, ThirdAsSecond,
    FifthAsFourth, FourthKeptAsThird, SampleOfPair, PixelsWhole, MaskOverlooked, RowsReversed, LargeFirst, LargeLeftOut,
)


def of_whole_tiles(scene: Scene) -> Scene:
    """The scene on a canvas of whole tiles, whose pictures repeat their last pixels there."""
    width, height = (-(-side // TILE) * TILE for side in (scene.width, scene.height))

    def widened(call: Call) -> Call:
        if not isinstance(call, Picture):
            return call
        rows = [row + row[-1:] * (width - len(row)) for row in call.pixels]
        return replace(call, pixels=rows + rows[-1:] * (height - len(rows)))

    return replace(scene, width=width, height=height, calls=[widened(call) for call in scene.calls])


def drawn(scene: Scene, kind: type[Samples] = Samples) -> tuple[Samples, list[Any]]:
    """A canvas of a kind and of whole tiles, and the values of the scene's own samples after each call."""
    wide = of_whole_tiles(scene)
    samples, values = kind(wide), []
    for call in wide.calls:
        samples.draw(call)
        values.append(samples.values[: scene.height, : scene.width].copy())
    return samples, values
