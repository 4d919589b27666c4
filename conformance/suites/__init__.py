"""The lists that a driver is asked, by subject. A seed gives the same lists each time."""

from __future__ import annotations

import random
from dataclasses import dataclass, replace
from typing import Callable

from conformance.suites.setting import PLAIN, Setting
from conformance.suites import blends, coverage, depth_ends, planes, primitives, states, values
from conformance.suites.shapes import Lists, coarser, colours_of_steps
from tests.reference.renderer import CANVAS, LIST

# A viewport that holds every vertex of most lists, so that nothing is clipped.
WIDE = Setting(viewport=2048)


@dataclass(frozen=True)
class Suite:
    """One subject: its lists for a number of samples, the settings under which they are drawn in turn, and
    what agreement means.

    An exact subject asks for equal samples, any other for near ones: the specification of the interface allows the
    differences `tolerances`, in 1/255 of a channel, for each of `samples`, or it gives none. With `has_alpha` alpha is
    compared as a channel too.
    """

    name: str
    title: str
    make: Callable[[random.Random, int], Lists]
    samples: tuple[int, ...] = (1, 4)
    exact: bool = True
    settings: tuple[Setting, ...] = (PLAIN,)
    tolerances: tuple[int, ...] = ()
    has_alpha: bool = False

    def setting(self, number: int) -> Setting:
        """The setting of the list with this index."""
        return self.settings[number % len(self.settings)]

    def tolerance(self, samples: int) -> int | None:
        return self.tolerances[self.samples.index(samples)] if self.tolerances else None

    def lists(self, samples: int, bits: int = 8) -> Lists:
        """Pairs of a list's title and the list, its positions rounded to this number of subpixel bits. Every tenth list
        comes first, so that the first tenth of a subject has something of all its parts."""
        made = list(self.make(random.Random(f"{self.make.__name__} {samples}"), samples))
        for first in range(10):
            for title, listed in made[first::10]:
                shares = colours_of_steps(listed, samples) if self.exact and samples > 4 else listed
                yield title, shares if bits == 8 else coarser(shares, bits)

    def tenth(self, samples: int) -> int:
        """How many lists are the first tenth, rounded up."""
        return -(-sum(1 for _ in self.lists(samples)) // 10)


# The numbers of samples that a canvas may have, and no draw list.
PATTERNS = tuple(count for count in CANVAS.counts if count not in LIST.counts)

BASIC = (
    Suite("top-left", "Top-left rule", coverage.top_left),
    Suite("shared-edges", "Shared edges and fans", coverage.shared_edges),
    Suite("slivers", "Slivers and areas of zero", coverage.slivers),
    Suite("sample-positions", "Sample positions", coverage.sample_positions),
    Suite("subpixel-bits", "Subpixel bits", coverage.subpixel_bits, (1,)),
    Suite("border", "Triangles past the border, clipped by no viewport", coverage.border, settings=(WIDE,)),
    Suite("viewport", "Triangles past the border, the picture as viewport", coverage.border),
    Suite("guard-band", "Guard band and far vertices", coverage.guard_band),
    Suite("culling", "Culling", states.culling),
    Suite("scissor", "Scissor", states.scissor),
    Suite("scissored-edges", "Scissor across slanted edges", states.scissored_edges),
    Suite("sample-mask", "Sample mask", states.sample_mask, (4,)),
    Suite("depth-tests", "Depth tests", states.depth_tests),
    Suite("write-mask", "Write mask", states.write_mask),
    Suite("order", "Order of triangles", states.order),
    Suite("colours", "Colours at samples", values.colours, exact=False, settings=(WIDE,)),
    Suite("blending", "Blending", values.blending, exact=False, settings=(WIDE,)),
    Suite("depths", "Depths at samples", values.depths, exact=False, settings=(WIDE,)),
    Suite("resolve", "Resolve", values.resolve, (4,), exact=False),
)
# What every interface is asked since the suite knows blend equations, strips and depths past their ends. One blend
# differs by at most 1 where the specification leaves its rounding open; layers and the mean of four samples add up.
MORE = (
    Suite("steep-depths", "Depths of steep planes", planes.steep_depths, settings=(WIDE,)),
    Suite(
        "float-planes", "Planes finer than depths of 16 bits", planes.float_planes,
        settings=(replace(WIDE, depth_bits=32),),
    ),
    Suite("depth-ends", "Depths at their ends and past them", depth_ends.depth_ends, settings=(Setting(beyond="cut"),)),
    Suite("leading-vertex", "Flat colours of the first vertex", planes.leading_colours, settings=(Setting(leading=0),)),
    Suite("strips", "Triangle strips", primitives.strips, settings=(replace(WIDE, leading=0, strips=True),)),
    Suite("large-scissors", "Scissors far past the picture", primitives.large_scissors),
    Suite(
        "blend-table", "Blending, every alpha over every value", planes.blend_table, (1,), exact=False, tolerances=(1,)
    ),
    Suite("equations", "Blend equations", blends.equations, (1,), exact=False, tolerances=(1,), has_alpha=True),
    Suite(
        "layered-alpha", "Alpha of blended layers", blends.layered_alpha, exact=False, tolerances=(4, 5), has_alpha=True
    ),
)
FLOAT_DEPTHS = Suite(
    "float-depths", "Depth tests, depths of 32 bits", states.depth_tests, settings=(Setting(depth_bits=32),)
)
OPENGL = (*BASIC, FLOAT_DEPTHS, *MORE)

# In one channel of a pixel. Direct3D rounds to the nearest integer, and allows 0.6 of a unit in a conversion
# (D3D11_FLOAT32_TO_INTEGER_TOLERANCE_IN_ULP) where the rules round a colour down, and a blend and a resolve to the
# nearest. A colour or a depth differs so by at most 1. Of four samples the mean and its rounding add 1.1. A blend adds
# 1.1 to what was stored, and 2 more if colour and alpha are interpolated: lists have up to 16 layers without
# interpolation and up to 8 with it.
TOLERANCES = {"colours": (1, 2), "blending": (24, 25), "depths": (1, 2), "resolve": (1,)}
FRACTIONS = ((1, 0), (0, 1), (128, 128), (255, 77), (37, 200), (96, 32))

# What Direct3D is asked, and OpenGL is not.
MORE_OF_DIRECT3D = (
    Suite(
        "anticlockwise", "Culling, anticlockwise in front", states.culling,
        settings=(Setting(anticlockwise_front=True),),
    ),
    Suite("mask-of-one", "Sample mask with one sample", states.sample_mask, (1,)),
    Suite(
        "fraction", "Viewport with a fraction", coverage.shared_edges,
        settings=tuple(Setting(moved=by) for by in FRACTIONS),
    ),
    Suite(
        "negative-fraction", "Viewport with a negative fraction", coverage.shared_edges,
        settings=tuple(Setting(WIDE.viewport, (-x, -y)) for x, y in FRACTIONS),
    ),
    FLOAT_DEPTHS,
    Suite("clear", "Clear colours", states.clear, (1,)),
    Suite("one-layer", "Blending, one layer", values.one_layer, (1,), exact=False, tolerances=(1,)),
)
PERSPECTIVE = replace(WIDE, perspective=True)
# Of other counts of samples, where a device has them.
OTHER_COUNTS = (
    Suite("pattern-positions", "Sample positions, other counts", coverage.sample_positions, PATTERNS),
    Suite("pattern-edges", "Top-left rule, other counts", coverage.top_left, PATTERNS),
    Suite("pattern-scissor", "Scissor, other counts", states.scissor, PATTERNS),
)
DIRECT3D = (
    *(replace(suite, tolerances=TOLERANCES.get(suite.name, ())) for suite in BASIC),
    *MORE_OF_DIRECT3D,
    *MORE,
    Suite("perspective-edges", "Shared edges in perspective", coverage.shared_edges, settings=(PERSPECTIVE,)),
    Suite("perspective-depths", "Depths of steep planes in perspective", planes.steep_depths, settings=(PERSPECTIVE,)),
    *OTHER_COUNTS,
)
VULKAN = DIRECT3D

NOT_AT_SAMPLES = (
    ("interpolation at a centroid", "each interface lets a driver choose the place"),
    ("interpolation at the centre of a pixel with several samples", "the rules take each value at its sample"),
)
OPENGL_LEFT_OUT = (
    *NOT_AT_SAMPLES,
    ("sample mask with one sample", "OpenGL ignores the mask where a frame has one sample"),
    ("a scissor that runs backwards", "OpenGL takes a width and a height; an empty box stands in its place"),
    ("positions finer than 1/256 pixel", "a list has none, so more than 8 subpixel bits would be reported as 8"),
    ("a stored depth itself", "it is read through depth tests, on a ladder of flat layers"),
    ("the place of the resolve's rounding", "colours are compared after the resolve, in 1/255 of a channel"),
    ("pictures whose size is no power of two", "a driver's floats would round the positions before it sees them"),
    ("refused lists and the picture's file", "OpenGL has neither"),
)
VULKAN_LEFT_OUT = (
    *NOT_AT_SAMPLES,
    ("a scissor that runs backwards", "Vulkan takes a width and a height; an empty box stands in its place"),
    OPENGL_LEFT_OUT[4], *OPENGL_LEFT_OUT[6:-1],
    ("refused lists and the picture's file", "Vulkan has neither"),
)
DIRECT3D_LEFT_OUT = (
    *NOT_AT_SAMPLES,
    ("a scissor that runs backwards", "Direct3D does not say what such a rectangle holds"),
    *OPENGL_LEFT_OUT[4:-1],
    ("refused lists and the picture's file", "Direct3D has neither"),
)
