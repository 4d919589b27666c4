"""The machine's OpenGL driver as a renderer of draw lists.

A draw whose triangles have one colour each, or that of their first vertex, is shaded flat; any other is shaded at each
sample. With `glClipControl` depths reach the driver as they do by Direct3D and Vulkan, from 0 to 1.
"""

from __future__ import annotations

import ctypes
import re
from array import array
from typing import Sequence

from conformance.blending import ADD, MAX, MIN, REVERSE_SUBTRACT, SUBTRACT, Equation, equation_of
from conformance.renderer import Candidate, CannotAsk, require_powers_of_two
from conformance.suites.setting import PLAIN, Setting
from conformance.suites import OPENGL_LEFT_OUT
from conformance.suites.shapes import is_flat
from tools.draw_list import Draw, DrawList
from tools.opengl import gl
from tools.opengl.frames import DrawState, Frames, Mesh, NoFrame, Viewport, address, set_up
from tools.places import text_of


FIRST_VERTEX, LOWER_LEFT, ZERO_TO_ONE = 0x8E4D, 0x8CA1, 0x935F
DEPTH_COMPONENT32F, TRIANGLE_STRIP = 0x8CAC, 5
# OpenGL's numbers of the factors and the operations of an equation.
ROWS_OF_FACTORS = re.findall(
    r"^    ROW\((\d+), \d+, \w+, (\w+)\)", text_of("conformance", "rasterize", "factors.hpp"), re.MULTILINE
)
FACTORS = {int(number): int(opengl, 16) for number, opengl in ROWS_OF_FACTORS}
OPERATIONS = {ADD: 0x8006, SUBTRACT: 0x800A, REVERSE_SUBTRACT: 0x800B, MIN: 0x8007, MAX: 0x8008}


class DirectMesh(Mesh):
    """A mesh whose depths reach from 0 to 1, and whose strips may be drawn as strips."""

    def __init__(self, draw: Draw, viewport: Viewport, draws_strips: bool) -> None:
        super().__init__(draw, viewport)
        self.positions[2::3] = array("f", (vertex[2] / 65535 for vertex in draw["vertices"]))
        self.mode = gl.TRIANGLES
        if draws_strips and "strip" in draw:
            self.mode, self.indices = TRIANGLE_STRIP, array("I", draw["strip"])

    def draw(self, library: ctypes.CDLL) -> None:
        library.glVertexPointer(3, gl.FLOAT, 0, address(self.positions))
        library.glColorPointer(4, gl.UNSIGNED_BYTE, 0, address(self.colours))
        library.glDrawElements(self.mode, len(self.indices), gl.UNSIGNED_INT, address(self.indices))


class Driver:
    """A renderer by the driver of this name, or by the machine's own choice."""

    def __init__(self, kind: str) -> None:
        self.setting = PLAIN
        self.library = gl.open_driver(kind)
        self.name = gl.text(self.library, gl.RENDERER)
        self.frames: dict[tuple[int, int, int, int], Frames] = {}
        set_up(self.library)
        self.library.glBlendColor.argtypes = [ctypes.c_float] * 4
        self.library.glProvokingVertex(FIRST_VERTEX)
        self.library.glClipControl(LOWER_LEFT, ZERO_TO_ONE)
        if self.library.glGetError():
            raise gl.Unavailable("OpenGL 4.5 is needed, for glClipControl")

    def said(self) -> list[tuple[str, str]]:
        asked = (("vendor", gl.VENDOR), ("renderer", gl.RENDERER), ("version", gl.VERSION))
        return [(name, gl.text(self.library, what)) for name, what in asked] + [
            ("subpixel bits", str(gl.integers(self.library, gl.SUBPIXEL_BITS)[0])),
            ("greatest number of samples", str(gl.integers(self.library, gl.MAX_SAMPLES)[0])),
            ("greatest viewport", " by ".join(map(str, gl.integers(self.library, gl.MAX_VIEWPORT_DIMS, 2)))),
            ("positions of four samples, in 1/256 pixel", self.positions_of_four()),
        ]

    def positions_of_four(self) -> str:
        try:
            self.frame(64, 64, 4).begin(Viewport.around(64, 64))
        except CannotAsk:
            return "no frame with four samples"
        positions, pair = [], (ctypes.c_float * 2)()
        for sample in range(4):
            self.library.glGetMultisamplefv(gl.SAMPLE_POSITION, sample, pair)
            positions.append(f"({pair[0] * 256:g}, {pair[1] * 256:g})")
        return ", ".join(positions)

    def left_out(self) -> Sequence[tuple[str, str]]:
        return OPENGL_LEFT_OUT

    def through(self, setting: Setting) -> Candidate:
        self.setting = setting
        return self

    def frame(self, width: int, height: int, samples: int, depth_bits: int = 16) -> Frames:
        """The frame of this size, which is made once. Raises `CannotAsk` if the driver has none."""
        key = (width, height, samples, depth_bits)
        if key not in self.frames:
            try:
                form = gl.DEPTH_COMPONENT16 if depth_bits == 16 else DEPTH_COMPONENT32F
                self.frames[key] = Frames(self.library, width, height, samples, form)
            except NoFrame as error:
                raise CannotAsk(str(error)) from None
        return self.frames[key]

    def picture(self, scene: DrawList) -> bytes:
        return self.drawn(scene).colours()

    def pixels(self, scene: DrawList) -> bytes:
        frames = self.drawn(scene)
        return frames.pixels.raw[: 4 * frames.width * frames.height]

    def drawn(self, scene: DrawList) -> Frames:
        """The frame in which a list was drawn and resolved."""
        width, height, samples = scene["width"], scene["height"], scene.get("samples", 1)
        require_powers_of_two(scene)
        if self.setting.moved != (0, 0) or self.setting.anticlockwise_front or self.setting.perspective:
            raise CannotAsk("another front, perspective, or a viewport that is moved")
        frames = self.frame(width, height, samples, self.setting.depth_bits)
        viewport = Viewport.around(width, height, self.setting.viewport)
        frames.begin(viewport)
        frames.clear(scene.get("clear", (0, 0, 0)), scene.get("clear_depth", 65535))
        if "clear_alpha" in scene:
            self.library.glClearColor(
                *(channel / 255 for channel in (*scene.get("clear", (0, 0, 0)), scene["clear_alpha"]))
            )
            self.library.glClear(gl.COLOR_BUFFER_BIT)
        for draw in scene["draws"]:
            self.set_state(draw, samples)
            self.set_equation(equation_of(draw) if "equation" in draw else None)
            DirectMesh(draw, viewport, self.setting.strips).draw(self.library)
        frames.resolve()
        error = self.library.glGetError()
        if error:
            raise CannotAsk(f"OpenGL's error {error:#x}")
        return frames

    def set_equation(self, equation: Equation | None) -> None:
        """Sets how colours are blended; without an equation as `over`, if the draw's state says so."""
        library = self.library
        if equation is None:
            library.glBlendEquation(OPERATIONS[ADD])
            library.glBlendFunc(gl.SRC_ALPHA, gl.ONE_MINUS_SRC_ALPHA)
            return
        gl.switch(library, gl.BLEND, True)
        library.glBlendEquationSeparate(OPERATIONS[equation.color_operation], OPERATIONS[equation.alpha_operation])
        factors = (equation.color_source, equation.color_stored, equation.alpha_source, equation.alpha_stored)
        library.glBlendFuncSeparate(*(FACTORS[number] for number in factors))
        library.glBlendColor(*(channel / 255 for channel in equation[6:]))

    def set_state(self, draw: Draw, samples: int) -> None:
        state, flat = DrawState.of(draw), self.setting.leading is not None or is_flat(draw)
        if samples == 1 and not state.sample_mask & 1:
            raise CannotAsk("a sample mask with one sample")
        state.set(self.library, samples)
        self.library.glShadeModel(gl.FLAT if flat else gl.SMOOTH)
        gl.switch(self.library, gl.SAMPLE_SHADING, samples > 1 and not flat)
