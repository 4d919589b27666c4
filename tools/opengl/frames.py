"""Frames, meshes and states by which OpenGL draws a list.

A list's row j is laid on row j of an offscreen frame, so that a list's top row is the frame's row 0. That turns the
sense of a triangle twice, and front stays front. Colours are RGBA8.
"""

from __future__ import annotations

import ctypes
from array import array
from dataclasses import dataclass
from typing import Any, Sequence

from tools.draw_list import Draw, triangles_of
from tools.opengl import gl


class NoFrame(Exception):
    """The driver has no frame of this size and number of samples."""


def address(numbers: array[Any]) -> ctypes.c_void_p:
    return ctypes.c_void_p(numbers.buffer_info()[0])


def set_up(library: ctypes.CDLL) -> None:
    """Sets what is the same for every draw."""
    library.glDisable(gl.DITHER)
    library.glBlendFunc(gl.SRC_ALPHA, gl.ONE_MINUS_SRC_ALPHA)
    library.glMinSampleShading(1.0)
    library.glEnable(gl.MULTISAMPLE)
    for name in (gl.VERTEX_ARRAY, gl.COLOR_ARRAY):
        library.glEnableClientState(name)


@dataclass(frozen=True)
class Viewport:
    """The pixels to which clip coordinates from -1 to 1 are stretched; the picture lies in their middle."""

    left: int
    top: int
    width: int
    height: int

    @classmethod
    def around(cls, width: int, height: int, size: int | None = None) -> Viewport:
        """The picture itself, or a square of this width and height around it."""
        if size is None:
            return cls(0, 0, width, height)
        return cls(-((size - width) // 2), -((size - height) // 2), size, size)

    def clip_coordinates(self, x: int, y: int) -> tuple[float, float]:
        """The clip coordinates of a position in 1/256 pixel."""
        return (x - 256 * self.left) / 128 / self.width - 1, (y - 256 * self.top) / 128 / self.height - 1


class Mesh:
    """A draw's vertices in clip coordinates, its colours and its indices, as OpenGL reads them."""

    def __init__(self, draw: Draw, viewport: Viewport) -> None:
        self.positions, self.colours, self.indices = array("f"), array("B"), array("I")
        for x, y, z, *colour in draw["vertices"]:
            self.positions.extend((*viewport.clip_coordinates(x, y), z * 2 / 65535 - 1))
            self.colours.extend(colour)
        for triangle in triangles_of(draw):
            self.indices.extend(triangle)

    def draw(self, library: ctypes.CDLL) -> None:
        library.glVertexPointer(3, gl.FLOAT, 0, address(self.positions))
        library.glColorPointer(4, gl.UNSIGNED_BYTE, 0, address(self.colours))
        library.glDrawElements(gl.TRIANGLES, len(self.indices), gl.UNSIGNED_INT, address(self.indices))


@dataclass(frozen=True)
class DrawState:
    """The state of a draw, with the format's defaults for the keys that it leaves out."""

    cull: str
    depth_test: str
    depth_write: bool
    is_blended: bool
    write: Sequence[bool]
    sample_mask: int
    scissor: Sequence[int] | None

    @classmethod
    def of(cls, draw: Draw) -> DrawState:
        return cls(
            cull=draw.get("cull", "none"),
            depth_test=draw.get("depth_test", "always"),
            depth_write=draw.get("depth_write", False),
            is_blended=draw.get("blend", "none") == "over",
            write=draw.get("write", (True, True, True)),
            sample_mask=draw.get("sample_mask", 15),
            scissor=draw.get("scissor"),
        )

    def set(self, library: ctypes.CDLL, samples: int) -> None:
        """Sets the state for a frame with this number of samples. OpenGL has no sample mask for one sample."""
        # Without the test depths are not stored either.
        gl.switch(library, gl.DEPTH_TEST, self.depth_test != "always" or self.depth_write)
        library.glDepthFunc(gl.DEPTH_FUNCTIONS[self.depth_test])
        library.glDepthMask(int(self.depth_write))
        gl.switch(library, gl.CULL_FACE, self.cull != "none")
        if self.cull != "none":
            library.glCullFace(gl.CULLED[self.cull])
        gl.switch(library, gl.BLEND, self.is_blended)
        library.glColorMask(*map(int, self.write), 1)
        gl.switch(library, gl.SAMPLE_MASK, samples > 1 and self.sample_mask != 15)
        library.glSampleMaski(0, self.sample_mask)
        gl.switch(library, gl.SCISSOR_TEST, self.scissor is not None)
        if self.scissor is not None:
            left, top, right, bottom = self.scissor
            library.glScissor(left, top, max(0, right - left), max(0, bottom - top))


class Frames:
    """The frame that is drawn into, with its samples and depths, and the frame of its resolved pixels."""

    def __init__(self, library: ctypes.CDLL, width: int, height: int, samples: int, depth_format: int) -> None:
        self.library, self.width, self.height, self.samples = library, width, height, samples
        names, buffers = (ctypes.c_uint * 2)(), (ctypes.c_uint * 3)()
        library.glGenFramebuffers(2, names)
        library.glGenRenderbuffers(3, buffers)
        self.drawn, self.resolved = names
        several = samples if samples > 1 else 0
        self.attach(self.resolved, gl.COLOR_ATTACHMENT0, buffers[2], gl.RGBA8, 0)
        self.attach(self.drawn, gl.COLOR_ATTACHMENT0, buffers[0], gl.RGBA8, several)
        self.attach(self.drawn, gl.DEPTH_ATTACHMENT, buffers[1], depth_format, several)
        if library.glCheckFramebufferStatus(gl.FRAMEBUFFER) != gl.FRAMEBUFFER_COMPLETE:
            raise NoFrame(f"a frame of {width} by {height} pixels with {samples} samples")
        if gl.integers(library, gl.SAMPLES) != [several]:
            raise NoFrame(f"a frame of just {samples} samples a pixel")
        self.pixels = ctypes.create_string_buffer(4 * width * height)

    def attach(self, frame: int, attachment: int, buffer: int, form: int, samples: int) -> None:
        """Gives a frame a buffer with this format and number of samples."""
        self.library.glBindFramebuffer(gl.FRAMEBUFFER, frame)
        self.library.glBindRenderbuffer(gl.RENDERBUFFER, buffer)
        self.library.glRenderbufferStorageMultisample(gl.RENDERBUFFER, samples, form, self.width, self.height)
        self.library.glFramebufferRenderbuffer(gl.FRAMEBUFFER, attachment, gl.RENDERBUFFER, buffer)

    def begin(self, viewport: Viewport) -> None:
        """Binds the frame that is drawn into."""
        self.library.glBindFramebuffer(gl.FRAMEBUFFER, self.drawn)
        self.library.glViewport(viewport.left, viewport.top, viewport.width, viewport.height)

    def clear(self, colour: Sequence[int], depth: int) -> None:
        """Fills the bound frame with a colour of the format and a depth of 16 bits."""
        for capability in (gl.SCISSOR_TEST, gl.SAMPLE_MASK):
            self.library.glDisable(capability)
        self.library.glColorMask(1, 1, 1, 1)
        self.library.glDepthMask(1)
        self.library.glClearColor(*(channel / 255 for channel in colour), 1.0)
        self.library.glClearDepth(depth / 65535)
        self.library.glClear(gl.COLOR_BUFFER_BIT | gl.DEPTH_BUFFER_BIT)

    def resolve(self) -> None:
        """Writes red, green, blue and alpha of the resolved pixels to `pixels`, row 0 first, and waits
        for the driver."""
        library, box = self.library, (0, 0, self.width, self.height)
        library.glDisable(gl.SCISSOR_TEST)
        library.glColorMask(1, 1, 1, 1)
        library.glBindFramebuffer(gl.READ_FRAMEBUFFER, self.drawn)
        library.glBindFramebuffer(gl.DRAW_FRAMEBUFFER, self.resolved)
        library.glBlitFramebuffer(*box, *box, gl.COLOR_BUFFER_BIT, gl.NEAREST)
        library.glBindFramebuffer(gl.FRAMEBUFFER, self.resolved)
        library.glReadPixels(*box, gl.RGBA, gl.UNSIGNED_BYTE, self.pixels)
        library.glFinish()

    def colours(self) -> bytes:
        """Red, green and blue of the pixels that `resolve` wrote."""
        picture = bytearray(3 * self.width * self.height)
        for channel in range(3):
            picture[channel::3] = self.pixels.raw[channel::4]
        return bytes(picture)
