"""OpenGL without a window: Mesa's or another vendor's EGL and OpenGL, called by ctypes.

The names are those of the OpenGL and EGL headers without their prefix. `open_driver` gives OpenGL's functions.
"""

from __future__ import annotations

import ctypes
import os
from typing import Any, Callable

# EGL
PLATFORM_SURFACELESS_MESA = 0x31DD
OPENGL_API = 0x30A2
RENDERABLE_TYPE, OPENGL_BIT, SURFACE_TYPE, PBUFFER_BIT, NONE = 0x3040, 8, 0x3033, 1, 0x3038

# OpenGL: what is asked of a driver
VENDOR, RENDERER, VERSION = 0x1F00, 0x1F01, 0x1F02
SUBPIXEL_BITS, MAX_SAMPLES, MAX_VIEWPORT_DIMS, SAMPLES, SAMPLE_POSITION = 0x0D50, 0x8D57, 0x0D3A, 0x80A9, 0x8E50

# OpenGL: frames
FRAMEBUFFER, READ_FRAMEBUFFER, DRAW_FRAMEBUFFER, RENDERBUFFER = 0x8D40, 0x8CA8, 0x8CA9, 0x8D41
COLOR_ATTACHMENT0, DEPTH_ATTACHMENT, FRAMEBUFFER_COMPLETE = 0x8CE0, 0x8D00, 0x8CD5
RGBA8, DEPTH_COMPONENT16, DEPTH_COMPONENT24, RGBA = 0x8058, 0x81A5, 0x81A6, 0x1908
COLOR_BUFFER_BIT, DEPTH_BUFFER_BIT, NEAREST = 0x4000, 0x100, 0x2600

# OpenGL: drawing
TRIANGLES, FLOAT, UNSIGNED_BYTE, UNSIGNED_INT = 4, 0x1406, 0x1401, 0x1405
VERTEX_ARRAY, COLOR_ARRAY, FLAT, SMOOTH, DITHER = 0x8074, 0x8076, 0x1D00, 0x1D01, 0x0BD0
BLEND, SRC_ALPHA, ONE_MINUS_SRC_ALPHA = 0x0BE2, 0x0302, 0x0303
CULL_FACE, CULLED = 0x0B44, {"front": 0x0404, "back": 0x0405}
DEPTH_TEST = 0x0B71
DEPTH_FUNCTIONS = {
    "never": 0x0200,
    "less": 0x0201,
    "equal": 0x0202,
    "less_equal": 0x0203,
    "greater": 0x0204,
    "not_equal": 0x0205,
    "greater_equal": 0x0206,
    "always": 0x0207,
}
SCISSOR_TEST, MULTISAMPLE, SAMPLE_MASK, SAMPLE_SHADING = 0x0C11, 0x809D, 0x8E51, 0x8C36


# What Mesa reads when its library is loaded, for each of its drivers that can be asked for by name.
MESA = {
    "llvmpipe": {"LIBGL_ALWAYS_SOFTWARE": "1", "GALLIUM_DRIVER": "llvmpipe"},
    "zink": {"LIBGL_ALWAYS_SOFTWARE": "1", "GALLIUM_DRIVER": "zink", "MESA_LOADER_DRIVER_OVERRIDE": "zink"},
}


class Unavailable(Exception):
    """There is no OpenGL of the kind that was asked for."""


def load(names: list[str]) -> ctypes.CDLL:
    """The first of these libraries that is there."""
    for name in names:
        try:
            return ctypes.CDLL(name)
        except OSError:
            continue
    raise Unavailable(f"none of these libraries is here: {', '.join(names)}")


def open_display(egl: ctypes.CDLL) -> ctypes.c_void_p:
    """Mesa's display without a window, or the default one, which other vendors give if there is no window system."""
    egl.eglGetPlatformDisplay.restype = egl.eglGetDisplay.restype = ctypes.c_void_p
    asked: tuple[Callable[[], Any], ...] = (
        lambda: egl.eglGetPlatformDisplay(PLATFORM_SURFACELESS_MESA, None, None),
        lambda: egl.eglGetDisplay(None),
    )
    for ask in asked:
        display = ctypes.c_void_p(ask())
        if display and egl.eglInitialize(display, None, None):
            return display
    raise Unavailable("EGL has no display without a window")


def make_current(egl: ctypes.CDLL) -> None:
    """Makes a context of OpenGL without a surface current on this thread."""
    display = open_display(egl)
    if not egl.eglBindAPI(OPENGL_API):
        raise Unavailable("EGL has no OpenGL")
    egl.eglCreateContext.restype = ctypes.c_void_p
    asked = (ctypes.c_int * 5)(SURFACE_TYPE, PBUFFER_BIT, RENDERABLE_TYPE, OPENGL_BIT, NONE)
    config, found = ctypes.c_void_p(), ctypes.c_int()
    egl.eglChooseConfig(display, asked, ctypes.byref(config), 1, ctypes.byref(found))
    context = ctypes.c_void_p(egl.eglCreateContext(display, config, None, None))
    if not found.value or not egl.eglMakeCurrent(display, None, None, context):
        raise Unavailable("EGL gives no context of OpenGL")


def open_library() -> ctypes.CDLL:
    """OpenGL's functions, with a context current."""
    make_current(load(["libEGL.so.1"]))
    library = load(["libOpenGL.so.0", "libGL.so.1"])
    library.glGetString.restype = ctypes.c_char_p
    library.glClearColor.argtypes = [ctypes.c_float] * 4
    library.glClearDepth.argtypes = [ctypes.c_double]
    library.glMinSampleShading.argtypes = [ctypes.c_float]
    return library


def open_driver(kind: str) -> ctypes.CDLL:
    """OpenGL's functions by a driver of Mesa, or for any other name by the machine's own choice.

    Raises `Unavailable` if there is no OpenGL, or if Mesa takes another driver.
    """
    os.environ.update(MESA.get(kind, {}))
    library = open_library()
    renderer = text(library, RENDERER)
    if kind in MESA and not renderer.startswith(kind):
        raise Unavailable(f"the renderer is {renderer}")
    return library


def text(library: ctypes.CDLL, name: int) -> str:
    found: bytes = library.glGetString(name)
    return found.decode()


def integers(library: ctypes.CDLL, name: int, count: int = 1) -> list[int]:
    values = (ctypes.c_int * count)()
    library.glGetIntegerv(name, values)
    return list(values)


def switch(library: ctypes.CDLL, capability: int, wanted: bool) -> None:
    (library.glEnable if wanted else library.glDisable)(capability)
