"""A list as a request: the words that conformance/rasterize/request.hpp reads, and a list of these again."""

from __future__ import annotations

import struct
from itertools import islice
from typing import Iterator, Sequence

from conformance.blending import NONE, equation_of
from conformance.d3d11.streams import Malformed
from conformance.suites.setting import Setting, w_of
from conformance.suites.shapes import all_samples, is_flat
from tools.draw_list import Draw, DrawList, Vertex, triangles_of

# What an answer has: resolved colours, each sample's colour, each sample's stored depth, or resolved
# colours with their alpha.
RESOLVED, COLOURS, DEPTHS, PIXELS = range(4)
# Bits of a head's fifth word. Requests with the second or the third one need a stream of version 2.
ANTICLOCKWISE, HAS_MORE, HAS_EQUATIONS = 1, 2, 4
TRIANGLES, STRIP = 0, 1
CULLS = ("none", "front", "back")
TESTS = ("never", "less", "equal", "less_equal", "greater", "not_equal", "greater_equal", "always")
ALPHA = 8  # the bit of alpha in a write mask, which every draw has
HEAD_WORDS, DRAW_WORDS, VERTEX_WORDS = 16, 14, 4
EQUATION_WORDS = 8  # of a draw: its topology, and a blend equation
FLAGS_WORD = 4


def as_bytes(words: Sequence[int]) -> bytes:
    """Integers of -2^31 to 2^31 - 1 as words."""
    return struct.pack(f"<{len(words)}i", *words)


def signed(word: int) -> int:
    return word - (word >> 31 << 32)


def head_words(scene: DrawList, setting: Setting, output: int) -> list[int]:
    """Width, height, samples, bits of a depth; flags; the viewport's left, top, width, height in pixels, and its move
    in 1/256 pixel; the clear colour and the clear depth; the count of draws. If the flags say so, two more: the output,
    and how many words a vertex has, 4 or 5; and one more: the clear colour's alpha."""
    width, height = scene["width"], scene["height"]
    across, down = (width, height) if setting.viewport is None else (setting.viewport, setting.viewport)
    corner = (-((across - width) // 2), -((down - height) // 2))
    clear = (*scene.get("clear", (0, 0, 0)), scene.get("clear_depth", 65535))
    target = (width, height, scene.get("samples", 1), setting.depth_bits)
    has_more = output != RESOLVED or setting.perspective
    flags = (
        ANTICLOCKWISE * setting.anticlockwise_front | HAS_MORE * has_more
        | HAS_EQUATIONS * has_equations(scene, setting)
    )
    more = (output, VERTEX_WORDS + setting.perspective) if has_more else ()
    alpha = (scene.get("clear_alpha", 0),) if flags & HAS_EQUATIONS else ()
    return [*target, flags, *corner, across, down, *setting.moved, *clear, len(scene["draws"]), *more, *alpha]


def has_equations(scene: DrawList, setting: Setting) -> bool:
    """Whether draws have more words: a topology and a blend equation."""
    return setting.strips or "clear_alpha" in scene or any("equation" in draw for draw in scene["draws"])


def equation_words(draw: Draw, setting: Setting) -> list[int]:
    """Triangles or a strip; the six numbers of the blend equation, as Direct3D 11 has them; the constant colour."""
    *numbers, red, green, blue, alpha = equation_of(draw)
    return [
        STRIP if setting.strips and "strip" in draw else TRIANGLES, *numbers,
        signed(red | green << 8 | blue << 16 | alpha << 24),
    ]


def state_words(draw: Draw, scene: DrawList, setting: Setting, indices: int) -> list[int]:
    """Culling, depth test, depth write, blending, write mask, sample mask, whether colours are interpolated, whether
    there is a scissor, the scissor; the counts of vertices and of indices."""
    write = sum(1 << channel for channel, wanted in enumerate(draw.get("write", (True,) * 3)) if wanted) | ALPHA
    return [
        CULLS.index(draw.get("cull", "none")), TESTS.index(draw.get("depth_test", "always")),
        int(draw.get("depth_write", False)), int(draw.get("blend", "none") == "over"), write,
        draw.get("sample_mask", all_samples(scene)),
        int(setting.leading is None and not is_flat(draw)),
        int("scissor" in draw), *draw.get("scissor", (0, 0, scene["width"], scene["height"])), len(draw["vertices"]),
        indices,
    ]


def draw_words(draw: Draw, scene: DrawList, setting: Setting) -> list[int]:
    """The state, the vertices, and the indices. A vertex has x, y, z and RGBA8, and in perspective w."""
    is_strip = setting.strips and "strip" in draw
    indices = draw["strip"] if is_strip else [corner for triangle in triangles_of(draw) for corner in triangle]
    words = state_words(draw, scene, setting, len(indices))
    if has_equations(scene, setting):
        words += equation_words(draw, setting)
    for number, (x, y, z, red, green, blue, alpha) in enumerate(draw["vertices"]):
        words += (x, y, z, signed(red | green << 8 | blue << 16 | alpha << 24))
        if setting.perspective:
            words.append(w_of(number))
    return words + list(indices)


def request(scene: DrawList, setting: Setting, output: int = RESOLVED) -> bytes:
    """The request of a list under a setting."""
    words = head_words(scene, setting, output)
    for draw in scene["draws"]:
        words += draw_words(draw, scene, setting)
    return as_bytes(words)


def version_of(requests: Sequence[bytes]) -> int:
    """The version of the stream that these requests need."""
    flags = (struct.unpack_from("<i", data, 4 * FLAGS_WORD)[0] for data in requests)
    return 2 if any(word & (HAS_MORE | HAS_EQUATIONS) for word in flags) else 1


def output_of(data: bytes) -> int:
    """What the answer to a request has."""
    words = struct.unpack_from(f"<{HEAD_WORDS + 1}i", data)
    return int(words[HEAD_WORDS]) if words[FLAGS_WORD] & HAS_MORE else RESOLVED


# ---- A request read again -------------------------------------------------------------------------------------------


def taken(words: Iterator[int], count: int) -> list[int]:
    found = list(islice(words, count))
    if len(found) < count:
        raise Malformed("a request has fewer words than it names")
    return found


def vertex_of(words: Sequence[int]) -> Vertex:
    x, y, z, colour = words
    return [x, y, z, *(colour >> shift & 255 for shift in (0, 8, 16, 24))]


def equation_read(words: Iterator[int]) -> tuple[bool, list[int]]:
    """Whether a draw is a strip, and its blend equation."""
    topology, *numbers, constant = taken(words, EQUATION_WORDS)
    return topology == STRIP, [*numbers, *(constant >> shift & 255 for shift in (0, 8, 16, 24))]


def faces_of(is_strip: bool, indices: list[int]) -> Draw:
    """A draw's strip or its triangles, under their key."""
    return {"strip": indices} if is_strip else {"triangles": [indices[k : k + 3] for k in range(0, len(indices), 3)]}


def draw_of(words: Iterator[int], vertex_words: int, has_more: bool) -> tuple[Draw, bool]:
    """The draw of its words, and whether its colours are interpolated."""
    cull, test, write_depth, blend, write, mask, is_shaded, is_scissored, *rest = taken(words, DRAW_WORDS)
    box, (vertices, indices) = rest[:4], rest[4:]
    is_strip, equation = equation_read(words) if has_more else (False, list(NONE))
    corners = taken(words, vertex_words * vertices)
    faces = taken(words, indices)
    draw = {
        "cull": CULLS[cull],
        "depth_test": TESTS[test],
        "depth_write": bool(write_depth),
        "blend": "over" if blend else "none",
        "write": [bool(write >> channel & 1) for channel in range(3)],
        "sample_mask": mask,
        **({"scissor": box} if is_scissored else {}),
        "vertices": [vertex_of(corners[k : k + VERTEX_WORDS]) for k in range(0, len(corners), vertex_words)],
        **faces_of(is_strip, faces),
        **({} if equation == list(NONE) else {"equation": equation}),
    }
    return draw, bool(is_shaded)


def read(data: bytes) -> tuple[DrawList, Setting]:
    """The list and the setting of a request. Raises `Malformed`."""
    words = iter(struct.unpack(f"<{len(data) // 4}i", data))
    width, height, samples, depth_bits, flags, _left, _top, across, _down, *rest = taken(words, HEAD_WORDS)
    move_x, move_y, red, green, blue, depth, count = rest
    _output, vertex_words = taken(words, 2) if flags & HAS_MORE else (RESOLVED, VERTEX_WORDS)
    (clear_alpha,) = taken(words, 1) if flags & HAS_EQUATIONS else (0,)
    alpha = {"clear_alpha": clear_alpha} if clear_alpha else {}
    read_draws = [draw_of(words, vertex_words, bool(flags & HAS_EQUATIONS)) for _ in range(count)]
    draws = [draw for draw, _is_shaded in read_draws]
    if next(words, None) is not None:
        raise Malformed("a request has more words than it names")
    viewport = None if across == width else across
    leading = None if all(is_shaded or is_flat(draw) for draw, is_shaded in read_draws) else 0
    setting = Setting(
        viewport, (move_x, move_y), bool(flags & ANTICLOCKWISE), depth_bits, leading, vertex_words > VERTEX_WORDS,
        any("strip" in draw for draw in draws),
        "" if all(0 <= vertex[2] <= 65535 for draw in draws for vertex in draw["vertices"]) else "cut",
    )
    scene = {
        "width": width, "height": height, "samples": samples, "clear": [red, green, blue], "clear_depth": depth,
        **alpha, "draws": draws,
    }
    return scene, setting
