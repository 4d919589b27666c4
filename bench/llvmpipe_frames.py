"""Draws frames of a list by llvmpipe: the process that bench/llvmpipe.py times.

    python3 -m bench.llvmpipe_frames LIST PIXELS

Writes the pixels of one frame to the file PIXELS, in red, green, blue and alpha, and llvmpipe's name to standard
output. Each line on standard input is a number of frames to draw. The least wall time of one of them goes out as a
line, with its processor time.
"""

from __future__ import annotations

import ctypes
import json
import sys
import time

from tools.draw_list import DrawList
from tools.opengl import gl
from tools.opengl.frames import DrawState, Frames, Mesh, Viewport, set_up


class Scene:
    """A list with all that its frames need. Each sample is shaded, as the program does it."""

    def __init__(self, library: ctypes.CDLL, scene: DrawList) -> None:
        set_up(library)
        self.library, self.samples = library, scene.get("samples", 1)
        self.frames = Frames(library, scene["width"], scene["height"], self.samples, gl.DEPTH_COMPONENT24)
        self.viewport = Viewport.around(scene["width"], scene["height"])
        self.draws = [(DrawState.of(draw), Mesh(draw, self.viewport)) for draw in scene["draws"]]
        self.clear = (scene.get("clear", (0, 0, 0)), scene.get("clear_depth", 65535))
        gl.switch(library, gl.SAMPLE_SHADING, self.samples > 1)

    def draw(self) -> None:
        """Draws a frame, from its clear to the pixels read back."""
        self.frames.begin(self.viewport)
        self.frames.clear(*self.clear)
        for state, mesh in self.draws:
            state.set(self.library, self.samples)
            mesh.draw(self.library)
        self.frames.resolve()

    def least_seconds(self, count: int) -> tuple[float, float]:
        """Wall and processor time of the fastest of this many frames."""
        times = []
        for _ in range(count):
            wall, processor = time.perf_counter(), time.process_time()
            self.draw()
            times.append((time.perf_counter() - wall, time.process_time() - processor))
        return min(times)


def main() -> int:
    source, target = sys.argv[1:]
    library = gl.open_driver("llvmpipe")
    with open(source, encoding="utf-8") as file:
        scene = Scene(library, json.load(file))
    scene.draw()  # compiles the shaders
    if library.glGetError():
        raise gl.Unavailable("OpenGL reported an error")
    with open(target, "wb") as pixels:
        pixels.write(scene.frames.pixels.raw)
    print(gl.text(library, gl.RENDERER), flush=True)
    for line in sys.stdin:
        print(json.dumps(scene.least_seconds(int(line))), flush=True)
    return 0


if __name__ == "__main__":
    sys.exit(main())
