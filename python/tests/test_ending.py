"""Calls of several threads as the interpreter ends, when no thread that is started runs any more."""

import unittest

from .common import DRAW_LIST, run

# What is called in the end, each by more threads than one.
CALLS = f"""
import atexit, gc, sys

def call_all(trirast):
    canvas.clear((1, 2, 3), threads=4)
    canvas.draw([(0, 0), (99999, 0), (0, 99999)], colors=(9, 9, 9), threads=3)
    canvas.draw_polygons([(0, 0), (99999, 0), (0, 99999)], [3], [1], (9, 9, 9), threads=2)
    found = set(memoryview(canvas.rgb(threads=2)).tobytes())
    picture = trirast.draw({{**{DRAW_LIST}, "height": 99}}, threads=2)
    sys.stderr.write(f"{{sorted(found)}} {{picture.height}}\\n")
"""
PRINTED = b"[9] 99\n"
LIMIT = ("timeout", "30")


class Ending(unittest.TestCase):
    def must_print(self, text: str, printed: bytes = PRINTED) -> None:
        done = run(CALLS + text, under=LIMIT)
        self.assertEqual((done.returncode, done.stdout, done.stderr), (0, b"", printed))

    def test_in_del(self) -> None:
        for keeps in ("", "it.itself = it"):
            self.must_print(f"""
import trirast
canvas = trirast.Canvas(64, 256)

class AtEnd:
    def __del__(self, canvas=canvas, trirast=trirast):
        call_all(trirast)

it = AtEnd()
{keeps}
""")

    def test_in_callbacks_of_the_collector(self) -> None:
        self.must_print("""
import trirast
canvas = trirast.Canvas(64, 256)

def collected(phase, _info):
    if phase == "start" and sys.is_finalizing():
        gc.callbacks.clear()
        call_all(trirast)

gc.callbacks.append(collected)
""")

    def test_in_functions_that_were_registered_before(self) -> None:
        self.must_print("""
atexit.register(lambda: call_all(trirast))
import trirast
canvas = trirast.Canvas(64, 256)
""")

    def test_in_functions_that_are_registered_later(self) -> None:
        self.must_print("""
import trirast
canvas = trirast.Canvas(64, 256)
atexit.register(call_all, trirast)
""")

    def test_on_a_canvas_that_another_thread_had(self) -> None:
        """A thread that is in a call as the interpreter ends does not come back, and the lock stays taken."""
        self.must_print(
            """
import threading, time, trirast
canvas = trirast.Canvas(512, 512, samples=16)
square = [(0, 0), (1 << 17, 0), (1 << 17, 1 << 17), (0, 1 << 17)]

def draw():
    canvas.draw(square, quads=[[0, 1, 2, 3]] * 40, colors=(9, 9, 9, 1), blend="over")

def collected(phase, _info):
    if phase == "start" and sys.is_finalizing():
        gc.callbacks.clear()
        try:
            canvas.clear(threads=2)
        except RuntimeError as error:
            sys.stderr.write(str(error)[:46] + "\\n")

gc.callbacks.append(collected)
threading.Thread(target=draw, daemon=True).start()
while canvas._lock.acquire(blocking=False):
    canvas._lock.release()
    time.sleep(0.001)
""",
            b"canvas: expected no call when the process was \n",
        )


if __name__ == "__main__":
    unittest.main()
