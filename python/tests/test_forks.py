"""Canvases in a forked child, which has none of its parent's threads."""

import unittest

from .common import run

LIMIT = ("timeout", "60")
# `in_child` makes a call in a forked child, as another thread is drawing on `taken`, and waits for the child.
DRAWING = """
import os, sys, threading, time, trirast
from trirast import _stack

taken, free = trirast.Canvas(512, 512, samples=16), trirast.Canvas(3, 200)
square = [(0, 0), (1 << 17, 0), (1 << 17, 1 << 17), (0, 1 << 17)]
more = {"blend": "over", "colors": (9, 9, 9, 1)}

def in_child(call):
    drawing = threading.Thread(target=lambda: taken.draw(square, quads=[[0, 1, 2, 3]] * 40, **more))
    drawing.start()
    while taken._lock.acquire(blocking=False):
        taken._lock.release()
        time.sleep(0.001)
    child = os.fork()
    if not child:
        try:
            print(call(), flush=True)
        except RuntimeError as error:
            print(error, flush=True)
        os._exit(0)
    drawing.join()
    taken.draw(square, quads=[[0, 1, 2, 3]], threads=2)
    os.waitpid(child, 0)
"""


class Forks(unittest.TestCase):
    def must_print(self, text: str, printed: str) -> None:
        done = run(DRAWING + text, under=LIMIT)
        self.assertEqual((done.returncode, done.stdout.decode(), done.stderr.decode()), (0, printed, ""))

    def test_a_canvas_that_another_thread_had_raises_an_error(self) -> None:
        lost = (
            "canvas: expected no call when the process was forked or began to end, got one of another thread; "
            "make another canvas\n"
        )
        self.must_print(
            """
import copy
for call in (
    lambda: taken.clear(), lambda: taken.rgb(), lambda: taken.draw(square, threads=2), lambda: copy.copy(taken),
):
    in_child(call)
""",
            4 * lost,
        )

    def test_other_canvases_are_drawn_on(self) -> None:
        self.must_print(
            """
def draw():
    free.clear((7, 7, 7), threads=3)
    new = trirast.Canvas(3, 200)
    new.clear((8, 8, 8), threads=3)
    return [set(memoryview(each.rgb(threads=3)).tobytes()) for each in (free, new)]

in_child(draw)
""",
            "[{7}, {8}]\n",
        )

    def test_threads_are_started_though_another_one_was_starting_some(self) -> None:
        self.must_print(
            """
is_over = False

def start_some():
    while not is_over:
        with _stack.enough():
            time.sleep(0.002)

def draw():
    free.clear((7, 7, 7), threads=3)
    return set(memoryview(free.rgb()).tobytes())

starting = threading.Thread(target=start_some)
starting.start()
in_child(draw)
is_over = True
starting.join()
""",
            "{7}\n",
        )


if __name__ == "__main__":
    unittest.main()
