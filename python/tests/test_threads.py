"""What a running call uses is its own until all threads end: interrupts, arrays that others change, threads that
cannot be started."""

import gc
import unittest
from _thread import start_new_thread
from array import array
from typing import Any, Callable, List
from unittest import mock

import trirast
from trirast import _threads

from .common import DRAW_LIST, NUMPY, bytes_of, run

# `interrupted` makes a call, and interrupts it after some milliseconds, and then every 4 ms as long as it runs.
INTERRUPTS = """
import json, signal, struct, trirast
from array import array
from time import monotonic
armed = False

def interrupt(*_):
    if armed:
        raise KeyboardInterrupt

signal.signal(signal.SIGALRM, interrupt)

def interrupted(call, seconds):
    global armed
    try:
        armed = True
        signal.setitimer(signal.ITIMER_REAL, seconds, 0.004)
        call()
    except KeyboardInterrupt:
        armed = False
    finally:
        armed = False
        signal.setitimer(signal.ITIMER_REAL, 0)

# A batch that takes some hundred milliseconds, in more memory than is kept when it is freed.
rows = 1_300_000
corners = b"".join(struct.pack("=iiHBBBB2x", x, y, 0, 9, 9, 9, 5) for x, y in ((0, 0), (130000, 0), (0, 130000)))
vertices = bytearray(16 * (rows - 3)) + corners
indices = array("I", [rows - 3, rows - 2, rows - 1])
"""


class Interrupts(unittest.TestCase):
    def must_end_well(self, text: str, printed: str) -> None:
        done = run(INTERRUPTS + text)
        self.assertEqual((done.returncode, done.stdout.decode(), done.stderr.decode()), (0, printed, ""))

    def test_come_while_arrays_are_drawn(self) -> None:
        self.must_end_well(
            """
canvas = trirast.Canvas(512, 256)
canvas.clear()
for _ in range(3):
    given = [vertices[:]]
    interrupted(lambda: canvas.draw(given.pop(), 15000 * indices, blend="over", threads=4), 0.05)
print("ended")
""",
            "ended\n",
        )

    def test_come_while_a_canvas_is_left(self) -> None:
        self.must_end_well(
            """
for _ in range(3):
    given = [trirast.Canvas(4096, 2048)]
    given[0].clear()
    interrupted(lambda: given.pop().draw(vertices, 2000 * indices, blend="over", threads=4), 0.05)
print("ended")
""",
            "ended\n",
        )

    def test_come_while_pixels_are_written(self) -> None:
        self.must_end_well(
            """
canvas = trirast.Canvas(4096, 4096, samples=4)
canvas.load(bytes([7]) * (3 * 4096 * 4096), threads=4)
for _ in range(4):
    interrupted(lambda: canvas.rgba(bytearray(4 * 4096 * 4096), threads=4), 0.01)
print(set(memoryview(canvas.rgb()).tobytes()))
""",
            "{7}\n",
        )

    def test_come_while_a_list_is_drawn(self) -> None:
        self.must_end_well(
            """
for _ in range(4):
    interrupted(
        lambda: trirast.draw({"width": 4096, "height": 4096, "draws": []}, threads=4, out=bytearray(3 * 4096 * 4096)),
        0.01,
    )
print("ended")
""",
            "ended\n",
        )

    def test_leave_a_batch_drawn_or_not_begun(self) -> None:
        self.must_end_well(
            """
size = 1024
square = [[256 * x, 256 * y, 0, 9, 8, 7, 255] for x, y in ((0, 0), (size, 0), (size, size), (0, size))]
canvas = trirast.Canvas(size, size, samples=4)
found = set()
for number in range(10):
    canvas.clear()
    interrupted(lambda: canvas.draw(square, quads=[[0, 1, 2, 3]] * 40, threads=4), 0.002 * number)
    found.add(tuple(sorted(set(memoryview(canvas.rgb()).tobytes()))))
print(found <= {(0,), (7, 8, 9)} or found)
""",
            "True\n",
        )

    def test_come_between_tile_rows_of_what_takes_long(self) -> None:
        self.must_end_well(
            """
import random
pick = random.Random(1)
corners = array("i", [pick.randrange(side) for _ in range(20000) for side in (16384, 1048576)])
corners = memoryview(corners).cast("B").cast("i", shape=[20000, 2])

def polygons(canvas, threads):
    canvas.draw_polygons(corners, [20000], [1], (9, 9, 9), threads=threads)

def triangles(canvas, threads):
    square = [(0, 0), (16384, 0), (16384, 1048576), (0, 1048576)]
    canvas.draw(square, quads=[(0, 1, 2, 3)] * 700, colors=(9, 9, 9, 200), blend="over", threads=threads)

def drawn(draw, seconds, threads=4):
    canvas = trirast.Canvas(64, 4096, samples=16)
    interrupted(lambda: draw(canvas, threads), seconds)
    pixels = memoryview(canvas.rgb()).tobytes()
    return [pixels[first : first + 12288] for first in range(0, len(pixels), 12288)]

whole = {polygons: drawn(polygons, 0), triangles: 64 * [bytes([9]) * 12288]}
for draw, wanted in whole.items():
    for threads in 1, 3:
        others = [row for row, other in zip(drawn(draw, 0.1, threads), wanted) if row != other]
        print(0 < len(others) <= 64, set(others) == {bytes(12288)})
""",
            4 * "True True\n",
        )

    def test_come_between_parts_of_a_list_that_takes_long(self) -> None:
        self.must_end_well(
            """
square = [[256 * x, 256 * y, 0, 9, 9, 9, 200] for x, y in ((0, 0), (4096, 0), (4096, 4096), (0, 4096))]
one = {"blend": "over", "vertices": square, "quads": [[0, 1, 2, 3]] * 2000}
text = json.dumps({"width": 4096, "height": 4096, "samples": 4, "draws": [one]}, separators=(",", ":"))
for threads in 1, 3:
    pixels = bytearray(3 * 4096 * 4096)
    begun = monotonic()
    interrupted(lambda: trirast.draw(text, threads=threads, out=pixels), 2)
    print(monotonic() - begun < 30, set(pixels) == {0, 9})
""",
            2 * "True True\n",
        )

    def test_come_after_the_threads(self) -> None:
        events: List[str] = []
        
        def part(number: int) -> None:
            run_for_a_while()
            events.append(f"part {number}")

        class Interrupted(_threads.Work):
            """The first two waits are interrupted."""

            def __init__(self, *arguments: Any) -> None:
                super().__init__(*arguments)
                self._signals = mock.Mock(wraps=self._signals)
                self._signals.get.side_effect = [KeyboardInterrupt, KeyboardInterrupt] + [mock.DEFAULT] * 9

        with mock.patch.object(_threads, "Work", Interrupted), self.assertRaises(KeyboardInterrupt):
            _threads.share(part, lambda count: [(number,) for number in range(count)], 3)
        self.assertEqual(sorted(events), ["part 0", "part 1", "part 2"])


def run_for_a_while() -> int:
    return sum(range(200_000))


class Arrays(unittest.TestCase):
    """Arrays that another thread changes while they are drawn."""

    def must_not_crash(self, change: str, threads: int) -> None:
        done = run(f"""
            import struct, threading, time, trirast
            from array import array
            count = 20000
            vertices = bytearray().join(
                struct.pack("=iiHBBBB2x", 256 * k * k, 2560 * k, 0, 1, 2, 3, 255) for k in range(3)
            )
            numbers, indices = memoryview(vertices).cast("i"), array("I", [0, 1, 2] * count)
            canvas = trirast.Canvas(64, 256)
            canvas.clear()
            is_over = False

            def flip():
                while not is_over:
                    for _ in range(1000):
                        {change}

            flipping = threading.Thread(target=flip)
            flipping.start()
            end = time.monotonic() + 1
            while time.monotonic() < end:
                try:
                    canvas.draw(vertices, indices, threads={threads})
                except trirast.BatchError as error:
                    assert error.name in ("BadIndex", "BadPosition"), error
            is_over = True
            flipping.join()
            print("ended")
        """)
        self.assertEqual((done.returncode, done.stdout, done.stderr), (0, b"ended\n", b""))

    def test_of_indices(self) -> None:
        for threads in (1, 3):
            self.must_not_crash("indices[-1] = 0x7fffffff; indices[-1] = 2", threads)

    def test_of_positions(self) -> None:
        for threads in (1, 3):
            self.must_not_crash("numbers[8] = 0x7fffffff; numbers[8] = 1024", threads)

    def test_of_records(self) -> None:
        """Of an array of numpy, one after another and with other members between them."""
        if NUMPY is None:
            self.skipTest("there is no numpy")
        for behind in ("[]", "[('more', 'u4', 5)]"):
            done = run(f"""
                import threading, time
                import numpy as np, trirast
                vertices = np.zeros(30000, trirast.VERTEX + {behind})
                vertices["x"], vertices["y"] = np.random.default_rng(1).integers(0, 65536, (2, 30000))
                vertices["depth"] = 65535
                kept, canvas = vertices.copy(), trirast.Canvas(256, 256, samples=4)
                canvas.clear()
                is_over = False

                def change():
                    while not is_over:
                        for value in -8388608, 8388607, (1 << 31) - 1, -(1 << 31):
                            vertices["x"], vertices["y"] = value, -1 - value
                            vertices[:] = kept

                changing = threading.Thread(target=change)
                changing.start()
                end = time.monotonic() + 3
                while time.monotonic() < end:
                    for threads in 1, 3:
                        try:
                            canvas.draw(vertices, depth_test="less", depth_write=True, threads=threads)
                        except trirast.BatchError as error:
                            assert error.name == "BadPosition", error
                is_over = True
                changing.join()
                print("ended")
            """)
            self.assertEqual((done.returncode, done.stdout, done.stderr), (0, b"ended\n", b""))


class Errors(unittest.TestCase):
    """Errors of several threads."""

    def setUp(self) -> None:
        gc.disable()
        self.addCleanup(gc.enable)

    def test_leave_buffers_to_their_owner(self) -> None:
        canvas = trirast.Canvas(2, 200)
        canvas.clear()
        for threads in (1, 3):
            for is_kept in (False, True):
                out = array("H", bytes(2 * 2 * 200))
                kept: List[BaseException] = []
                try:
                    canvas.depth(1, out, threads=threads)
                except trirast.SampleError as error:
                    kept += [error] if is_kept else []
                out.append(1)
                short = bytearray(5)
                try:
                    canvas.rgb(short, threads=threads)
                except ValueError as error:
                    kept += [error] if is_kept else []
                short.append(1)

    def test_leave_rows_to_their_owner(self) -> None:
        kept: List[Exception] = []
        wrong: List[Any] = [array("h", [0, 1, -1]), array("d", [0.0]), array("I", [0, 1]), array("q", [1 << 40] * 3)]
        for indices in wrong:
            try:
                trirast.Draw([(0, 0)] * 2, indices)
            except (TypeError, ValueError) as error:
                kept.append(error)
            indices.append(1)
        for depths in (array("q", [1, 70000]), array("q", [1])):
            try:
                trirast.Draw([(0, 0)] * 2, depth=depths)
            except ValueError as error:
                kept.append(error)
            depths.append(1)
        self.assertEqual(len(kept), 6)

    def test_of_a_list_leave_the_buffer_to_its_owner(self) -> None:
        high = {**DRAW_LIST, "height": 200}
        for threads in (1, 3):
            out = bytearray(3 * 3 * 200)
            try:
                trirast.draw(high, 9, threads, out=out)
            except trirast.TileSizeError as error:
                kept = error
            out.append(1)
            self.assertEqual(str(kept), "tile_size: expected 8, 16, 32 or 64 pixels, got 9")

    def test_are_those_of_the_first_part(self) -> None:
        def part(number: int) -> None:
            raise ValueError(f"part {number}")

        for count in (1, 2, 5):
            with self.assertRaisesRegex(ValueError, "part 0"):
                _threads.share(part, lambda parts: [(number,) for number in range(parts)], count)


class Starting(unittest.TestCase):
    """Threads that cannot be started leave their work to those that were, or to the calling thread."""

    def drawn(self, threads: int) -> bytes:
        canvas = trirast.Canvas(8, 256)
        canvas.clear(threads=threads)
        canvas.draw(
            [[0, 0, 0, 9, 9, 9, 255], [2048, 0, 0, 9, 9, 9, 255], [0, 65536, 0, 9, 9, 9, 255]], [[0, 1, 2]],
            threads=threads,
        )
        return bytes_of(canvas.rgb(threads=threads)) + trirast.draw({**DRAW_LIST, "height": 256}, threads=threads).bytes

    def test_none_or_some(self) -> None:
        wanted = self.drawn(1)
        for possible in range(4):
            def start_some(call: Callable[..., Any], arguments: Any, left: List[int] = [possible]) -> int:
                if left[0] % 4 == 0:
                    raise RuntimeError("can't start new thread")
                left[0] -= 1
                return start_new_thread(call, arguments)

            with mock.patch.object(_threads, "start_new_thread", start_some):
                self.assertEqual(self.drawn(4), wanted, possible)

    def test_with_little_stack(self) -> None:
        done = run(f"""
            import threading, trirast
            threading.stack_size(65536)
            vertices = [[256 * x, 256 * y, 9, 1, 2, 3, 200] for x in range(0, 512, 8) for y in range(0, 512, 8)]
            triangles = [[k, k + 1, k + 70] for k in range(len(vertices) - 70)]

            def draw_all(threads):
                canvas = trirast.Canvas(512, 512, samples=4)
                canvas.clear(threads=threads)
                canvas.draw(vertices, triangles, depth_test="less", depth_write=True, blend="over", threads=threads)
                canvas.rgb(threads=threads)
                trirast.draw({{**{DRAW_LIST}, "height": 512}}, threads=threads)

            draw_all(4)
            calling = threading.Thread(target=draw_all, args=(1,))
            calling.start()
            calling.join()
            print(threading.stack_size())
        """)
        self.assertEqual((done.returncode, done.stdout, done.stderr), (0, b"65536\n", b""))

    def test_calls_on_a_thread_with_little_stack(self) -> None:
        for stack in (32768, 65536, 262144):
            done = run(f"""
                import threading, trirast
                from trirast import _stack
                vertices = [[256 * x, 256 * y, 9, 1, 2, 3, 200] for x in range(0, 512, 8) for y in range(0, 512, 8)]
                triangles = [[k, k + 1, k + 70] for k in range(len(vertices) - 70)]

                def of_canvas():
                    canvas = trirast.Canvas(512, 512)
                    canvas.clear()
                    canvas.draw(vertices, triangles)
                    return memoryview(canvas.rgb()).tobytes()

                small, large = {DRAW_LIST}, {{**{DRAW_LIST}, "height": 512}}
                calls = [
                    of_canvas, lambda: trirast.draw_file(large), lambda: trirast.draw(large).bytes,
                    lambda: trirast.draw(large, threads=3).bytes, lambda: trirast.image_info(small),
                    lambda: trirast.why(small, 1, 1), lambda: trirast.triangle_samples(small, 0, 0),
                    lambda: trirast.polygon_boxes([row[:2] for row in vertices], [len(vertices)], [1]).tolist(),
                ]
                for depth in 63, 127, 500:
                    for begin, end in (("[", "]"), ('{{"a":', "}}"), ('[{{"a":', '}}]'), ('{{"a":[', ']}}')):
                        calls.append(lambda text=begin * depth + "0" + end * depth: trirast.draw_file(text))

                def made(call):
                    try:
                        return call()
                    except trirast.DrawListError as error:
                        return str(error)

                wanted, found = [made(call) for call in calls], []
                threading.stack_size({stack})
                calling = threading.Thread(target=lambda: found.extend([_stack.is_enough(), *map(made, calls)]))
                calling.start()
                threading.stack_size(0)  # What threads are given later makes no difference.
                calling.join()
                print(found == [False, *wanted], threading.stack_size())
            """)
            self.assertEqual((done.returncode, done.stdout, done.stderr), (0, b"True 0\n", b""))

    def test_calls_without_a_thread_that_has_enough_stack(self) -> None:
        done = run(f"""
            import threading, trirast
            from unittest import mock
            from trirast import _threads

            def draw():
                try:
                    trirast.draw_file({DRAW_LIST})
                except RuntimeError as error:
                    print(error)

            trirast.draw_file({DRAW_LIST})
            threading.stack_size(65536)
            calling = threading.Thread(target=draw)
            with mock.patch.object(_threads, "start_new_thread", side_effect=RuntimeError("can't start new thread")):
                calling.start()
                calling.join()
        """)
        printed = b"stack: expected 1048576 bytes, or a thread that has them, got 65536 and no thread\n"
        self.assertEqual((done.returncode, done.stdout, done.stderr), (0, printed, b""))

    def test_have_left_python_before_a_program_ends(self) -> None:
        """One that comes back to Python while the interpreter ends may crash the process."""
        program = """
            import os, time, trirast
            from trirast import _threads
            run = _threads.Work._run
            def run_slowly(work):
                run(work)
                time.sleep(0.3)
                os.write(1, b"left ")
            _threads.Work._run = run_slowly
            trirast.Canvas(64, 256).clear(threads=4)
            {}
        """
        done = run(program.format("pass"))
        self.assertEqual((done.returncode, done.stdout, done.stderr), (0, 4 * b"left ", b""))
        # A copy of the process waits for none of them.
        done = run(program.format("os.fork() or os.write(1, b'copy ')"))
        self.assertEqual(
            (done.returncode, sorted(done.stdout.split()), done.stderr), (0, [b"copy"] + 4 * [b"left"], b"")
        )

    def test_where_the_system_gives_little_stack(self) -> None:
        program = f"""
            import trirast
            from trirast import _stack
            vertices = [[256 * x, 256 * y, 9, 1, 2, 3, 200] for x in range(0, 512, 8) for y in range(0, 512, 8)]
            canvas = trirast.Canvas(512, 512, samples=4)
            canvas.clear(threads=4)
            canvas.draw(vertices, [[k, k + 1, k + 70] for k in range(len(vertices) - 70)], threads=4)
            trirast.draw({{**{DRAW_LIST}, "height": 512}}, threads=4)
            print(_stack.is_enough())
        """
        done = run(program, under=("sh", "-c", 'ulimit -s 128 && exec "$0" "$@"'))
        self.assertEqual((done.returncode, done.stdout, done.stderr), (0, b"False\n", b""))

    def test_for_want_of_memory(self) -> None:
        done = run("""
            import resource, threading, trirast
            canvas = trirast.Canvas(512, 256)
            canvas.clear()
            threading.stack_size(1 << 30)
            used = int(open("/proc/self/statm").read().split()[0]) * resource.getpagesize()
            resource.setrlimit(resource.RLIMIT_AS, (used + (5 << 29),) * 2)
            square = [[0, 0, 0, 9, 9, 9, 9], [131072, 0, 0, 9, 9, 9, 9], [131072, 65536, 0, 9, 9, 9, 9],
                      [0, 65536, 0, 9, 9, 9, 9]]
            canvas.draw(square, quads=[[0, 1, 2, 3]] * 3000, blend="over", threads=4)
            print(len(set(memoryview(canvas.rgb()).tobytes())))
        """)
        self.assertEqual((done.returncode, done.stdout, done.stderr), (0, b"1\n", b""))


class OneCanvas(unittest.TestCase):
    def test_is_used_by_several_threads_in_turn(self) -> None:
        if NUMPY is None:
            self.skipTest("there is no numpy")
        canvas = trirast.Canvas(64, 256, samples=4)
        canvas.clear()
        square = [
            [0, 0, 0, 1, 1, 1, 255], [16384, 0, 0, 1, 1, 1, 255], [16384, 65536, 0, 1, 1, 1, 255],
            [0, 65536, 0, 1, 1, 1, 255],
        ]
        pictures: List[Any] = []

        def draw_and_look(number: int) -> None:
            for color in range(20):
                canvas.clear((color, color, number))
                canvas.draw(square, quads=[[0, 1, 2, 3]], threads=2)
                pictures.append(canvas.rgb(threads=2))

        _threads.share(draw_and_look, lambda count: [(number,) for number in range(count)], 4)
        # Each picture is one that a call left: of one colour.
        self.assertEqual({bool((picture == picture[0, 0]).all()) for picture in pictures}, {True})


if __name__ == "__main__":
    unittest.main()
