"""Runs bin/trirast with allocations that fail: each in turn, each and all behind it, and two of them.

    python3 -m pytest tests/program/allocation_failures.py

If an allocation fails, a run ends as it would have without (a vector that could grow ahead of need grows by less, and a
batch of tile rows whose workers are out of memory is drawn again by the calling thread), or with status 1, the line
`trirast: out of memory` and exactly the tile rows before the one for which the calling thread had no memory.
bin/refused_tiles, which draws the tiles of a list in one tile buffer, goes on after a refusal: the tiles that follow
are right. The program's line names no draw, so the draw in which memory ran out is seen by crates/list_bench, which
prints it. Needs gcc.
"""

from __future__ import annotations

import collections
import itertools
from typing import Any, Callable, ClassVar, Sequence

from tools.answers import drawn
from tests.program import injection
from tests.program import tall_picture as tall
from tools.draw_list import Draw, DrawList, draw, draw_list, encode, vertex
from tests.program.injection import Refusal, Run
from tools.places import PROGRAM, READER_PROGRAM, TILES_PROGRAM, bytes_of
from tools.small_pictures import (
    FIRST, FIRST_DRAW, FIRST_PICTURE, FIRST_VERTICES, LARGE, LARGE_BEGINNINGS, LARGE_HEADER, LARGE_PICTURE,
    OUT_OF_MEMORY, SQUARE_PICTURE, SQUARE_VERTICES,
)


class AllocationTest(injection.InjectionTest):
    """Tests in which each allocation fails in turn."""

    def runs(self, arguments: Sequence[str], text: bytes) -> list[Run]:
        """A run for each allocation that fails, from the first on."""
        return self.each_run(lambda number: self.run_once(arguments, text, allocation=number))

    def cut_runs(
        self, arguments: Sequence[str], text: bytes, status: int, output: bytes, line: bytes = b""
    ) -> list[Run]:
        """The runs that were cut short; all others ended as they would have without a refusal."""
        whole = (output, line, status)
        cut = [run for run in self.runs(arguments, text) if (run.output, run.line, run.status) != whole]
        for run in cut:
            self.assertEqual((run.status, run.line), (1, OUT_OF_MEMORY), run)
            self.assertTrue(output.startswith(run.output), run)
        self.assertTrue(cut, "no run was out of memory")
        return cut


class TileRows(AllocationTest):
    """A picture of 24 tile rows, which several workers draw in batches of three.

    Which tile row was refused is known without the picture: one worker is the calling thread, and the tiles
    that it allocated say how far it came. Of several workers the threads that were started say which batch was
    being drawn. The calling thread allocates tiles only where it draws a batch again, so their number says how
    far it came in that batch.
    """

    tile_bytes = tall.TILE_BYTES
    found: ClassVar[dict[int, collections.Counter[str]]]

    @classmethod
    def setUpClass(cls) -> None:
        super().setUpClass()
        cls.found = collections.defaultdict(collections.Counter)

    @classmethod
    def tearDownClass(cls) -> None:
        for workers, found in sorted(cls.found.items()):
            print(
                f"{tall.ROWS} tile rows, workers {workers}: {found['runs']} runs with refusals, "
                f"{found['faults']} of them out of "
                "memory, each after exactly the whole tile rows before the refused one",
                flush=True,
            )

    def run_tall(self, workers: int, **refused: Any) -> Run:
        return self.run_once(tall.arguments(workers), tall.LIST, **refused)

    def each_tall(self, workers: int, **refused: Any) -> list[Run]:
        return self.each_run(lambda number: self.run_tall(workers, allocation=number, **refused))

    def check_runs(self, workers: int, runs: list[Run], row_of: Callable[[Refusal, Refusal], int]) -> set[int]:
        """Checks that each run wrote the picture, or exactly the tile rows before the refused one. These
        rows, without repeats."""
        rows = set()
        for run in runs:
            if run.status == 0:
                self.assertTrue((run.output, run.line) == (tall.PICTURE, b""), f"not the picture after {run.refusals}")
                continue
            self.assertEqual((run.status, run.line), (1, OUT_OF_MEMORY), run.refusals)
            own = [refusal for refusal in run.refusals if refusal.in_first_thread]
            self.assertTrue(own, f"out of memory, and the calling thread was refused none: {run.refusals}")
            row = row_of(run.refusals[0], own[-1])
            before_header = row == 0 and own[-1].written == 0
            expected = b"" if before_header else tall.with_rows(row)
            self.assertTrue(run.output == expected, f"{len(run.output)} bytes for {row} tile rows after {run.refusals}")
            rows |= set() if before_header else {row}
        self.found[workers]["runs"] += len(runs)
        self.found[workers]["faults"] += sum(run.status != 0 for run in runs)
        return rows

    def check_one_worker(self, later: int) -> None:
        runs = self.each_tall(1, later=later)
        rows = self.check_runs(1, runs, lambda _first, last: last.tiles // tall.COLUMNS)
        self.assertEqual(rows, set(range(tall.ROWS)))
        # The calling thread is refused each of its tiles once, so tiles are recognized by their size.
        counted = {run.refusals[-1].tiles for run in runs if run.status != 0}
        self.assertEqual(counted, set(range(tall.ROWS * tall.COLUMNS)))

    def test_one_worker(self) -> None:
        """Catches a body that fails before it has written a tile row that is whole, or that writes one twice."""
        self.check_one_worker(later=0)

    def test_one_worker_each_later_allocation(self) -> None:
        """Catches the same if nothing can be allocated any more."""
        self.check_one_worker(later=injection.EACH)

    def check_one_refusal(self, workers: int) -> None:
        runs = self.each_tall(workers)
        drawing = [run for run in runs if run.refusals[0].written > 0]
        self.assertLess(tall.ROWS * tall.COLUMNS, len(drawing))
        for run in drawing:
            self.assertEqual((run.status, run.line), (0, b""), run.refusals)
        self.check_runs(workers, runs, lambda _first, _last: 0)

    def test_one_refusal_of_two_workers(self) -> None:
        """Catches a body that draws a batch again from its second tile row on, that writes a tile row or a batch twice,
        that loses the batch above, or that draws nothing again."""
        self.check_one_refusal(2)

    def test_one_refusal_of_four_workers(self) -> None:
        """Catches the same bodies."""
        self.check_one_refusal(4)

    def gathering(self, workers: int) -> int:
        """How many allocations the calling thread makes after it joined the workers of a batch until the batch is done,
        which is when the one above is written: as many as before the first batch was written."""
        third_batch = 2 * workers + 1
        return self.run_tall(workers, thread=third_batch).refusals[0].at_write

    def batch_of(self, workers: int, gathering: int, first: Refusal) -> int:
        """The batch that was being drawn at a run's first refusal."""
        if first.started > first.joined or (first.started > 0 and first.since_join < gathering):
            return (first.started - 1) // workers
        return first.started // workers

    def check_each_later_allocation(self, workers: int) -> None:
        runs = self.each_tall(workers, later=injection.EACH)
        gathering = self.gathering(workers)

        def row_of(first: Refusal, last: Refusal) -> int:
            self.assertEqual(last.tiles, 0, "the calling thread allocated a tile after memory ran out")
            return tall.TOGETHER * self.batch_of(workers, gathering, first)

        self.assertEqual(self.check_runs(workers, runs, row_of), set(range(0, tall.ROWS, tall.TOGETHER)))

    def test_each_later_allocation_of_two_workers(self) -> None:
        """Catches a body that loses the batch above if the one below fails."""
        self.check_each_later_allocation(2)

    def test_each_later_allocation_of_four_workers(self) -> None:
        """Catches the same body."""
        self.check_each_later_allocation(4)

    def check_drawing_again(self, workers: int) -> None:
        """The first or the last thread of a batch is not started, and then an allocation of the calling thread fails,
        each in turn. So the batch that is drawn again is known by the number of the thread."""
        for batch in (0, 4, 7):
            for thread in (batch * workers + 1, (batch + 1) * workers):
                again = self.each_run(lambda later: self.run_tall(workers, thread=thread, later=later), least=2)
                rows = self.check_runs(
                    workers, again, lambda _first, last: tall.TOGETHER * batch + last.tiles // tall.COLUMNS
                )
                first = tall.TOGETHER * batch
                self.assertEqual(rows, set(range(first, first + tall.TOGETHER)))

    def test_drawing_again_for_two_workers(self) -> None:
        """Catches a body that fails before it has written the whole tile rows of a batch that is drawn again, that
        writes one of them twice, that begins with the second, or that loses the batch above."""
        self.check_drawing_again(2)

    def test_drawing_again_for_four_workers(self) -> None:
        """Catches the same bodies."""
        self.check_drawing_again(4)

    def check_two_refusals(self, workers: int) -> None:
        alone = self.each_tall(workers)
        gathering = self.gathering(workers)
        begun = sum(run.refusals[0].written == 0 for run in alone)

        def row_of(first: Refusal, last: Refusal) -> int:
            return tall.TOGETHER * self.batch_of(workers, gathering, first) + last.tiles // tall.COLUMNS

        rows = set()
        # Two runs can differ in how often they allocate, so the last ones are left out.
        for number in range(begun + 1, len(alone) * 9 // 10, len(alone) // 12):
            runs = self.each_run(lambda later: self.run_tall(workers, allocation=number, later=later), least=2)
            rows |= self.check_runs(workers, runs, row_of)
        self.assertEqual({row % tall.TOGETHER for row in rows}, set(range(tall.TOGETHER)))

    def test_two_refusals_of_two_workers(self) -> None:
        """Catches the bodies of drawing again if an allocation for the workers fails, and not a thread."""
        self.check_two_refusals(2)

    def test_two_refusals_of_four_workers(self) -> None:
        """Catches the same bodies."""
        self.check_two_refusals(4)


class Pictures(AllocationTest):
    """A picture of three tile rows, the last of them not as high as its tiles."""

    def cut_pictures(self, workers: int) -> list[Run]:
        return self.cut_runs(["--tile", "32", "--workers", str(workers)], encode(LARGE), 0, LARGE_PICTURE)

    def test_one_worker(self) -> None:
        lengths = [len(run.output) for run in self.cut_pictures(1)]
        self.assertEqual(lengths, sorted(lengths))
        # A program that holds the whole picture would not stop at each of them.
        self.assertEqual(sorted(set(lengths)), list(LARGE_BEGINNINGS))

    def test_the_second_tile_row_of_one_worker(self) -> None:
        second = next(run for run in self.cut_pictures(1) if len(run.output) > len(LARGE_HEADER))
        self.assertEqual((second.line, len(second.output)), (OUT_OF_MEMORY, 6253))

    def test_three_workers(self) -> None:
        """Once the header is written, no single refusal costs the picture."""
        for run in self.cut_pictures(3):
            self.assertEqual(run.output, b"", run.refusals)


class Lists(AllocationTest):
    """A list is read, or the run is out of memory; a failed allocation is never reported as an error of the list."""

    def check_picture(self, value: DrawList, picture: bytes) -> None:
        self.cut_runs(["--workers", "1"], encode(value), 0, picture)

    def check_error(self, text: bytes, line: bytes) -> None:
        for run in self.cut_runs(["--workers", "1"], text, 1, b"", line):
            self.assertEqual((run.output, run.line), (b"", OUT_OF_MEMORY))

    def test_first_triangle(self) -> None:
        self.check_picture(FIRST, FIRST_PICTURE)

    def test_keys_in_another_order(self) -> None:
        triangles_first = {"triangles": [[0, 1, 2]], "vertices": FIRST_VERTICES}
        self.check_picture({"draws": [triangles_first], "height": 3, "width": 3}, FIRST_PICTURE)

    def test_two_draws(self) -> None:
        self.check_picture(draw_list(3, 3, FIRST_DRAW, FIRST_DRAW), FIRST_PICTURE)

    def test_strip(self) -> None:
        self.check_picture(draw_list(3, 3, {"vertices": FIRST_VERTICES, "strip": [0, 1, 2]}), FIRST_PICTURE)

    def test_quad(self) -> None:
        self.check_picture(draw_list(3, 3, {"vertices": SQUARE_VERTICES, "quads": [[0, 1, 2, 3]]}), SQUARE_PICTURE)

    def test_no_json(self) -> None:
        self.check_error(b'{"width":1', b"trirast: list fault 1 NotJson\n")

    def test_fault_of_the_second_draw(self) -> None:
        draws = (draw([], []), draw([], [(0, 0, 0)]))
        self.check_error(encode(draw_list(1, 1, *draws)), b"trirast: list fault 6 BadIndex in draw 1\n")

    def test_too_many_draws(self) -> None:
        self.check_error(encode(draw_list(1, 1, *[draw([], [])] * 1025)), b"trirast: list fault 7 TooMany\n")


class Draws(AllocationTest):
    """`OutOfMemory` is reported with the draw that was being read, and without one before the first draw
    and after the last."""

    program = READER_PROGRAM

    def reported(self, second: Draw, line: bytes) -> list[bytes]:
        """What is printed in place of this line as each allocation fails in turn, without repeats."""
        # The draws stand first, so that the list is read by its JSON value: the fast reader reports no error.
        text = encode({"draws": [FIRST_DRAW, second], "height": 3, "width": 3})
        answers = [run.output.splitlines()[0] for run in self.runs([], text) if run.output]
        return [answer for answer, _ in itertools.groupby(answer for answer in answers if answer != line)]

    def test_two_draws(self) -> None:
        no_memory = b"no list: fault 8 OutOfMemory"
        reported = self.reported(FIRST_DRAW, b"a list of 2 triangles")
        self.assertEqual(reported, [no_memory, no_memory + b" in draw 0", no_memory + b" in draw 1", no_memory])

    def test_checks_before_the_vertices_of_the_second_draw(self) -> None:
        no_memory = b"no list: fault 8 OutOfMemory"
        error = b"no list: fault 2 UnknownKey in draw 1"
        self.assertEqual(self.reported({**FIRST_DRAW, "fog": 1}, error), [no_memory, no_memory + b" in draw 0"])

    def test_vertices_of_the_second_draw(self) -> None:
        no_memory = b"no list: fault 8 OutOfMemory"
        error = b"no list: fault 4 WrongKind in draw 1"
        reported = self.reported({"vertices": [[0]], "triangles": []}, error)
        self.assertEqual(reported, [no_memory, no_memory + b" in draw 0", no_memory + b" in draw 1"])


class Arguments(AllocationTest):
    def check_arguments(self, arguments: Sequence[str], status: int, output: bytes, line: bytes) -> None:
        for run in self.cut_runs(arguments, b"", status, output, line):
            self.assertEqual((run.output, run.line), (b"", OUT_OF_MEMORY))

    def test_help(self) -> None:
        usage = b"usage: trirast [--tile 8|16|32|64] [--workers 1..16] < list.json > picture.ppm\n"
        self.check_arguments(["--help"], 0, usage, b"")

    def test_refused_arguments(self) -> None:
        self.check_arguments(["--tile", "7"], 2, b"", b"trirast: command line refused\n")


class Tiles(AllocationTest):
    """A tile buffer in which the allocation for a tile failed draws the next tiles as the reference crate does."""

    program = TILES_PROGRAM

    def check_tiles(self, text: bytes, tiles: int) -> None:
        def line(right: int, refused: int) -> bytes:
            return f"{right} tiles right, 0 wrong, {refused} refused\n".encode()

        none_refused, one_refused = (line(tiles, 0), 0), (line(tiles - 1, 1), 0)
        whole = drawn(self.program, text)
        self.assertEqual((whole.output, whole.status), none_refused)
        ends = [(run.output, run.status) for run in self.runs([], text)]
        # Elsewhere than in a tile a refusal is status 1, or a vector that could grow ahead of need grew by less.
        self.assertLessEqual(set(ends), {none_refused, one_refused, (b"", 1)})
        self.assertEqual(ends.count(one_refused), tiles)

    def test_six_tiles_of_four_samples(self) -> None:
        self.check_tiles(bytes_of("crates", "refused_tiles", "stdin"), 6)

    def test_nine_tiles_of_one_sample(self) -> None:
        corners = [vertex(0, 0), vertex(6144, 0), vertex(0, 6144)]
        self.check_tiles(encode(draw_list(24, 24, draw(corners))), 9)

    def test_four_tiles_of_depths(self) -> None:
        corners = [vertex(0, 0), vertex(2560, 0, 65535), vertex(0, 2560, 300)]
        nearest = draw(corners, depth_test="less", depth_write=True)
        self.check_tiles(encode(draw_list(10, 10, nearest, output="depth")), 4)
