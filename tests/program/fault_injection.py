"""Runs bin/trirast where things go wrong: devices that fail, limits of the system, lists at the ends of their limits.

    python3 -m pytest tests/program/fault_injection.py

Each run ends by itself, with the picture or with one line and its status. What the system here does not have is named
and skipped, as is gcc, by which single threads are refused. Linux alone.
"""

from __future__ import annotations

import os
import resource
import shutil
import subprocess
import tempfile
import unittest
from typing import IO, Any

from tools import small_pictures
from tests.reference import renderer
from tools.answers import Answer
from tests.program import injection
from tests.program import tall_picture as tall
from tools.draw_list import Draw, draw, draw_list, encode, vertex
from tools.places import PROGRAM
from tools.small_pictures import (
    FIRST_DRAW, FIRST_PICTURE, FIRST_VERTICES, LARGE, LARGE_BEGINNINGS, LARGE_PICTURE, OUT_OF_MEMORY, RED_DRAW,
    RED_PICTURE, RED_VERTICES, SQUARE_PICTURE, SQUARE_VERTICES,
)

MAX_SECONDS = 120
MAX_BYTES = 67_108_864
# No user of this number has a process, so a limit of one process leaves the program its first thread alone.
LONELY_USER = 54_321

FIRST = encode(small_pictures.FIRST)
LARGE_TEXT = encode(LARGE)
ONE_WORKER = ("--tile", "32", "--workers", "1")

# A picture of more bytes than a pipe holds: black, since nothing is drawn.
WIDE = encode(draw_list(1024, 1024))
WIDE_PICTURE = b"P6\n1024 1024\n255\n" + bytes(3 * 1024 * 1024)

NO_JSON = b"trirast: list fault 1 NotJson\n"


def triangle(*corners: tuple[int, int]) -> Draw:
    return draw([vertex(x, y) for x, y in corners])


def run(text: bytes | None, *arguments: str | bytes, program: str = PROGRAM, **how: Any) -> Answer:
    """A run on this list. Further arguments are given to `subprocess.run`; a stream that they name is not captured."""
    streams: dict[str, Any] = {
        "input": text, "stdout": subprocess.PIPE, "stderr": subprocess.PIPE, "timeout": MAX_SECONDS, **how
    }
    done = subprocess.run([program, *arguments], **streams)
    return Answer(done.returncode, done.stdout or b"", done.stderr)


def run_by_shell(redirection: str, text: bytes) -> Answer:
    """The same of a run whose streams the shell redirects."""
    return run(text, "-c", f'exec "$0" {redirection}', PROGRAM, program="/bin/sh")


def written(count: int) -> bytes:
    return f"trirast: write failed after {count} bytes\n".encode()


class Inputs(unittest.TestCase):
    def test_closed_input_failed(self) -> None:
        self.assertEqual(run_by_shell("<&-", b""), (1, b"", b"trirast: input failed\n"))

    def test_directory_as_input_failed(self) -> None:
        self.assertEqual(run_by_shell("< /", b""), (1, b"", b"trirast: input failed\n"))

    def test_input_of_one_byte_at_a_time(self) -> None:
        with subprocess.Popen([PROGRAM], stdin=subprocess.PIPE, stdout=subprocess.PIPE, bufsize=0) as child:
            assert child.stdin and child.stdout
            for byte in FIRST:
                child.stdin.write(bytes([byte]))
            child.stdin.close()
            self.assertEqual((child.stdout.read(), child.wait()), (FIRST_PICTURE, 0))

    def test_refused_arguments_leave_the_input_unread(self) -> None:
        refused: tuple[tuple[str | bytes, ...], ...] = (
            ("--tile", "7"), ("--workers", "17"), ("--fast",), ("list.json",), (b"\xff",),
        )
        for arguments in refused:
            with tempfile.TemporaryFile() as file:
                file.write(FIRST)
                file.seek(0)
                found = run(None, *arguments, stdin=file)
                self.assertEqual(found, (2, b"", b"trirast: command line refused\n"), arguments)
                self.assertEqual(os.lseek(file.fileno(), 0, os.SEEK_CUR), 0)


class Outputs(unittest.TestCase):
    def test_full_device_takes_nothing(self) -> None:
        with open("/dev/full", "wb") as full:
            status, _output, line = run(FIRST, stdout=full)
        self.assertEqual((status, line), (1, written(0)))

    def test_closed_output_takes_nothing(self) -> None:
        self.assertEqual(run_by_shell(">&-", FIRST), (1, b"", written(0)))

    def test_file_that_takes_each_number_of_bytes(self) -> None:
        """A file with a limit to its length takes that many bytes and refuses the next one, for each
        limit with one worker."""
        with tempfile.TemporaryFile() as list_file, tempfile.TemporaryFile() as file:
            list_file.write(LARGE_TEXT)
            list_file.flush()
            for length in range(len(LARGE_PICTURE)):
                list_file.seek(0)
                file.seek(0)
                file.truncate()
                self.assertEqual(self.run_limited(length, list_file, file), (1, b"", written(length)))
                file.seek(0)
                self.assertEqual(file.read(), LARGE_PICTURE[:length])

    def run_limited(self, length: int, list_file: IO[bytes], file: IO[bytes]) -> Answer:
        def limit() -> None:
            resource.setrlimit(resource.RLIMIT_FSIZE, (length, length))

        # Python ignores the signal of a file that is too large, and so does then the program.
        return run(None, *ONE_WORKER, stdin=list_file, stdout=file, preexec_fn=limit, restore_signals=False)

    def test_file_that_takes_the_whole_picture(self) -> None:
        with tempfile.TemporaryFile() as list_file, tempfile.TemporaryFile() as file:
            list_file.write(LARGE_TEXT)
            list_file.seek(0)
            self.assertEqual(self.run_limited(len(LARGE_PICTURE), list_file, file), (0, b"", b""))
            file.seek(0)
            self.assertEqual(file.read(), LARGE_PICTURE)

    def test_pipe_that_is_full(self) -> None:
        """A pipe that nobody reads and that does not wait holds what the line says, a beginning of the file."""
        read_end, write_end = os.pipe()
        os.set_blocking(write_end, False)
        with open(read_end, "rb") as pipe:
            try:
                status, _output, line = run(WIDE, stdout=write_end)
            finally:
                os.close(write_end)
            held = pipe.read()
        self.assertLess(0, len(held))
        self.assertLess(len(held), len(WIDE_PICTURE))
        self.assertEqual((status, line), (1, written(len(held))))
        self.assertTrue(WIDE_PICTURE.startswith(held))

    def test_reader_that_goes_away(self) -> None:
        with subprocess.Popen(
            [PROGRAM], stdin=subprocess.PIPE, stdout=subprocess.PIPE, stderr=subprocess.PIPE
        ) as child:
            assert child.stdin and child.stdout and child.stderr
            child.stdin.write(WIDE)
            child.stdin.close()
            self.assertEqual(child.stdout.read(100), WIDE_PICTURE[:100])
            child.stdout.close()
            self.assertRegex(child.stderr.read(), rb"\Atrirast: write failed after \d+ bytes\n\Z")
            self.assertEqual(child.wait(), 1)


class Errors(unittest.TestCase):
    """If the line cannot be written, status and output are the same."""

    def test_picture_with_closed_standard_error(self) -> None:
        self.assertEqual(run_by_shell("2>&-", FIRST), (0, FIRST_PICTURE, b""))

    def test_picture_with_full_standard_error(self) -> None:
        self.assertEqual(run_by_shell("2>/dev/full", FIRST), (0, FIRST_PICTURE, b""))

    def test_fault_with_closed_standard_error(self) -> None:
        self.assertEqual(run_by_shell("2>&-", b"[]"), (1, b"", b""))

    def test_fault_with_full_standard_error(self) -> None:
        self.assertEqual(run_by_shell("2>/dev/full", b"[]"), (1, b"", b""))

    def test_failed_input_with_closed_standard_error(self) -> None:
        self.assertEqual(run_by_shell("<&- 2>&-", b""), (1, b"", b""))

    def test_failed_write_with_full_standard_error(self) -> None:
        self.assertEqual(run_by_shell(">/dev/full 2>/dev/full", FIRST), (1, b"", b""))

    def test_refused_arguments_with_closed_standard_error(self) -> None:
        self.assertEqual(run_by_shell("--tile 7 2>&-", FIRST), (2, b"", b""))


class Threads(unittest.TestCase):
    """A thread that the system does not start costs time and no picture: the calling thread draws in its place."""

    def setUp(self) -> None:
        # A user of another number has to reach the program.
        folder = tempfile.TemporaryDirectory()
        self.addCleanup(folder.cleanup)
        os.chmod(folder.name, 0o711)
        self.program = shutil.copy(PROGRAM, os.path.join(folder.name, "trirast"))
        os.chmod(self.program, 0o755)

    def run_with_processes(self, most: int, *arguments: str, program: str | None = None) -> Answer:
        """A run of a user who may have this many processes, threads counted in."""

        def limit() -> None:
            if os.geteuid() == 0:
                os.setgroups([])
                os.setgid(LONELY_USER)
                resource.setrlimit(resource.RLIMIT_NPROC, (most, most))
                os.setuid(LONELY_USER)
            else:
                resource.setrlimit(resource.RLIMIT_NPROC, (1, 1))

        try:
            return run(LARGE_TEXT, *arguments, program=program or self.program, preexec_fn=limit)
        except subprocess.SubprocessError:
            self.skipTest("this system lets no process take another user's number")

    def check_that_the_limit_holds(self) -> None:
        """Threads are counted as processes are, so a shell that cannot start one has no thread left either."""
        if self.run_with_processes(1, "-c", "(:) & wait $!", program="/bin/sh")[0] == 0:
            self.skipTest("this system does not keep the limit on processes")

    def test_no_thread_at_all(self) -> None:
        self.check_that_the_limit_holds()
        for workers in ("1", "2", "3", "16"):
            found = self.run_with_processes(1, "--tile", "32", "--workers", workers)
            self.assertEqual(found, (0, LARGE_PICTURE, b""), workers)

    def test_some_threads_of_three(self) -> None:
        if os.geteuid() != 0:
            self.skipTest("only root can take a user's number that has no other process")
        self.check_that_the_limit_holds()
        for most in (2, 3, 4, 64):
            found = self.run_with_processes(most, "--tile", "32", "--workers", "3")
            self.assertEqual(found, (0, LARGE_PICTURE, b""), most)

    def test_each_size_of_the_address_space(self) -> None:
        """With too little of it the program is not loaded, or memory or a thread's stack is refused."""
        for kilobytes in range(2048, 160 * 1024, 2048):
            limited = f'ulimit -c 0; ulimit -v {kilobytes}; exec "$0" --tile 32'
            status, output, line = run(LARGE_TEXT, "-c", limited, self.program, program="/bin/sh")
            if line == OUT_OF_MEMORY:
                self.assertEqual(status, 1)
                self.assertIn(len(output), LARGE_BEGINNINGS)
                self.assertTrue(LARGE_PICTURE.startswith(output))
            elif status == 0:
                self.assertEqual((output, line), (LARGE_PICTURE, b""))
            else:
                # The system could not load it.
                self.assertFalse(output)
                self.assertFalse(line.startswith(b"trirast: "), line)
        self.assertEqual((status, line), (0, b""))


class RefusedThreads(injection.InjectionTest):
    """A picture of eight batches is whole if one thread is not started, whichever it is, and if no
    later one is either."""

    def check_threads(self, workers: int, later: int = 0) -> None:
        runs = self.each_run(
            lambda number: self.run_once(tall.arguments(workers), tall.LIST, thread=number, later=later)
        )
        # Each batch has a thread for each worker, and those before the refused one were started.
        threads = workers * tall.ROWS // tall.TOGETHER
        self.assertEqual([run.refusals[0].started for run in runs], list(range(threads)))
        for run in runs:
            self.assertEqual((run.status, run.line), (0, b""), run.refusals)
            self.assertTrue(run.output == tall.PICTURE, f"another picture after {run.refusals}")

    def test_each_thread_of_two_workers(self) -> None:
        self.check_threads(2)

    def test_each_thread_of_four_workers(self) -> None:
        self.check_threads(4)

    def test_stacks_that_find_no_address_space(self) -> None:
        drawn_without = 0
        for megabytes in range(3, 64):
            most = megabytes * 1024 * 1024
            run = self.run_once(
                tall.arguments(4), tall.LIST,
                preexec_fn=lambda most=most: resource.setrlimit(resource.RLIMIT_AS, (most, most)),
            )
            # With less the system cannot load the program, or memory is refused.
            if run.status == 0:
                self.assertTrue((run.output, run.line) == (tall.PICTURE, b""), f"another picture in {megabytes} MiB")
                drawn_without += bool(run.refusals)
        self.assertLess(0, drawn_without)

    def test_all_threads_from_each_one_on(self) -> None:
        self.check_threads(2, later=injection.EACH)
        self.check_threads(4, later=injection.EACH)


class Lists(unittest.TestCase):
    def check_error(self, text: bytes, error: str) -> None:
        self.assertEqual(run(text), (1, b"", f"trirast: list fault {error}\n".encode()))

    def test_longest_list(self) -> None:
        longest = FIRST + b" " * (MAX_BYTES - len(FIRST))
        self.assertEqual(run(longest), (0, FIRST_PICTURE, b""))
        self.assertEqual(run(b" " * (MAX_BYTES - len(FIRST)) + FIRST), (0, FIRST_PICTURE, b""))
        self.assertEqual(run(longest + b" "), (1, b"", b"trirast: input too long\n"))

    def test_longest_error(self) -> None:
        self.assertEqual(run(b"[" * MAX_BYTES), (1, b"", NO_JSON))
        self.assertEqual(run(b"[" * (MAX_BYTES + 1)), (1, b"", b"trirast: input too long\n"))

    def test_every_proper_beginning(self) -> None:
        self.assertEqual(run(FIRST), (0, FIRST_PICTURE, b""))
        for length in range(len(FIRST)):
            self.assertEqual(run(FIRST[:length]), (1, b"", NO_JSON), length)

    def test_bytes_that_are_no_text(self) -> None:
        for text in (b"\xff", b"\xff" + FIRST, FIRST + b"\xff", FIRST + b"\0", b"\xef\xbb\xbf" + FIRST, FIRST + FIRST):
            self.assertEqual(run(text), (1, b"", NO_JSON), text)

    def test_brackets(self) -> None:
        for open_brackets in (100, 200):
            self.check_error(b"[" * open_brackets, "1 NotJson")
        for nested, error in ((100, "4 WrongKind"), (127, "4 WrongKind"), (128, "1 NotJson"), (200, "1 NotJson")):
            self.check_error(b"[" * nested + b"]" * nested, error)

    def test_most_triangles(self) -> None:
        def drawn(number: int) -> bytes:
            return encode(draw_list(3, 3, draw(FIRST_VERTICES, [(0, 1, 2)] * number)))

        self.assertEqual(run(drawn(65536)), (0, FIRST_PICTURE, b""))
        self.check_error(drawn(65537), "7 TooMany in draw 0")

    def test_most_triangles_of_two_draws(self) -> None:
        def drawn(first: int, second: int) -> bytes:
            white, red = draw(FIRST_VERTICES, [(0, 1, 2)] * first), draw(RED_VERTICES, [(0, 1, 2)] * second)
            return encode(draw_list(3, 3, white, red))

        self.assertEqual(run(drawn(40000, 25536)), (0, RED_PICTURE, b""))
        self.check_error(drawn(40000, 25537), "7 TooMany in draw 1")

    def test_most_vertices(self) -> None:
        def drawn(number: int) -> bytes:
            """The last three vertices are the triangle's."""
            vertices = [vertex(0, 0)] * (number - 3) + FIRST_VERTICES
            return encode(draw_list(3, 3, draw(vertices, [(number - 3, number - 2, number - 1)])))

        self.assertEqual(run(drawn(65536)), (0, FIRST_PICTURE, b""))
        self.check_error(drawn(65537), "7 TooMany in draw 0")

    def test_most_draws(self) -> None:
        self.assertEqual(run(encode(draw_list(3, 3, *[FIRST_DRAW] * 1023, RED_DRAW))), (0, RED_PICTURE, b""))
        self.check_error(encode(draw_list(3, 3, *[FIRST_DRAW] * 1024, RED_DRAW)), "7 TooMany")

    def test_most_indices_of_a_strip_and_most_quads(self) -> None:
        def drawn(**faces: list[Any]) -> bytes:
            return encode(draw_list(3, 3, {"vertices": SQUARE_VERTICES, **faces}))

        self.assertEqual(run(drawn(strip=[0, 1] + [3, 2] * 32768)), (0, SQUARE_PICTURE, b""))
        self.assertEqual(run(drawn(quads=[[0, 1, 2, 3]] * 32768)), (0, SQUARE_PICTURE, b""))
        self.check_error(drawn(strip=[0] * 65539), "7 TooMany in draw 0")
        self.check_error(drawn(quads=[[0, 1, 2, 3]] * 32769), "7 TooMany in draw 0")

    def test_largest_picture(self) -> None:
        corners = ((0, 0), (2 * 4096 * 256, 0), (0, 2 * 4096 * 256))
        for samples in (1, 4):
            text = encode(draw_list(4096, 4096, triangle(*corners), samples=samples))
            # Every pixel's samples lie left of and above the slanted edge.
            self.assertEqual(run(text), (0, b"P6\n4096 4096\n255\n" + b"\xff" * (3 * 4096 * 4096), b""))

    def test_slivers_along_a_row_of_centres(self) -> None:
        for far in (4194303, 8388607):
            below = triangle((0, 128), (far, 128), (far, 129))
            above = triangle((0, 128), (far, 128), (far, 127))
            self.assertEqual(run(encode(draw_list(4, 1, below))), (0, b"P6\n4 1\n255\n" + b"\xff" * 12, b""))
            self.assertEqual(run(encode(draw_list(4, 1, above))), (0, b"P6\n4 1\n255\n" + bytes(12), b""))

    def test_coordinates_at_the_ends_of_the_band(self) -> None:
        low, high = renderer.BAND
        white = b"P6\n2 2\n255\n" + b"\xff" * 12
        for near, far in ((low, high), (-4194305, 4194304)):
            text = encode(draw_list(2, 2, triangle((near, near), (far, near), (near, far))))
            found = run(text)
            self.assertEqual(found, (0, renderer.render(renderer.read(text)), b""))
            whole = [triangle((near, near), (far, near), (far, far)), triangle((near, near), (far, far), (near, far))]
            self.assertEqual(run(encode(draw_list(2, 2, *whole))), (0, white, b""))
        for outside in (low - 1, high + 1):
            for corner in ((outside, 0), (0, outside)):
                text = encode(draw_list(2, 2, triangle(corner, (0, 0), (256, 0))))
                self.check_error(text, "5 OutOfRange in draw 0")
