"""Inputs and outputs that fail after some bytes: what bin/trirast then reports, and which bytes are written.

An output is a file that may not become longer than some bytes. An input is a pipe that nothing waits for, from which a
read beyond its bytes is an error.
"""

from __future__ import annotations

import os
import resource
import subprocess
import tempfile
from typing import IO, Any

import pytest

from tests.program.lists import CORNER, HALF, TRIANGLE, WHITE, draw, draw_list, white_before
from tests.program.program import call, colour_file, depth_file
from tools.answers import Answer
from tools.places import PROGRAM

INPUT_FAILED = b"trirast: input failed\n"
TRIANGLE_FILE = colour_file(3, 3, CORNER)
USAGE = b"usage: trirast [--tile 8|16|32|64] [--workers 1..16] < list.json > picture.ppm\n"


def written(count: int) -> bytes:
    return f"trirast: write failed after {count} bytes\n".encode()


def run_limited(text: str, room: int, arguments: tuple[str, ...], **streams: Any) -> subprocess.CompletedProcess[bytes]:
    """A run whose files may have this many bytes each."""

    def limit() -> None:
        resource.setrlimit(resource.RLIMIT_FSIZE, (room, room))

    # Python ignores the signal of a file that is too large, and so does then the program.
    return subprocess.run(
        [PROGRAM, *arguments], input=text.encode(), timeout=60, preexec_fn=limit, restore_signals=False, check=False,
        **streams,
    )


def held_by(file: IO[bytes]) -> bytes:
    file.seek(0)
    return file.read()


def call_into(text: str, room: int, *arguments: str) -> Answer:
    """How the program ends whose output takes this many bytes, and what it took."""
    with tempfile.TemporaryFile() as output:
        done = run_limited(text, room, arguments, stdout=output, stderr=subprocess.PIPE)
        return Answer(done.returncode, held_by(output), done.stderr)


def call_over(data: bytes) -> Answer:
    """How the program ends whose input fails after these bytes."""
    read_end, write_end = os.pipe()
    try:
        os.set_blocking(read_end, False)
        os.write(write_end, data)
        done = subprocess.run([PROGRAM], stdin=read_end, capture_output=True, timeout=60, check=False)
    finally:
        os.close(read_end)
        os.close(write_end)
    return Answer(done.returncode, done.stdout, done.stderr)


def test_reports_each_read_that_fails() -> None:
    """The last one is the read behind the last byte. Where the bytes before it denote no list, that is not reported."""
    assert call(TRIANGLE) == (0, TRIANGLE_FILE, b"")
    data = TRIANGLE.encode()
    for count in range(len(data) + 1):
        assert call_over(data[:count]) == (1, b"", INPUT_FAILED), count
    assert call_over(b"{]") == (1, b"", INPUT_FAILED)



# 1 by 33 pixels, so two tile rows of 32 pixels, and a triangle over the centres of rows 0 to 18.
COLUMN = draw_list(1, 33, draw(f"[0,0,{WHITE}],[5120,0,{WHITE}],[0,5120,{WHITE}]"))
COLUMN_FILE = colour_file(1, 33, "FFFFFF" * 19 + "000000" * 14)

# 65 by 65 pixels, and depth 258 in the pixels of a triangle over the upper left half of 64 by 64 of them and a little
# more: row j has it in pixels 0 to 63 - j, and else the clear depth.
DEPTHS = (
    '{"width":65,"height":65,"output":"depth","draws":[{"depth_write":true,"vertices":'
    '[[0,0,258,0,0,0,0],[16640,0,258,0,0,0,0],[0,16640,258,0,0,0,0]],"triangles":[[0,1,2]]}]}'
)
DEPTHS_FILE = depth_file(65, 65, "".join("0102" * (64 - row) + "FFFF" * (row + 1) for row in range(65)))

HALF_FILE = white_before(65, 65, 64)


def check_cut(text: str, file: bytes, room: int, *arguments: str) -> None:
    """Checks that exactly the bytes are written for which there is room, and that their number is reported."""
    assert call_into(text, room, *arguments) == (1, file[:room], written(room)), (room, arguments)


@pytest.mark.parametrize("workers", ["1", "2"])
def test_reports_how_much_went_out_at_each_byte(workers: str) -> None:
    assert len(COLUMN_FILE) == 111
    for room in range(111):
        check_cut(COLUMN, COLUMN_FILE, room, "--workers", workers)
    assert call_into(COLUMN, 111, "--workers", workers) == (0, COLUMN_FILE, b"")


@pytest.mark.parametrize("workers", ["1", "7"])
def test_reports_how_much_went_out_of_a_larger_picture(workers: str) -> None:
    """At the ends of the header and of the tile rows, and beside them: the header has 13 bytes, and a
    tile row 32 * 195."""
    assert len(HALF_FILE) == 12_688
    for room in (0, 1, 5, 12, 13, 14, 6252, 6253, 6254, 12_492, 12_493, 12_687):
        check_cut(HALF, HALF_FILE, room, "--workers", workers)
    assert call_into(HALF, 12_688, "--workers", workers) == (0, HALF_FILE, b"")


def test_reports_how_many_bytes_of_depths_went_out() -> None:
    """The header has 15 bytes, and each of the first two tile rows 32 * 65 * 2 = 4,160."""
    assert len(DEPTHS_FILE) == 8465
    for room in (0, 5, 14, 15, 16, 4174, 4175, 4176, 8335, 8464):
        check_cut(DEPTHS, DEPTHS_FILE, room, "--workers", "7")
    assert call_into(DEPTHS, 8465, "--workers", "1") == (0, DEPTHS_FILE, b"")


def test_passes_over_a_usage_line_that_cannot_be_written() -> None:
    for room in range(len(USAGE) + 1):
        assert call_into("", room, "--help") == (0, USAGE[:room], b"")


@pytest.mark.parametrize(
    ("arguments", "text", "output", "status", "wanted", "line"),
    [
        (("--tile", "8"), TRIANGLE, "", 0, TRIANGLE_FILE, b""),
        (("--tile", "8"), TRIANGLE, "/dev/full", 1, b"", written(0)),
        (("--tile", "8"), "[]", "", 1, b"", b"trirast: list fault 4 WrongKind\n"),
        (("--tile", "9"), TRIANGLE, "", 2, b"", b"trirast: command line refused\n"),
    ],
    ids=["a picture", "a failed write", "no list", "refused arguments"],
)
def test_passes_over_a_line_that_cannot_be_written(
    arguments: tuple[str, ...], text: str, output: str, status: int, wanted: bytes, line: bytes
) -> None:
    """Status and output are the same if only a beginning of the line can be written."""
    for room in range(len(line) + 1):
        with tempfile.TemporaryFile() as errors, open(output or os.devnull, "wb") as device:
            done = run_limited(text, room, arguments, stdout=device if output else subprocess.PIPE, stderr=errors)
            assert (done.returncode, done.stdout or b"", held_by(errors)) == (status, wanted, line[:room])


@pytest.mark.parametrize(
    ("size", "output", "header"),
    [
        ((1, 1), "color", b"P6\n1 1\n255\n"),
        ((4096, 65), "color", b"P6\n4096 65\n255\n"),
        ((1, 1), "depth", b"P5\n1 1\n65535\n"),
        ((4096, 65), "depth", b"P5\n4096 65\n65535\n"),
        ((4096, 4095), "depth", b"P5\n4096 4095\n65535\n"),
    ],
    ids=lambda value: value if isinstance(value, str) else "",
)
def test_reports_how_much_of_a_header_went_out(size: tuple[int, int], output: str, header: bytes) -> None:
    text = draw_list(*size, keys=f',"output":"{output}"')
    for room in (0, 5, len(header) - 1, len(header)):
        assert call_into(text, room) == (1, header[:room], written(room))
