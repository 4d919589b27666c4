"""Tests of tests/program/golden.py and tools/png.py, over lists and programs of their own.

    python3 -m pytest tests/program/test_golden.py
"""

from __future__ import annotations

import contextlib
import hashlib
import io
import os
import struct
import sys
import tempfile
import unittest
import zlib

from tools import png
from tests.program import golden
from tools.counts import Counts

# Two lists without triangles and their files, by the rules: each pixel has the clear colour, or the
# clear depth in two bytes.
COLOURS = b'{"width":2,"height":1,"clear":[1,2,255],"draws":[]}'
COLOUR_FILE = b"P6\n2 1\n255\n\x01\x02\xff\x01\x02\xff"
DEPTHS = b'{"width":2,"height":1,"output":"depth","clear_depth":513,"draws":[]}'
DEPTH_FILE = b"P5\n2 1\n65535\n\x02\x01\x02\x01"
REFUSED = b'{"width":0,"height":1,"draws":[]}'
REFUSED_LINE = b"trirast: list fault 5 OutOfRange\n"


# Width, height, bits of a channel, colour type, and rows.
Decoded = tuple[int, int, int, int, list[bytes]]


def chunks(data: bytes) -> list[tuple[bytes, bytes]]:
    """The chunks of a PNG file, each by its kind and data, with their checksums tested."""
    assert data[:8] == b"\x89PNG\r\n\x1a\n"
    found, place = [], 8
    while place < len(data):
        (length,) = struct.unpack(">I", data[place : place + 4])
        kind, inside = data[place + 4 : place + 8], data[place + 8 : place + 8 + length]
        assert struct.unpack(">I", data[place + 8 + length : place + 12 + length])[0] == zlib.crc32(kind + inside)
        found.append((kind, inside))
        place += 12 + length
    return found


def decode(data: bytes) -> Decoded:
    """Width, height, bits of a channel, colour type and rows of a PNG file without filters."""
    (_, header), (_, rows), _end = chunks(data)
    width, height, bits, colour_type, *_rest = struct.unpack(">IIBBBBB", header)
    rows = zlib.decompress(rows)
    size = len(rows) // height
    return width, height, bits, colour_type, [rows[k : k + size] for k in range(0, len(rows), size)]


class Png(unittest.TestCase):
    def test_colours(self) -> None:
        data = png.encode(2, 2, 3, bytes(range(12)))
        self.assertEqual([kind for kind, _ in chunks(data)], [b"IHDR", b"IDAT", b"IEND"])
        self.assertEqual(decode(data), (2, 2, 8, 2, [b"\0" + bytes(range(6)), b"\0" + bytes(range(6, 12))]))

    def test_depths_of_16_bits(self) -> None:
        self.assertEqual(decode(png.encode(1, 2, 2, b"\1\2\3\4")), (1, 2, 16, 0, [b"\0\1\2", b"\0\3\4"]))


class Lists(unittest.TestCase):
    """Runs over a folder that has the lists and the sums of a test, and a program that gives recorded answers."""

    def setUp(self) -> None:
        folder = tempfile.TemporaryDirectory()
        self.addCleanup(folder.cleanup)
        self.top = folder.name
        for name in golden.FOLDERS:
            os.makedirs(os.path.join(self.top, name))
        self.write("examples/colours.json", COLOURS)
        self.write("examples/README.md", b"| `colours.json` |")
        self.write_sums("examples", colours=COLOUR_FILE)
        self.write("tests/regressions/depths.json", DEPTHS)
        self.write("tests/regressions/README.md", b"| `depths.json` | | `refused.json` |")
        self.write_sums("tests/regressions", depths=DEPTH_FILE)

    def write(self, path: str, data: bytes) -> None:
        with open(os.path.join(self.top, path), "wb") as file:
            file.write(data)

    def write_sums(self, folder: str, **files: bytes) -> None:
        lines = "".join(f"{hashlib.sha256(data).hexdigest()}  {name}.pnm\n" for name, data in files.items())
        self.write(os.path.join(folder, golden.SUMS), lines.encode())

    def program(self, colours: bytes = COLOUR_FILE, depths: bytes = DEPTH_FILE, tiles_of_8: bytes | None = None) -> str:
        """A program that answers the two lists by these files, and with --tile 8 by another if one is given."""
        path = os.path.join(self.top, "program")
        text = f"""#!{sys.executable}
import sys
answers = {{{COLOURS!r}: {colours!r}, {DEPTHS!r}: {depths!r}}}
text = sys.stdin.buffer.read()
if text not in answers:
    sys.stderr.buffer.write({REFUSED_LINE!r})
    sys.exit(1)
sys.stdout.buffer.write({tiles_of_8!r} if {tiles_of_8!r} and "8" in sys.argv else answers[text])
"""
        self.write("program", text.encode())
        os.chmod(path, 0o755)
        return path

    def check(self, program: str) -> Counts:
        printed = io.StringIO()
        with contextlib.redirect_stdout(printed):
            total = golden.Golden(self.top, program).check()
        self.printed = printed.getvalue()
        return total

    def left(self) -> list[str]:
        folder = os.path.join(self.top, golden.OUT)
        return sorted(os.listdir(folder)) if os.path.isdir(folder) else []

    def png(self, name: str) -> Decoded:
        with open(os.path.join(self.top, golden.OUT, name), "rb") as file:
            return decode(file.read())

    def test_right_pictures(self) -> None:
        self.assertEqual(self.check(self.program()), Counts(passed=6))
        self.assertEqual((self.printed, self.left()), ("", []))

    def test_a_wrong_picture(self) -> None:
        wrong = COLOUR_FILE[:-3] + b"\x05\x02\x00"
        self.assertEqual(self.check(self.program(colours=wrong)), Counts(passed=4, failed=1))
        self.assertIn("program < examples/colours.json", self.printed)
        self.assertIn("got and expected: 1 pixels differ, first (1, 0): 05 02 00 and 01 02 ff", self.printed)
        self.assertIn(os.path.join("out", "golden", "colours.*"), self.printed)
        names = ["colours.difference.png", "colours.expected.png", "colours.got.png", "colours.json"]
        self.assertEqual(self.left(), names)
        self.assertEqual(self.png("colours.got.png"), (2, 1, 8, 2, [b"\0\x01\x02\xff\x05\x02\x00"]))
        self.assertEqual(self.png("colours.expected.png"), (2, 1, 8, 2, [b"\0\x01\x02\xff\x01\x02\xff"]))
        # Differences of 4 and 255, halved, over 128.
        self.assertEqual(self.png("colours.difference.png"), (2, 1, 8, 2, [b"\0\0\0\0\x82\0\xff"]))

    def test_wrong_depths(self) -> None:
        self.assertEqual(self.check(self.program(depths=DEPTH_FILE[:-1] + b"\2")), Counts(passed=4, failed=1))
        self.assertIn("first (1, 0): 02 02 and 02 01", self.printed)
        self.assertEqual(self.png("depths.got.png"), (2, 1, 16, 0, [b"\0\2\1\2\2"]))
        self.assertEqual(self.png("depths.difference.png"), (2, 1, 16, 0, [b"\0\0\0\x80\0"]))

    def test_a_wrong_picture_with_tiles_of_8_alone(self) -> None:
        wrong = COLOUR_FILE[:-1] + b"\xfe"
        self.assertEqual(self.check(self.program(tiles_of_8=wrong)), Counts(passed=4, failed=2))
        self.assertIn("--tile 8 --workers 1 < examples/colours.json: got and expected: 1 pixels differ", self.printed)

    def test_a_picture_of_another_size(self) -> None:
        self.assertEqual(self.check(self.program(colours=b"P6\n1 1\n255\n\1\2\3")), Counts(passed=4, failed=1))
        self.assertIn("the pictures are 1 by 1 with 3 bytes a pixel and 2 by 1 with 3 bytes a pixel", self.printed)
        self.assertEqual(self.left(), ["colours.expected.png", "colours.got.png", "colours.json"])

    def test_a_file_that_is_no_picture(self) -> None:
        self.assertEqual(self.check(self.program(colours=COLOUR_FILE[:-1])), Counts(passed=4, failed=1))
        self.assertEqual(self.left(), ["colours.expected.png", "colours.json"])

    def test_a_refused_list(self) -> None:
        self.write("tests/regressions/refused.json", REFUSED)
        self.write_sums("tests/regressions", depths=DEPTH_FILE, refused=b"")
        self.assertEqual(self.check(self.program()), Counts(passed=9))

    def test_a_list_that_should_not_be_refused(self) -> None:
        changed = COLOURS + b" "
        self.write("examples/colours.json", changed)
        self.assertEqual(self.check(self.program()), Counts(passed=4, failed=1))
        self.assertIn("got status 1 'trirast: list fault 5 OutOfRange', expected status 0 ''", self.printed)

    def test_a_sum_that_is_not_the_references(self) -> None:
        self.write_sums("examples", colours=COLOUR_FILE + b"\0")
        self.assertEqual(self.check(self.program()), Counts(passed=5, failed=1))
        self.assertIn("examples/colours.json: the sum in SHA256SUMS is not that", self.printed)
        self.assertIn(hashlib.sha256(COLOUR_FILE).hexdigest(), self.printed)

    def test_a_list_without_a_sum(self) -> None:
        self.write("examples/more.json", COLOURS)
        self.write("examples/README.md", b"| `colours.json` | | `more.json` |")
        self.assertEqual(self.check(self.program()), Counts(passed=6, failed=1))
        self.assertIn("examples/more.json has no sum", self.printed)

    def test_a_sum_without_a_list(self) -> None:
        self.write_sums("examples", colours=COLOUR_FILE, gone=COLOUR_FILE)
        self.assertEqual(self.check(self.program()), Counts(passed=6, failed=1))
        self.assertIn("there is no gone.json", self.printed)

    def test_a_folder_without_lists(self) -> None:
        os.remove(os.path.join(self.top, "examples", "colours.json"))
        self.write_sums("examples")
        self.assertEqual(self.check(self.program()), Counts(passed=3, failed=1))
        self.assertIn("there is no list in examples", self.printed)

    def test_a_list_without_a_line(self) -> None:
        self.write("examples/README.md", b"`colours.json`")
        self.assertEqual(self.check(self.program()), Counts(passed=6, failed=1))
        self.assertIn("examples/colours.json has no line", self.printed)

    def test_sums_that_cannot_be_read(self) -> None:
        line = f"{'0' * 64}  colours.pnm\n"
        for text, reason in (
            (line * 2, "line 2"), (line.replace("  ", " "), "line 1"), (line.replace("pnm", "ppm"), "line 1")
        ):
            self.write(os.path.join("examples", golden.SUMS), text.encode())
            self.assertEqual(self.check(self.program()), Counts(passed=3, failed=1), text)
            self.assertIn(reason, self.printed)

    def test_no_file_of_sums(self) -> None:
        os.remove(os.path.join(self.top, "examples", golden.SUMS))
        self.assertEqual(self.check(self.program()), Counts(passed=3, failed=1))
        self.assertIn("No such file", self.printed)

    def test_sums_are_recorded(self) -> None:
        self.write("examples/more.json", DEPTHS)
        golden.record(self.top)
        recorded = golden.read_sums(os.path.join(self.top, "examples", golden.SUMS))
        sums = {
            name: hashlib.sha256(data).hexdigest() for name, data in (("colours", COLOUR_FILE), ("more", DEPTH_FILE))
        }
        self.assertEqual(recorded, sums)
