"""Files of posters that are damaged, or that somebody replaced: no other picture is drawn, no other file is written
to, nothing waits, and little memory is taken."""

import importlib.util
import json
import os
import random
import resource
import signal
import struct
import subprocess
import sys
import tracemalloc
import unittest
import zipfile
import zlib
from contextlib import contextmanager
from typing import Any, Callable, Dict, Iterator, List, Optional, Tuple
from unittest import mock

if importlib.util.find_spec("numpy") is None:
    raise unittest.SkipTest("posters need numpy")

import numpy as np

import trirast
from trirast import poster
from trirast._png import chunk
from trirast.poster import _poster

from .common import PYTHON, SECONDS
from .poster_common import Files, random_scene

# Seconds after which something waits that should not, and bytes that are enough for small pictures.
PATIENCE, ENOUGH = 120, 40_000_000
# What an error says of a disk that is full, here of a file that may not grow.
TOO_LARGE = "File too large"


@contextmanager
def patience() -> Iterator[None]:
    """Raises TimeoutError if what is within waits."""

    def give_up(*_: Any) -> None:
        raise TimeoutError("it waits")

    before = signal.signal(signal.SIGALRM, give_up)
    signal.alarm(PATIENCE)
    try:
        yield
    finally:
        signal.alarm(0)
        signal.signal(signal.SIGALRM, before)


@contextmanager
def little_memory(enough: int = ENOUGH) -> Iterator[None]:
    """Raises AssertionError if what is within takes much memory, of Python or of numpy."""
    tracemalloc.start()
    try:
        yield
        most = tracemalloc.get_traced_memory()[1]
    finally:
        tracemalloc.stop()
    if most > enough:
        raise AssertionError(f"{most} bytes were taken, and {enough} are enough")


def header_of(dtype: str, shape: str, *, length: Optional[int] = None) -> bytes:
    """The header of a member, version 2."""
    text = f"{{'descr': '{dtype}', 'fortran_order': False, 'shape': {shape}, }}".encode().ljust(116) + b"\n"
    return b"\x93NUMPY\x02\x00" + struct.pack("<I", len(text) if length is None else length) + text


class Arrays(Files):
    """Files of arrays."""

    VALUE = {"width": 20, "height": 20, "draws": [{"triangles": 100}]}

    def save(self, name: str, packed: bool) -> bytes:
        pick = np.random.default_rng(1)
        places, others = pick.integers(0, 5000, (300, 2)), pick.integers(0, 255, (300, 5))
        self.vertices = np.concatenate((places, others), 1).astype(np.int32)
        self.triangles = pick.integers(0, 300, (100, 3)).astype(np.int32)
        save = np.savez_compressed if packed else np.savez
        save(
            self.path(name), vertices=self.vertices, triangles=self.triangles,
            draws=np.array(json.dumps(self.VALUE)),
        )
        return self.content(name)

    def test_a_flipped_bit_is_never_another_scene(self) -> None:
        pick = random.Random(1)
        for packed in (False, True):
            data = self.save("a.npz", packed)
            wanted = poster.scene_of(self.path("a.npz"))
            refused = 0
            for _ in range(300):
                place = pick.randrange(len(data))
                flipped = bytearray(data)
                flipped[place] ^= 1 << pick.randrange(8)
                self.write("flipped.npz", bytes(flipped))
                try:
                    found = poster.scene_of(self.path("flipped.npz"))
                except (poster.ArraysError, trirast.Error):
                    refused += 1
                    continue
                self.assertEqual(found.checksum(), wanted.checksum(), (packed, place))
            self.assertGreater(refused, 200)

    def write_members(self, members: Dict[str, Callable[[Any], None]], packing: int = zipfile.ZIP_DEFLATED) -> str:
        """Writes a file of arrays, some of whose members are written by calls."""
        self.save("a.npz", True)
        path = self.path("bomb.npz")
        with zipfile.ZipFile(self.path("a.npz")) as given, zipfile.ZipFile(path, "w", packing) as archive:
            for name in ("vertices", "triangles", "draws"):
                with archive.open(f"{name}.npy", "w", force_zip64=True) as file:
                    if name in members:
                        members[name](file)
                    else:
                        file.write(given.read(f"{name}.npy"))
        return path

    def must_be_refused(self, path: str) -> None:
        with little_memory(), self.assertRaises((poster.ArraysError, trirast.Error)):
            poster.scene_of(path)

    def test_a_member_is_not_inflated_past_its_size(self) -> None:
        def long(file: Any) -> None:
            file.write(header_of("<i4", "(100, 3)"))
            for _ in range(200):
                file.write(bytes(1 << 20))

        def long_header(file: Any) -> None:
            file.write(header_of("<i4", "(100, 3)", length=190 << 20))
            for _ in range(200):
                file.write(b" " * (1 << 20))

        def large(file: Any) -> None:
            file.write(header_of("<i4", f"({100 << 20}, 3)"))

        for name in ("vertices", "triangles", "draws"):
            for write in (long, long_header, large):
                self.must_be_refused(self.write_members({name: write}))

    def test_a_large_member_is_not_whole_in_memory(self) -> None:
        count = 4_000_000

        def zeros(kind: str, shape: str, size: int) -> Callable[[Any], None]:
            def write(file: Any) -> None:
                file.write(header_of(kind, shape))
                for _ in range(size // count):
                    file.write(bytes(count))
            return write

        def draws(file: Any) -> None:
            np.save(file, np.array(json.dumps({**self.VALUE, "draws": [{"triangles": count}]})))

        path = self.write_members({
            "vertices": zeros("<i4", f"({count}, 7)", 28 * count),
            "triangles": zeros("<i8", f"({count}, 3)", 24 * count), "draws": draws,
        })
        self.assertLess(os.path.getsize(path), 500_000)
        with little_memory(150_000_000):
            scene = poster.scene_of(path)
        self.assertEqual((len(scene.vertices), len(scene.triangles)), (count, count))

    def test_members_are_packed_as_numpy_packs_them(self) -> None:
        for packing in (zipfile.ZIP_BZIP2, zipfile.ZIP_LZMA):
            with self.assertRaises(poster.ArraysError):
                poster.scene_of(self.write_members({}, packing))

    def test_columns_one_after_another_are_read(self) -> None:
        self.save("a.npz", False)
        wanted = poster.scene_of(self.path("a.npz"))
        for save in (np.savez, np.savez_compressed):
            save(
                self.path("b.npz"), vertices=np.asfortranarray(self.vertices, np.int64),
                triangles=np.asfortranarray(self.triangles), draws=np.array(json.dumps(self.VALUE)),
            )
            self.assertEqual(poster.scene_of(self.path("b.npz")).checksum(), wanted.checksum())

    def test_arrays_that_are_changed_in_place_are_an_error(self) -> None:
        given = random_scene(1)
        changes: List[Tuple[str, Any]] = [("shape", (-1, 1)), ("dtype", np.uint8)]
        for copy in (True, False):
            for change in changes:
                for name in ("vertices", "triangles"):
                    scene = poster.Scene(given.sheet, given.vertices, given.triangles, given.draws, copy=copy)
                    setattr(getattr(scene, name), *change)
                    with self.assertRaises((poster.ArraysError, IndexError, ValueError)):
                        poster.draw_poster(scene, self.path("a.ppm"))

    def test_the_size_that_another_class_says_is_not_believed(self) -> None:
        class Longer(np.ndarray):  # type: ignore[type-arg]
            def __len__(self) -> int:
                return 1 << 40

            @property
            def ctypes(self) -> Any:
                raise AssertionError("its address is asked for")

        given = random_scene(1)
        poster.draw_poster(given, self.path("wanted.ppm"))
        for copy in (True, False):
            arrays = given.vertices.view(Longer), given.triangles.view(Longer)
            poster.draw_poster(poster.Scene(given.sheet, *arrays, given.draws, copy=copy), self.path("a.ppm"))
            self.assertEqual(self.content("a.ppm"), self.content("wanted.ppm"))


class Stopped(Files):
    """What a run left that was stopped when all was drawn."""

    SCENE = random_scene(6, 700, 600, 50)

    def leave(self, out: Optional[str] = None, tiles: Optional[str] = None) -> None:
        with mock.patch.object(_poster, "finish", side_effect=OSError("stopped")), self.assertRaises(OSError):
            self.draw(out, tiles)

    def draw(self, out: Optional[str] = None, tiles: Optional[str] = None, **more: Any) -> None:
        out, tiles = (name and self.path(name) for name in (out, tiles))
        poster.draw_poster(self.SCENE, out, tiles=tiles, window=64, workers=1, **more)

    def there(self) -> Dict[str, bytes]:
        found = {}
        for place, _, names in os.walk(self.folder):
            for name in names:
                path = os.path.relpath(os.path.join(place, name), self.folder)
                found[path] = os.readlink(self.path(path)).encode() if os.path.islink(self.path(path)) else (
                    self.content(path) if os.path.isfile(self.path(path)) else b""
                )
        return found


class Links(Stopped):
    def must_be_refused(self, out: Optional[str] = None, tiles: Optional[str] = None) -> None:
        """A run ends at once, and changes nothing."""
        before = self.there()
        for resume in (True, False):
            with patience(), self.assertRaises(poster.OutputError):
                self.draw(out, tiles, resume=resume)
            self.assertEqual(self.there(), before)

    def test_what_is_put_among_tiles_is_not_written_to(self) -> None:
        self.write("precious", b"precious")
        def link(path: str) -> None:
            os.symlink(self.path("precious"), path)

        puts: List[Callable[[str], None]] = [link, os.mkfifo]
        for name in ("2/1/1.png", "0/0/0.png", "index.html", ".index.html", ".2-1-1.png"):
            for put in puts:
                self.leave(tiles="tiles")
                path = self.path(f"tiles.part/{name}")
                os.makedirs(os.path.dirname(path), exist_ok=True)
                if os.path.exists(path):
                    os.remove(path)
                put(path)
                self.must_be_refused(tiles="tiles")
                self.remove("tiles.part")
                self.remove("tiles.resume")

    def test_a_tile_with_a_second_name_is_replaced(self) -> None:
        self.leave(tiles="tiles")
        self.write("precious", b"precious")
        os.remove(self.path("tiles.part/2/1/1.png"))
        os.link(self.path("precious"), self.path("tiles.part/2/1/1.png"))
        self.draw(tiles="tiles", resume=True)
        self.draw(tiles="wanted")
        self.assertEqual(self.content("precious"), b"precious")
        self.assertEqual(self.content("tiles/2/1/1.png"), self.content("wanted/2/1/1.png"))

    def test_a_folder_that_is_replaced_meanwhile_is_not_followed(self) -> None:
        os.mkdir(self.path("elsewhere"))

        def replace(*_: Any) -> None:
            os.rename(self.path("tiles.part/2"), self.path("tiles.part/2.moved"))
            os.symlink(self.path("elsewhere"), self.path("tiles.part/2"))

        with mock.patch.object(_poster, "finish", side_effect=replace):
            self.draw(tiles="tiles")
        with self.assertRaises(OSError):
            self.draw(tiles="tiles", resume=True)
        self.assertEqual(os.listdir(self.path("elsewhere")), [])

    def test_a_part_with_a_second_name_is_not_written_to(self) -> None:
        for ending in (".part", ".resume"):
            self.leave("a.ppm")
            os.link(self.path("a.ppm" + ending), self.path("backup"))
            self.must_be_refused("a.ppm")
            self.remove_all()

    def test_what_was_put_in_a_parts_place_does_not_get_its_name(self) -> None:
        for name in ("a.ppm", "a.png", "a.tif"):
            finish = _poster.finish

            def replace(*given: Any) -> None:
                os.rename(self.path(f"{name}.part"), self.path("moved"))
                self.write(f"{name}.part", b"another picture")
                finish(*given)

            with mock.patch.object(_poster, "finish", replace), self.assertRaises(poster.OutputError):
                self.draw(name)
            self.assertFalse(os.path.exists(self.path(name)))
            self.assertEqual(self.content(f"{name}.part"), b"another picture")

    def test_a_page_that_is_a_fifo_is_none(self) -> None:
        os.mkdir(self.path("tiles"))
        os.mkfifo(self.path("tiles/index.html"))
        self.must_be_refused(tiles="tiles")


class Damage(Stopped):
    def must_be_drawn_again(self, out: Optional[str] = None, tiles: Optional[str] = None) -> None:
        """A resumed run takes little memory, and leaves what a whole run does."""
        with little_memory():
            self.draw(out, tiles, resume=True)
        self.draw(out and f"wanted.{out}", tiles and f"wanted.{tiles}")
        found = self.there()
        for name in [name for name in found if name.startswith("wanted.")]:
            self.assertTrue(found[name] == found[name.replace("wanted.", "", 1)], name)

    def test_a_chunk_is_not_inflated_past_its_rows(self) -> None:
        self.leave("a.png")
        packing = zlib.compressobj(9, zlib.DEFLATED, -zlib.MAX_WBITS)
        bomb = b"".join(packing.compress(bytes(1 << 20)) for _ in range(200)) + packing.flush(zlib.Z_FULL_FLUSH)
        data = self.content("a.png.part")
        first = data.index(b"IDAT", data.index(b"IDAT") + 4) - 4
        self.write("a.png.part", data[:first] + chunk(b"IDAT", bomb) + data[first:])
        self.must_be_drawn_again("a.png")

    def test_a_tile_is_not_inflated_past_its_size(self) -> None:
        for name in ("2/1/1.png", "1/0/0.png"):
            self.leave(tiles="tiles")
            tile = self.content(f"tiles.part/{name}")
            packing = zlib.compressobj(9)
            bomb = b"".join(packing.compress(bytes(1 << 20)) for _ in range(200)) + packing.flush()
            self.write(f"tiles.part/{name}", tile[:33] + chunk(b"IDAT", bomb) + tile[-12:])
            self.must_be_drawn_again(tiles="tiles")
            self.remove_all()

    def test_a_tile_is_not_read_past_its_size(self) -> None:
        self.leave(tiles="tiles")
        os.truncate(self.path("tiles.part/2/1/1.png"), 1 << 30)
        self.must_be_drawn_again(tiles="tiles")

    def test_a_tile_that_is_damaged_anywhere_is_drawn_again(self) -> None:
        pick = random.Random(1)
        self.draw(tiles="wanted")
        wanted = {name: self.content(f"wanted/{name}") for name in ("2/1/1.png", "1/0/0.png")}
        for name, data in wanted.items():
            places = [*range(60), *range(len(data) - 20, len(data)), pick.randrange(len(data))]
            for place in pick.sample(places, 8):
                self.leave(tiles="tiles")
                flipped = bytearray(data)
                flipped[place] ^= 1 << pick.randrange(8)
                self.write(f"tiles.part/{name}", bytes(flipped))
                self.draw(tiles="tiles", resume=True)
                self.assertTrue(self.content(f"tiles/{name}") == data, (name, place))
                self.remove("tiles")


class Disks(Files):
    """Files that may not grow, as on a disk that is full."""

    def run_limited(self, *words: str, **environment: str) -> str:
        """The last line of a run that may not write files of more than 4,000 bytes."""

        def limit() -> None:
            signal.signal(signal.SIGXFSZ, signal.SIG_IGN)
            resource.setrlimit(resource.RLIMIT_FSIZE, (4_000, 4_000))

        done = subprocess.run(
            [sys.executable, "-m", "trirast.poster", *words], stderr=subprocess.PIPE, text=True, preexec_fn=limit,
            timeout=SECONDS, env={**os.environ, "PYTHONPATH": os.path.join(PYTHON, "src"), **environment},
        )
        self.assertEqual((done.returncode, done.stderr.count("\n")), (1, 1), done.stderr)
        return done.stderr

    def test_an_error_names_the_file(self) -> None:
        value = {"width": 900, "height": 700, "samples": 4, "draws": [{"triangles": 50}]}
        scene = random_scene(6, 900, 700, 50)
        poster.save_arrays(self.path("a.npz"), scene.vertices, scene.triangles, value)
        ends = [".ppm", ".png"] + [".tif"] * (importlib.util.find_spec("tifffile") is not None)
        for end in ends:
            path = self.path(f"a{end}")
            self.assertRegex(self.run_limited(self.path("a.npz"), "-o", path), f"{TOO_LARGE}: '{path}.part'")
        tiles = self.path("tiles")
        self.assertRegex(
            self.run_limited(self.path("a.npz"), "--tiles", tiles), f"{TOO_LARGE}: '{tiles}.part/.+'"
        )
        large = self.path("large.npz")
        poster.save_arrays(large, np.zeros((9000, 7), np.int32), np.zeros((1, 3), np.int32), Arrays.VALUE | ONE)
        self.assertRegex(
            self.run_limited(large, "-o", self.path("b.ppm"), TMPDIR=self.folder), f"{TOO_LARGE}: '{self.folder}'"
        )


ONE = {"draws": [{"triangles": 1}]}


if __name__ == "__main__":
    unittest.main()
