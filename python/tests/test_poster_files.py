"""Files of posters: what may be replaced, what is locked, what a stopped run leaves, and files of
arrays that are broken."""

import importlib.util
import json
import os
import random
import signal
import stat
import subprocess
import sys
import threading
import time
import unittest
import zipfile
from typing import Any, Dict, List
from unittest import mock

if importlib.util.find_spec("numpy") is None:
    raise unittest.SkipTest("posters need numpy")

import numpy as np

import trirast
from trirast import poster
from trirast.poster import _arrays, _journal, _poster, _threads, _tile_folder
from trirast.poster._own_file import open_alone

from .common import DRAW_LIST, FILE, PYTHON, SECONDS, VERTICES
from .poster_common import Commands, Files, as_list, is_mapped, random_scene

VALUE = {"width": 3, "height": 3, "draws": [{"triangles": 1}]}
PNG = b"\x89PNG\r\n\x1a\n"


class Runs(Commands):
    """Runs of the command over one list."""

    def setUp(self) -> None:
        super().setUp()
        self.list = self.write("list.json", json.dumps(DRAW_LIST).encode())
        self.before = self.there()

    def there(self) -> Dict[str, Any]:
        """What is below the folder: of each name its kind, and of a file its bytes."""
        found: Dict[str, Any] = {}
        for place, folders, names in os.walk(self.folder):
            for name in (*folders, *names):
                path = os.path.join(place, name)
                mode = os.lstat(path).st_mode
                found[os.path.relpath(path, self.folder)] = (
                    self.content(path) if stat.S_ISREG(mode) else stat.S_IFMT(mode)
                )
        return found

    def must_refuse(self, error: str, *words: str) -> None:
        """A run ends with a line for this error before it draws, and changes no file."""
        before = self.there()
        drawn = mock.Mock(side_effect=AssertionError("it draws"))
        with mock.patch.object(_poster, "rows_by_threads", drawn):
            status, line = self.run_command(self.list, *words)
        self.assertEqual((status, line.count("\n")), (1, 1), line)
        self.assertTrue(line.startswith(f"poster: {error}: "), line)
        self.assertEqual(self.there(), before)

    def must_draw(self, name: str, *words: str) -> None:
        self.run_to_end(self.list, "-o", self.path(name), *words)
        self.assertEqual(self.content(name), FILE)


class Outputs(Runs):
    def test_what_is_no_regular_file_is_not_replaced(self) -> None:
        os.mkfifo(self.path("fifo"))
        os.mkdir(self.path("folder"))
        os.symlink("/dev/null", self.path("null"))
        os.symlink("list.json", self.path("link"))
        os.symlink("nothing", self.path("dangling"))
        for name in ("fifo", "folder", "null", "link", "dangling"):
            for ending in ("", ".part", ".resume"):
                if ending:
                    os.rename(self.path(name), self.path(name + ending))
                self.must_refuse("OutputError", "-o", self.path(name))
                self.must_refuse("OutputError", "-o", self.path(name), "--tiles", self.path("tiles"))
                os.rename(self.path(name + ending), self.path(name))
        self.must_refuse("OutputError", "-o", "/dev/null")
        self.must_refuse("OutputError", "-o", "")

    def test_an_end_of_no_format_is_refused(self) -> None:
        for name in ("a.gif", "a.jpg", "a.PNG.bak"):
            self.must_refuse("OutputError", "-o", self.path(name))

    def test_the_list_is_not_replaced(self) -> None:
        os.link(self.list, self.path("other.json"))
        for name in ("list.json", "other.json"):
            self.must_refuse("OutputError", "-o", self.path(name))
        poster.save_arrays(self.path("list.npz"), np.array(VERTICES), np.array([[0, 1, 2]]), VALUE)
        self.list = self.path("list.npz")
        self.must_refuse("OutputError", "-o", self.list)

    def test_what_no_run_left_is_not_lost(self) -> None:
        for data in (self.content("list.json"), b"P6\n3 3\n255\n", PNG, b"\x00", b"\n"):
            for name in ("a.ppm", "a.png"):
                for ending in (".part", ".resume"):
                    self.write(name + ending, data)
                    self.must_refuse("OutputError", "-o", self.path(name))
                    self.must_refuse("OutputError", "-o", self.path(name), "--resume")
                    os.remove(self.path(name + ending))
        self.assertEqual(self.there(), self.before)

    def test_a_list_may_be_called_as_a_part_is(self) -> None:
        for ending in (".part", ".resume"):
            os.rename(self.list, self.path("a.ppm" + ending))
            self.list = self.path("a.ppm" + ending)
            self.must_refuse("OutputError", "-o", self.path("a.ppm"))

    def test_names_may_be_bytes(self) -> None:
        poster.draw_poster(
            poster.scene_of(os.fsencode(self.list)), os.fsencode(self.path("a.ppm")),
            tiles=os.fsencode(self.path("tiles")),
        )
        self.assertEqual(self.content("a.ppm"), FILE)

    def test_regular_files_are_replaced(self) -> None:
        self.write("a.ppm", b"older")
        self.must_draw("a.ppm")
        self.must_draw("a.ppm", "--resume")

    def test_endings_may_be_capital(self) -> None:
        for name in ("a.PNG", "a.Png"):
            self.run_to_end(self.list, "-o", self.path(name))
            self.assertTrue(self.content(name).startswith(PNG))
        poster.save_arrays(self.path("a.NPZ"), np.array(VERTICES), np.array([[0, 1, 2]]), VALUE)
        self.assertEqual(poster.scene_of(self.path("a.NPZ")).sheet.width, 3)

    def test_names_of_a_run_are_different(self) -> None:
        tiles = self.path("tiles")
        for name in ("tiles", "tiles.part", "tiles/a.ppm", "tiles.part/a.ppm"):
            self.must_refuse("OutputError", "-o", self.path(name), "--tiles", tiles)
        self.must_refuse("OutputError", "-o", self.path("a.ppm"), "--tiles", self.path("a.ppm.resume"))
        os.mkdir(tiles + ".part")
        self.must_refuse("OutputError", "-o", self.path("tiles.part/a.ppm"), "--tiles", tiles)

    def test_arrays_are_saved_to_regular_files_alone(self) -> None:
        os.symlink("list.json", self.path("link.npz"))
        for name in (self.path("link.npz"), "/dev/null", self.folder):
            with self.assertRaises(poster.OutputError):
                poster.save_arrays(name, np.array(VERTICES), np.array([[0, 1, 2]]), VALUE)
        with self.assertRaises(ValueError):
            poster.save_arrays(self.path("a.npz"), np.array([None]), np.array([[0, 1, 2]]), VALUE)
        os.remove(self.path("link.npz"))
        self.assertEqual(self.there(), self.before)


class Folders(Runs):
    def test_tiles_go_to_a_new_folder(self) -> None:
        os.mkdir(self.path("folder"))
        os.mkdir(self.path("empty"))
        self.write("folder/photo.jpg", b"a photo")
        os.symlink("nothing", self.path("dangling"))
        for name in ("folder", "empty", "dangling", "list.json"):
            for words in ((), ("--resume",), ("-o", self.path("a.ppm"))):
                self.must_refuse("OutputError", "--tiles", self.path(name), *words)
        self.must_refuse("OutputError", "--tiles", self.path("folder") + "/")

    def test_a_folder_that_no_run_left_is_not_removed(self) -> None:
        os.makedirs(self.path("photos.part/0/0"))
        for name in ("photo.jpg", "index.html", "0/0/0.png"):
            self.write(f"photos.part/{name}", b"<!doctype html>")
            for words in ((), ("--resume",), ("-o", self.path("a.ppm"))):
                self.must_refuse("OutputError", "--tiles", self.path("photos"), *words)
            os.remove(self.path(f"photos.part/{name}"))
        os.symlink("list.json", self.path("other.part"))
        self.must_refuse("OutputError", "--tiles", self.path("other"))

    def test_a_file_among_a_runs_own_tiles_stays(self) -> None:
        self.leave_part()
        for name in ("tiles.part/0/photo.jpg", "tiles.part/photo.png"):
            os.makedirs(os.path.dirname(self.path(name)), exist_ok=True)
            self.write(name, b"a photo")
            for words in ((), ("--resume",)):
                self.must_refuse("OutputError", "--tiles", self.path("tiles"), *words)
            os.remove(self.path(name))
        self.run_to_end(self.list, "--tiles", self.path("tiles"))

    def leave_part(self) -> None:
        """Leaves a folder of tiles that a run has begun."""
        with mock.patch.object(_poster, "rows_by_threads", side_effect=OSError("full")):
            self.assertEqual(self.run_command(self.list, "--tiles", self.path("tiles"))[0], 1)
        self.assertTrue(os.path.isdir(self.path("tiles.part")))

    def test_tiles_of_another_list_do_not_stay(self) -> None:
        poster.draw_poster(random_scene(1, 700, 700), tiles=self.path("tiles"))
        os.rename(self.path("tiles"), self.path("tiles.part"))
        self.run_to_end(self.list, "--tiles", self.path("tiles"), "--resume")
        self.assertEqual(
            sorted(set(self.there()) - set(self.before)),
            ["tiles", "tiles/0", "tiles/0/0", "tiles/0/0/0.png", "tiles/index.html"],
        )

    def test_whole_tiles_are_resumed_at_once(self) -> None:
        words = ("--tiles", self.path("tiles"))
        self.run_to_end(self.list, *words)
        there = self.there()
        self.must_refuse("OutputError", *words)
        self.run_to_end(self.list, *words, "--resume")
        self.assertEqual(self.there(), there)
        self.must_draw("a.ppm", *words, "--resume")
        self.list = self.write("other.json", json.dumps({**DRAW_LIST, "clear": [1, 2, 3]}).encode())
        self.must_refuse("OutputError", *words, "--resume")


class Locks(Runs):
    def test_a_second_run_ends_with_a_line(self) -> None:
        out, tiles = self.path("a.ppm"), self.path("tiles")
        for words in (("-o", out), ("--tiles", tiles), ("-o", out, "--tiles", tiles)):
            second: List[None] = []

            def rows_meanwhile(*given: Any) -> Any:
                for more in ((), ("--resume",)):
                    self.must_refuse("BusyError", *words, *more)
                second.append(None)
                return rows(*given)

            rows = _threads.rows_by_threads
            with mock.patch.object(_poster, "rows_by_threads", rows_meanwhile):
                self.run_to_end(self.list, *words)
            self.assertEqual(len(second), 1)
            for name in set(self.there()) - set(self.before):
                self.assertTrue(name == "a.ppm" or name.startswith("tiles"), name)
            for name in ("a.ppm", "tiles"):
                self.remove(name)

    def test_a_run_to_one_of_two_places_ends_with_a_line(self) -> None:
        os.mkdir(self.path("tiles.part"))
        opened = open_alone(self.path("tiles.part"), os.O_RDONLY | os.O_DIRECTORY)
        self.must_refuse("BusyError", "--tiles", self.path("tiles"))
        self.must_refuse("BusyError", "-o", self.path("a.ppm"), "--tiles", self.path("tiles"))
        os.close(opened)
        self.run_to_end(self.list, "--tiles", self.path("tiles"))

    def test_a_file_that_was_renamed_meanwhile_is_not_taken(self) -> None:
        path = self.write("a", b"")
        flock = mock.Mock(side_effect=[lambda: os.rename(path, path + ".whole"), lambda: None])
        with mock.patch("fcntl.flock", lambda *given: flock()()):
            opened = open_alone(path, os.O_RDWR | os.O_CREAT)
        self.assertTrue(os.path.samestat(os.fstat(opened), os.stat(path)))
        self.assertEqual(flock.call_count, 2)
        os.close(opened)


class Stops(Files):
    """A run that ends at any call that changes names or writes a journal, as if it were killed there,
    can be resumed."""

    KINDS = (("a.ppm", None), ("a.png", None), (None, "tiles"), ("a.ppm", "tiles"), ("a.png", "tiles"))

    def draw(self, scene: poster.Scene, kind: Any, **more: Any) -> None:
        out, tiles = (name and self.path(name) for name in kind)
        poster.draw_poster(scene, out, tiles=tiles, window=64, workers=1, **more)

    def there(self) -> Dict[str, bytes]:
        found = {}
        for place, _, names in os.walk(self.folder):
            for name in names:
                path = os.path.join(place, name)
                found[os.path.relpath(path, self.folder)] = self.content(path)
        return found

    def test_each_call_may_be_the_last(self) -> None:
        scene = random_scene(6, 270, 200, 50)
        for kind in self.KINDS:
            self.remove_all()
            self.draw(scene, kind)
            wanted = self.there()
            stopped = 0
            while self.is_stopped(scene, kind, stopped):
                self.draw(scene, kind, resume=True)
                self.assertTrue(self.there() == wanted, (kind, stopped))
                stopped += 1
            self.assertGreater(stopped, 7, kind)

    def is_stopped(self, scene: poster.Scene, kind: Any, calls: int) -> bool:
        """Draws anew, and stops at a call. Returns whether the run made so many calls."""
        self.remove_all()
        left = [calls]

        def stopping(call: Any) -> Any:
            def stop(*given: Any, **named: Any) -> Any:
                left[0] -= 1
                if left[0] == -1:
                    raise Killed
                # A process that was killed makes no calls as it ends.
                return call(*given, **named) if left[0] >= 0 else None
            return stop

        class Killed(BaseException):
            pass

        kept = ("os.replace", "os.rename", "os.remove", "os.mkdir", "os.makedirs")
        patches = [mock.patch(name, stopping(eval(name))) for name in kept]
        patches += [mock.patch.object(_journal.Journal, "_add", stopping(_journal.Journal._add))]
        patches += [mock.patch.object(_tile_folder.TileFolder, "begin", stopping(_tile_folder.TileFolder.begin))]
        try:
            for patch in patches:
                patch.start()
            self.draw(scene, kind)
        except Killed:
            return True
        finally:
            for patch in patches:
                patch.stop()
        return False

    def test_a_header_without_its_name_is_no_other_file(self) -> None:
        scene, other = random_scene(6, 270, 200, 50), random_scene(7, 100, 100, 50)
        for name in ("a.ppm", "a.png"):
            for resume in (True, False):
                with mock.patch("os.replace", side_effect=OSError("stopped")), self.assertRaises(OSError):
                    self.draw(scene, (name, None))
                self.assertFalse(os.path.exists(self.path(name)))
                self.draw(scene if resume else other, (name, None), resume=resume)
                self.draw(scene if resume else other, ("wanted" + name, None))
                self.assertTrue(self.content(name) == self.content("wanted" + name), name)
                self.remove_all()


class Journals(Runs):
    def test_a_broken_journal_is_a_line(self) -> None:
        for data in (b"{}\n", b"[]\n", b'{"list": 3}\n', b"[" * 100_000, b"\xff\xfe\n", b"null\n3\n", b'{"row": []}\n'):
            self.write("a.ppm.resume", data)
            self.must_refuse("OutputError", "-o", self.path("a.ppm"), "--resume")
            self.write("a.ppm.resume", _journal.MARK + data)
            status, line = self.run_command(self.list, "-o", self.path("a.ppm"), "--resume")
            self.assertEqual((line.count("\n"), status in (0, 1)), (1, True), line)
            self.assertTrue(status == 0 or line.startswith("poster: ResumeError: "), line)
            if status:
                os.remove(self.path("a.ppm.resume"))
            else:
                self.assertEqual(self.content("a.ppm"), FILE)
                os.remove(self.path("a.ppm"))


    def test_a_journal_with_more_rows_than_there_are(self) -> None:
        scene = random_scene(6, 270, 192, 50)
        kind: Any
        for kind in Stops.KINDS:
            out, tiles = (name and self.path(name) for name in kind)
            journal = f"{out or tiles}.resume"
            with mock.patch.object(_poster, "finish", side_effect=OSError("stopped")), self.assertRaises(OSError):
                poster.draw_poster(scene, out, tiles=tiles, window=64)
            with open(journal, "ab") as file:
                # What no rows have is the checksum of no bytes.
                file.write(b'{"row": "00000000"}\n' * 3)
            poster.draw_poster(scene, out, tiles=tiles, window=64, resume=True)
            self.assertFalse(os.path.exists(journal))
            if out:
                poster.draw_poster(scene, f"{out}.wanted{kind[0]}", window=64)
                self.assertTrue(self.content(kind[0]) == self.content(f"{kind[0]}.wanted{kind[0]}"), kind)
            self.remove_all()


class Processes(Runs):
    """The command as a process of its own."""

    def command(self, *words: str) -> List[str]:
        return [sys.executable, "-m", "trirast.poster", self.list, *words]

    def environment(self) -> Dict[str, str]:
        return {**os.environ, "PYTHONPATH": os.path.join(PYTHON, "src")}

    def test_standard_streams_that_are_closed(self) -> None:
        for closed in ("2>&-", ">&- 2>&-", "<&- >&- 2>&-"):
            words = self.command("-o", self.path("a.ppm"))
            done = subprocess.run(
                ["sh", "-c", f'exec "$0" "$@" {closed}', *words], env=self.environment(), timeout=SECONDS
            )
            self.assertEqual((done.returncode, self.content("a.ppm")), (0, FILE), closed)
            self.remove("a.ppm")

    def test_many_interrupts_are_one_line(self) -> None:
        scene = random_scene(1, 2000, 2000, 20_000)
        draws = [{**draw.state, "triangles": draw.triangles} for draw in scene.draws]
        value = {"width": 2000, "height": 2000, "samples": 4, "draws": draws}
        self.list = self.path("scene.npz")
        poster.save_arrays(self.list, scene.vertices, scene.triangles, value)
        for out in (("-o", "a.png"), ("--tiles", "tiles")):
            words = self.command(out[0], self.path(out[1]), "--window", "64", "--workers", "3")
            with subprocess.Popen(words, env=self.environment(), stderr=subprocess.PIPE) as child:
                end = time.monotonic() + SECONDS
                while (
                    child.poll() is None and time.monotonic() < end
                    and not os.path.exists(self.path(out[1] + ".resume"))
                ):
                    time.sleep(0.001)
                while child.poll() is None and time.monotonic() < end:
                    child.send_signal(signal.SIGINT)
                    time.sleep(0.002)
                _, errors = child.communicate(timeout=SECONDS)
            self.assertEqual((child.returncode, errors), (130, b"poster: stopped; --resume goes on\n"))
            self.assertEqual(
                subprocess.run([*words, "--resume"], env=self.environment(), timeout=SECONDS).returncode, 0
            )


    def test_an_interrupt_while_modules_are_imported_is_one_line(self) -> None:
        """Wherever in these imports the signal comes: here as numpy begins, and as the command's own module does."""
        for name in ("numpy", "trirast.poster._command"):
            hook = (
                "import os, signal, sys\n"
                "class Hook:\n"
                "    def find_spec(self, name, path=None, target=None):\n"
                f"        if name == {name!r}: os.kill(os.getpid(), signal.SIGINT)\n"
                "sys.meta_path.insert(0, Hook())\n"
            )
            self.write("sitecustomize.py", hook.encode())
            environment = self.environment()
            environment["PYTHONPATH"] = os.pathsep.join((self.folder, environment["PYTHONPATH"]))
            done = subprocess.run(
                self.command("-o", self.path("a.ppm")), env=environment, stderr=subprocess.PIPE, timeout=SECONDS
            )
            self.assertEqual((done.returncode, done.stderr), (130, b"poster: stopped\n"), name)
            self.assertFalse(os.path.exists(self.path("a.ppm")))

    def test_a_folder_that_is_not_there_is_named(self) -> None:
        status, line = self.run_command(self.list, "-o", self.path("none/a.ppm"))
        self.assertEqual(
            (status, line),
            (1, f"poster: FileNotFoundError: [Errno 2] No such file or directory: '{self.path('none')}'\n"),
        )


class BrokenArrays(Files):
    def saved(self) -> bytes:
        pick = np.random.default_rng(1)
        vertices = np.concatenate(
            (pick.integers(0, 5000, (300, 2)), pick.integers(0, 255, (300, 5))), 1
        ).astype(np.int32)
        self.triangles = pick.integers(0, 300, (100, 3)).astype(np.int32)
        value = {"width": 20, "height": 20, "draws": [{"triangles": 100}]}
        poster.save_arrays(self.path("a.npz"), vertices, self.triangles, value)
        np.savez_compressed(
            self.path("packed.npz"), vertices=vertices, triangles=self.triangles, draws=np.array(json.dumps(value))
        )
        return self.content("a.npz")

    def test_a_file_that_shrinks_is_no_matter(self) -> None:
        self.saved()
        wanted = trirast.draw_file(as_list(poster.scene_of(self.path("a.npz"))))
        scene = poster.scene_of(self.path("a.npz"))
        self.assertTrue(is_mapped(scene.vertices))
        os.truncate(self.path("a.npz"), 0)
        poster.draw_poster(scene, self.path("a.ppm"))
        self.assertEqual(self.content("a.ppm"), wanted)

    def test_a_file_that_shrinks_while_it_is_copied_is_an_error(self) -> None:
        vertices, triangles = np.zeros((100_000, 7), np.int32), np.zeros((1, 3), np.int32)
        poster.save_arrays(self.path("a.npz"), vertices, triangles, VALUE)
        data = self.content("a.npz")

        def shrink(*given: Any) -> Any:
            os.truncate(self.path("a.npz"), len(data) // 4)
            return copy_part(*given)

        copy_part = _arrays.copy_part
        with mock.patch.object(_arrays, "copy_part", shrink), self.assertRaises(poster.ArraysError):
            poster.scene_of(self.path("a.npz"))

    def test_a_file_is_saved_over_its_own_arrays(self) -> None:
        data = self.saved()
        scene = poster.scene_of(self.path("a.npz"))
        value = {"width": 20, "height": 20, "draws": [{"triangles": 100}]}
        poster.save_arrays(self.path("a.npz"), scene.vertices, scene.triangles, value)
        self.assertEqual(self.content("a.npz"), data)
        self.assertEqual(sorted(os.listdir(self.folder)), ["a.npz", "packed.npz"])

    def test_broken_files_are_lines(self) -> None:
        self.saved()
        pick = random.Random(1)
        for name in ("a.npz", "packed.npz"):
            data = self.content(name)
            for _ in range(400):
                broken = bytearray(data)
                for _ in range(pick.choice((1, 1, 3, 20))):
                    broken[pick.randrange(len(broken)) if pick.random() < 0.3 else pick.choice(places_of(data))] = (
                        pick.randrange(256)
                    )
                if pick.random() < 0.1:
                    del broken[pick.randrange(len(broken)) :]
                self.write("broken.npz", bytes(broken))
                self.must_end_well("broken.npz")

    def must_end_well(self, name: str) -> None:
        """A file is read, or refused by one of the errors that are documented."""
        try:
            poster.scene_of(self.path(name))
        except (poster.ArraysError, trirast.Error, MemoryError, OSError):
            pass

    def test_odd_members(self) -> None:
        self.saved()
        empty = (
            b"\x93NUMPY\x01\x00v\x00" + b"{'descr': '|i0', 'fortran_order': False, 'shape': (3, 7), }".ljust(117)
            + b"\n"
        )
        for kind in (
            empty, empty.replace(b"|i0", b"|V0"), empty.replace(b"'|i0'", b"'<i4'").replace(b"(3, 7)", b"(-3, 7)"),
            empty.replace(b"'|i0'", b"'<i4'").replace(b"(3, 7), ", b"(10**9, 7)"), empty.replace(b"'|i0'", b"'O'"),
            empty.replace(b"(3, 7)", b"(9999999999999999999, 7)").replace(b"'|i0'", b"'<i4'"), b"",
        ):
            for packing in (zipfile.ZIP_STORED, zipfile.ZIP_DEFLATED):
                with zipfile.ZipFile(self.path("odd.npz"), "w", packing) as archive:
                    for name in ("vertices", "triangles", "draws"):
                        archive.writestr(name + ".npy", kind)
                self.must_end_well("odd.npz")
        for draws in (
            '"{}"', "3", "[" * 10_000, "{", '{"draws": 3}', '{"draws": [3]}',
            '{"width": 3, "height": 3, "draws": [{"triangles": "1"}]}',
        ):
            np.savez(
                self.path("odd.npz"), vertices=np.array(VERTICES), triangles=np.array([[0, 1, 2]]),
                draws=np.array(draws),
            )
            with self.assertRaises((poster.ArraysError, trirast.Error)):
                poster.scene_of(self.path("odd.npz"))


def places_of(data: bytes) -> List[int]:
    """Places in headers of a .npz file and its members, and in its directory."""
    found: List[int] = []
    for text in (b"PK\x03\x04", b"PK\x01\x02", b"PK\x05\x06", b"\x93NUMPY"):
        at = data.find(text)
        while at >= 0:
            found += range(at, min(at + 100, len(data)))
            at = data.find(text, at + 1)
    return found


class Threads(Runs):
    def test_a_thread_that_cannot_be_started_is_a_line(self) -> None:
        for threads in range(6):
            left = [threads]

            def start(thread: threading.Thread) -> None:
                if left[0] == 0:
                    raise RuntimeError("can't start new thread")
                left[0] -= 1
                started(thread)

            started = threading.Thread.start
            with mock.patch.object(threading.Thread, "start", start):
                status, line = self.run_command(self.list, "-o", self.path("a.png"), "--workers", "1")
            if status:
                self.assertTrue(line.startswith("poster: ThreadError: ") and line.count("\n") == 1, line)
            self.assertEqual(os.path.exists(self.path("a.png")), status == 0)

    def test_there_is_at_least_one_worker(self) -> None:
        for workers in (0, -1):
            with self.assertRaises(ValueError):
                poster.draw_poster(random_scene(1), self.path("a.ppm"), workers=workers)
        wrong: List[Dict[str, Any]] = [{"workers": 1.5}, {"workers": "2"}, {"window": 64.0}, {"window": None}]
        for more in wrong:
            with self.assertRaises(TypeError):
                poster.draw_poster(random_scene(1), self.path("a.ppm"), **more)
        self.assertEqual(self.there(), self.before)


if __name__ == "__main__":
    unittest.main()
