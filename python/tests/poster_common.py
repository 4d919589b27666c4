"""What the tests of posters share."""

import importlib.util
import io
import os
import shutil
import tempfile
import unittest
from contextlib import redirect_stderr
from typing import Any, Dict, List

if importlib.util.find_spec("numpy") is None:
    raise unittest.SkipTest("posters need numpy")

import numpy as np

from trirast import poster
from trirast.poster import _command


def random_scene(
    seed: int, width: int = 300, height: int = 200, triangles: int = 200, reach: int = 20000
) -> poster.Scene:
    """Triangles all over a sheet and past it, whose corners lie up to `reach` from their middles."""
    pick = np.random.default_rng(seed)
    middles = pick.integers(-5000, 256 * width + 5000, (triangles, 1, 2))
    places = (middles + pick.integers(-reach, reach, (triangles, 3, 2))).reshape(-1, 2)
    vertices = np.concatenate((places, pick.integers(0, 256, (3 * triangles, 5))), 1)
    indices = np.arange(3 * triangles).reshape(-1, 3)
    draws = [
        {"triangles": triangles // 4, "blend": "over"}, {"triangles": 0},
        {"triangles": triangles - triangles // 4, "scissor": [3, 5, 290, 111]},
    ]
    return poster.scene_of_arrays(vertices, indices, {"width": width, "height": height, "samples": 4, "draws": draws})


def as_list(scene: poster.Scene) -> Dict[str, Any]:
    """A scene as a draw list."""
    draws: List[Dict[str, Any]] = []
    first = 0
    for draw in scene.draws:
        triangles = scene.triangles[first : first + draw.triangles]
        first += draw.triangles
        vertices = [row[:7] for row in scene.vertices.tolist()]
        draws.append({**draw.state, "vertices": vertices, "triangles": triangles.tolist()})
    return {"width": scene.sheet.width, "height": scene.sheet.height, "samples": scene.sheet.samples, "draws": draws}


def is_mapped(array: Any) -> bool:
    """Whether an array lies in a file that is mapped."""
    return array is not None and (isinstance(array, np.memmap) or is_mapped(getattr(array, "base", None)))


class Files(unittest.TestCase):
    """Tests with a folder of their own."""

    def setUp(self) -> None:
        folder = tempfile.TemporaryDirectory()
        self.addCleanup(folder.cleanup)
        self.folder = folder.name

    def path(self, name: str) -> str:
        return os.path.join(self.folder, name)

    def content(self, name: str) -> bytes:
        with open(self.path(name), "rb") as file:
            return file.read()

    def remove(self, name: str) -> None:
        """Removes a file or a folder, if it is there."""
        path = self.path(name)
        if os.path.isdir(path) and not os.path.islink(path):
            shutil.rmtree(path)
        elif os.path.lexists(path):
            os.remove(path)

    def remove_all(self) -> None:
        """Removes all that is in the folder."""
        for name in os.listdir(self.folder):
            self.remove(name)

    def write(self, name: str, data: bytes) -> str:
        with open(self.path(name), "wb") as file:
            file.write(data)
        return self.path(name)


class Commands(Files):
    """Tests that run the command for posters, of pictures with 3 by 3 pixels."""

    def run_command(self, *words: str) -> "tuple[int, str]":
        errors = io.StringIO()
        with redirect_stderr(errors):
            status = _command.main(list(words))
        return status, errors.getvalue()

    def run_to_end(self, *words: str) -> None:
        """A run succeeds, and says so in one line."""
        status, line = self.run_command(*words)
        self.assertEqual(status, 0, line)
        self.assertRegex(line, r"\Aposter: .*: 3 by 3 pixels\n\Z")
