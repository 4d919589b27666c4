"""What the checks of posters share: their arguments, the program's pictures, and Dask where it is installed."""

from __future__ import annotations

import contextlib
import importlib
import importlib.util
import json
import os
import random
from dataclasses import dataclass
from typing import Any, Iterator

from tools import answers
from tests.cases import MAX_SECONDS, MissingError, must
from tools.draw_list import DrawList
from tools.places import PROGRAM
from tests.posters import lists


@dataclass(frozen=True)
class Options:
    """How much the checks of posters draw, and where."""

    folder: str
    lists: int = 20
    dask_lists: int = 8
    # Runs in which a worker is killed every three seconds, and of each kind of output runs that are
    # killed at any moment.
    kills: int = 1
    rounds: int = 1
    # Runs that are killed and damaged, and files of which bits are flipped.
    damaged: int = 7
    flips: int = 300


def generated(seed: object) -> tuple[DrawList, int]:
    """A generated list, and the side of its windows."""
    pick = random.Random(f"poster {seed}")
    scene = lists.a_list(pick)
    return scene, lists.a_side(pick, scene["width"], scene["height"])


def program_file(scene: DrawList) -> bytes:
    """The file that the program writes for a list."""
    answer = answers.drawn(PROGRAM, json.dumps(scene).encode(), seconds=MAX_SECONDS)
    must(answer.status == 0, f"the program refused the list: {answer.line!r}")
    return answer.output


def dask() -> Any:
    """The module distributed. Raises MissingError if it is not installed."""
    if importlib.util.find_spec("distributed") is None:
        raise MissingError("Dask, python3-distributed in Debian")
    return importlib.import_module("distributed")


@contextlib.contextmanager
def local_cluster(workers: int) -> Iterator[str]:
    """The address of a cluster of processes on this machine."""
    with dask().LocalCluster(
        n_workers=workers, threads_per_worker=1, processes=True, host="127.0.0.1", dashboard_address=None,
        silence_logs=50,
    ) as cluster:
        yield cluster.scheduler_address


def content(path: str) -> bytes:
    with open(path, "rb") as file:
        return file.read()


def folder_files(folder: str) -> dict[str, bytes]:
    """The files below a folder, by their names from there."""
    found = {}
    for place, _, names in os.walk(folder):
        for name in names:
            path = os.path.join(place, name)
            found[os.path.relpath(path, folder)] = content(path)
    return found
