"""Worker processes of Dask on this machine, which are this run's own.

Dask's LocalCluster starts workers too, but waits without an end until each has sent a message. If one dies as it
starts, who waited for it may take the message of the one that is started in its place, and drop it (distributed
2022.12, `_wait_until_connected` of nanny.py). Then neither the start of the cluster nor its end comes back. Here nobody
waits for a worker: the scheduler says which are there.
"""

from __future__ import annotations

import fcntl
import os
import shutil
import subprocess
import sys
import tempfile
import time
from contextlib import contextmanager
from typing import Iterator, List

# Seconds for which a worker looks for its scheduler, and seconds that workers have to end by themselves.
LOOKS, ENDS = 60, 5
# How many processes may end for each worker before a window comes back. On a busy machine a worker may take a minute to
# start, so no time says that none will.
ENDED = 25
# As many arguments as a worker needs: one thread, and no process that looks after it. Dask stops no
# worker for its memory.
WORDS = ("-m", "distributed.cli.dask_worker", "--no-nanny", "--nthreads", "1", "--no-dashboard", "--memory-limit", "0")
PLACE = ("--host", "127.0.0.1", "--death-timeout", str(LOOKS))
# What the names of the workers' folders begin with, and those of folders that are not yet locked.
NAMED, UNLOCKED = "trirast-workers-", "trirast-begun-"


class LocalWorkers:
    """Some processes. `renew` starts them, and starts one in place of each that has ended."""

    def __init__(self, count: int, folder: str) -> None:
        """They put what they need into a folder."""
        self._count, self._folder = count, folder
        self._running: List[subprocess.Popen[bytes]] = []
        # How many ended since the last window came back, and why the last one did, or could not be started.
        self._ended, self._why = 0, ""

    def renew(self, scheduler: str) -> None:
        """Has as many processes as are wanted, for the scheduler at this address. One that cannot be started counts as
        one that ended, and is left for the next time."""
        ended = [each.returncode for each in self._running if each.poll() is not None]
        self._running = [each for each in self._running if each.returncode is None]
        if ended:
            self._ended += len(ended)
            self._why = f"status {ended[-1]}"
        try:
            while len(self._running) < self._count:
                folder = ["--local-directory", self._folder]
                self._running.append(started([sys.executable, *WORDS, *PLACE, *folder, scheduler]))
        except OSError as error:
            self._ended += 1
            self._why = str(error)

    def come_back(self) -> None:
        """Says that a window came back."""
        self._ended = 0

    def are_lost(self) -> bool:
        """Whether more ended since the last window came back than may."""
        return self._ended > ENDED * self._count

    def __str__(self) -> str:
        """What became of them, for the text of an error."""
        return f"{self._ended} of this run's own workers ended, the last with {self._why}"

    def close(self) -> None:
        """Ends all processes. Those whose scheduler has gone end by themselves."""
        end = time.monotonic() + ENDS
        try:
            for each in self._running:
                each.wait(max(0.0, end - time.monotonic()))
        except subprocess.TimeoutExpired:
            pass
        finally:
            for each in self._running:
                each.kill()
                each.wait()


@contextmanager
def local_workers(count: int) -> Iterator[LocalWorkers]:
    """Processes that end with what is within, and a folder of theirs alone: Dask's own are where others may put
    something. Removes the folders that killed runs left."""
    for path in left_folders():
        shutil.rmtree(path, ignore_errors=True)
    with own_folder() as folder:
        workers = LocalWorkers(count, folder)
        try:
            yield workers
        finally:
            workers.close()


@contextmanager
def own_folder() -> Iterator[str]:
    """A new folder, which is locked while this process lives, and removed at the end."""
    begun = tempfile.mkdtemp(prefix=UNLOCKED)
    folder = os.path.join(os.path.dirname(begun), NAMED + os.path.basename(begun)[len(UNLOCKED):])
    lock = os.open(begun, os.O_RDONLY | os.O_DIRECTORY)
    try:
        fcntl.flock(lock, fcntl.LOCK_EX)
        os.rename(begun, folder)
        yield folder
    finally:
        shutil.rmtree(folder, ignore_errors=True)
        os.close(lock)


def left_folders() -> Iterator[str]:
    """The folders of workers, this user's own, that no process has locked."""
    with os.scandir(tempfile.gettempdir()) as entries:
        named = [entry.path for entry in entries if entry.name.startswith(NAMED)]
    for path in named:
        try:
            found = os.open(path, os.O_RDONLY | os.O_DIRECTORY | os.O_NOFOLLOW)
        except OSError:
            # Another user's, a link, or gone.
            continue
        try:
            fcntl.flock(found, fcntl.LOCK_EX | fcntl.LOCK_NB)
            if os.fstat(found).st_uid == os.geteuid():
                yield path
        except BlockingIOError:
            pass
        finally:
            os.close(found)


def started(command: List[str]) -> subprocess.Popen[bytes]:
    """A process that finds the package where this one finds it, and says nothing."""
    environment = {**os.environ, "PYTHONPATH": os.pathsep.join(map(os.path.abspath, sys.path))}
    quiet = subprocess.DEVNULL
    return subprocess.Popen(command, env=environment, stdin=quiet, stdout=quiet, stderr=quiet)
