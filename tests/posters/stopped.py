"""Runs that are stopped, or lose workers or the scheduler: the poster has the same bytes, or is not
there and can be resumed.

    PYTHONPATH=python/src python3 -m tests.posters.stopped --folder FOLDER [--kills 1]

Only processes that these checks started are ended, each by its number.
"""

from __future__ import annotations

import contextlib
import functools
import os
import random
import signal
import socket
import subprocess
import sys
import time
from typing import Callable, Iterator, List, Optional

import numpy as np

from trirast import poster

from tests.cases import Case, case, must
from tests.posters.common import Options, content, dask, folder_files
from tools.processes import descendants

SECONDS = 600
KILL_EVERY = 3
# How many workers are killed as soon as they are there, so that they die as they start.
KILLED = 8
# Seconds after which a run has to have ended of whose workers none starts, or one hangs.
ENDED = 300
# The sheet that is drawn: enough triangles that a run lasts longer than Dask takes to start.
SIDE, TRIANGLES, WINDOW = 8192, 400_000, 256
# A smaller one, for runs whose workers die before they draw.
SMALL_SIDE, SMALL_TRIANGLES = 2048, 20_000


def write_scene(path: str, seed: int = 1, side: int = SIDE, triangles: int = TRIANGLES) -> None:
    """A file of arrays: small triangles all over a sheet, blended, with four samples."""
    pick = np.random.default_rng(seed)
    centres = pick.integers(0, 256 * side, (triangles, 1, 2))
    corners = np.clip(centres + pick.integers(-8192, 8192, (triangles, 3, 2)), -8388608, 8388607).reshape(-1, 2)
    vertices = np.concatenate((corners, pick.integers(0, 256, (3 * triangles, 5))), 1).astype(np.int32)
    value = {
        "width": side, "height": side, "samples": 4,
        "draws": [{"triangles": triangles, "blend": "over", "depth_test": "not_equal"}],
    }
    poster.save_arrays(path, vertices, np.arange(3 * triangles, dtype=np.int32).reshape(-1, 3), value)


class Runs:
    """The scene that the checks draw, and its poster."""

    def __init__(self, folder: str) -> None:
        self.folder = os.path.join(folder, "stopped")
        self.wanted: dict[str, bytes] = {}

    @functools.cached_property
    def scene(self) -> str:
        path = self.path("scene.npz")
        write_scene(path)
        return path

    @functools.cached_property
    def small_scene(self) -> str:
        path = self.path("small.npz")
        write_scene(path, side=SMALL_SIDE, triangles=SMALL_TRIANGLES)
        return path

    def path(self, name: str) -> str:
        os.makedirs(self.folder, exist_ok=True)
        return os.path.join(self.folder, name)

    def wanted_of(self, kind: str) -> bytes:
        """The bytes of a poster that was not stopped."""
        if kind not in self.wanted:
            name = self.path(f"wanted.{kind}")
            must(self.run("-o", name) == 0, "the run failed")
            self.wanted[kind] = content(name)
        return self.wanted[kind]

    def command(self, *words: str) -> List[str]:
        return [sys.executable, "-m", "trirast.poster", self.scene, "--window", str(WINDOW), *words]

    def start(self, *words: str) -> subprocess.Popen[bytes]:
        return subprocess.Popen(self.command(*words), stdout=subprocess.DEVNULL, stderr=subprocess.PIPE)

    def run(self, *words: str) -> int:
        return subprocess.run(self.command(*words), stdout=subprocess.DEVNULL, timeout=SECONDS).returncode


def lines_of(path: str) -> int:
    try:
        return content(path).count(b"\n")
    except FileNotFoundError:
        return 0


def wait_for(what: Callable[[], bool], child: Optional[subprocess.Popen[bytes]] = None) -> None:
    """Waits until something holds. Raises CheckError if a process ends before."""
    end = time.monotonic() + SECONDS
    while not what():
        must(child is None or child.poll() is None, "the run ended too soon")
        must(time.monotonic() < end, "too late")
        time.sleep(0.01)


# ---- A run that is killed


def stop_run(runs: Runs, *words: str, journal: str, rows: int = 4) -> None:
    """Kills a run that has written some rows of windows."""
    with runs.start(*words) as child:
        wait_for(lambda: lines_of(journal) > rows, child)
        child.kill()
    must(child.returncode == -signal.SIGKILL, "the run had ended")


def check_resume(runs: Runs, kind: str) -> None:
    """A killed run that is resumed leaves the same bytes, and nothing else."""
    out = runs.path(f"killed.{kind}")
    stop_run(runs, "-o", out, journal=out + ".resume")
    must(not os.path.exists(out), "a file stands under the final name")
    before = lines_of(out + ".resume")
    must(runs.run("-o", out, "--resume") == 0, "the resumed run failed")
    must(content(out) == runs.wanted_of(kind), "other bytes")
    must(not os.path.exists(out + ".part") and not os.path.exists(out + ".resume"), "files are left")
    must(before > 4, "nothing was there to resume")


def check_damaged(runs: Runs, kind: str) -> None:
    """What was damaged after the run stopped is drawn again."""
    out = runs.path(f"damaged.{kind}")
    stop_run(runs, "-o", out, journal=out + ".resume")
    with open(out + ".part", "r+b") as file:
        place = os.path.getsize(out + ".part") // 3
        file.seek(place)
        byte = file.read(1)
        file.seek(place)
        file.write(bytes([byte[0] ^ 64]))
    must(runs.run("-o", out, "--resume") == 0, "the resumed run failed")
    must(content(out) == runs.wanted_of(kind), "other bytes")


def check_resumed_tiles(runs: Runs) -> None:
    """Tiles of a killed run, one of them damaged, are the same after it was resumed."""
    wanted, tiles = runs.path("wanted"), runs.path("tiles")
    must(runs.run("--tiles", wanted) == 0, "the run failed")
    stop_run(runs, "--tiles", tiles, journal=tiles + ".resume", rows=12)
    must(not os.path.exists(tiles), "a folder stands under the final name")
    with open(os.path.join(tiles + ".part", "5", "1", "8.png"), "wb") as file:
        file.write(b"\x89PNG")
    must(runs.run("--tiles", tiles, "--resume") == 0, "the resumed run failed")
    must(folder_files(tiles) == folder_files(wanted), "other files or bytes")


def check_other_list(runs: Runs) -> None:
    """What a stopped run of another list left is not taken."""
    out = runs.path("other.ppm")
    stop_run(runs, "-o", out, journal=out + ".resume")
    other = runs.path("other.npz")
    write_scene(other, seed=2, triangles=1000)
    command = [sys.executable, "-m", "trirast.poster", other, "--window", str(WINDOW), "-o", out]
    done = subprocess.run([*command, "--resume"], capture_output=True, timeout=SECONDS)
    must(done.returncode == 1 and b"ResumeError" in done.stderr, f"status {done.returncode}: {done.stderr!r}")
    must(not os.path.exists(out), "a file stands under the final name")
    must(
        runs.run("-o", out, "--resume") == 0 and content(out) == runs.wanted_of("ppm"),
        "the refused run spoiled what was left",
    )


# ---- Dask


def workers_of(process: int) -> List[int]:
    """The workers that a run by Dask started."""
    found = []
    for child in descendants(process):
        with contextlib.suppress(OSError):
            if b"dask_worker" in content(f"/proc/{child}/cmdline"):
                found.append(child)
    return found


def check_killed_workers(runs: Runs, number: int) -> str:
    """A worker is killed every few seconds: the same bytes."""
    dask()
    pick = random.Random(number)
    out = runs.path(f"workers{number}.ppm")
    killed = 0
    begun = time.monotonic()
    with runs.start("-o", out, "--scheduler", "local", "--workers", "4") as child:
        wait_for(lambda: lines_of(out + ".resume") > 1, child)
        while child.poll() is None:
            workers = workers_of(child.pid)
            if workers:
                with contextlib.suppress(ProcessLookupError):
                    os.kill(pick.choice(workers), signal.SIGKILL)
                    killed += 1
            with contextlib.suppress(subprocess.TimeoutExpired):
                child.wait(KILL_EVERY)
            must(time.monotonic() - begun < SECONDS, "too late")
        assert child.stderr
        errors = child.stderr.read()
    must(child.returncode == 0, f"status {child.returncode}: {errors[-500:]!r}")
    must(content(out) == runs.wanted_of("ppm"), "other bytes")
    return f"{killed} killed in {time.monotonic() - begun:.0f} s"


def check_hung_worker(runs: Runs) -> str:
    """A worker hangs: the other one draws its windows, and the bytes are the same."""
    dask()
    out, begun = runs.path("hung_worker.ppm"), time.monotonic()
    with runs.start("-o", out, "--scheduler", "local", "--workers", "2") as child:
        wait_for(lambda: lines_of(out + ".resume") > 1, child)
        worker = workers_of(child.pid)[0]
        os.kill(worker, signal.SIGSTOP)
        try:
            child.wait(ENDED)
        finally:
            child.kill()
            with contextlib.suppress(ProcessLookupError):
                os.kill(worker, signal.SIGKILL)
    must(child.returncode == 0, f"status {child.returncode}")
    must(content(out) == runs.wanted_of("ppm"), "other bytes")
    return f"{time.monotonic() - begun:.0f} s"


def kill_workers(child: subprocess.Popen[bytes], seconds: float, most: int = 1 << 30) -> int:
    """Kills each worker of a run as soon as it is there, until the run ends or enough are killed.
    Returns how many were."""
    killed, end = 0, time.monotonic() + seconds
    while child.poll() is None and killed < most and time.monotonic() < end:
        for worker in workers_of(child.pid):
            with contextlib.suppress(ProcessLookupError):
                os.kill(worker, signal.SIGKILL)
                killed += 1
        time.sleep(0.1)
    return killed


def must_be_quiet(status: int, errors: bytes) -> None:
    """A run passed, and wrote nothing but the line that each run ends with."""
    must(
        status == 0 and errors.count(b"\n") == 1 and errors.endswith(b" pixels\n"),
        f"status {status}: {errors[-500:]!r}",
    )


def check_killed_as_they_start(runs: Runs) -> str:
    """All workers are killed as they start, and those that are started in their place: the same bytes."""
    dask()
    out, wanted = runs.path("starting.ppm"), runs.path("small.ppm")
    command = [sys.executable, "-m", "trirast.poster", runs.small_scene, "--workers", "2", "-o"]
    must(subprocess.run([*command, wanted], timeout=SECONDS).returncode == 0, "the run failed")
    begun = time.monotonic()
    with subprocess.Popen(
        [*command, out, "--scheduler", "local"], stdout=subprocess.DEVNULL, stderr=subprocess.PIPE
    ) as child:
        killed = kill_workers(child, SECONDS, KILLED)
        _, errors = child.communicate(timeout=SECONDS)
    must_be_quiet(child.returncode, errors)
    must(killed >= KILLED, f"the run ended, and {killed} were killed")
    must(content(out) == content(wanted), "other bytes")
    return f"{killed} killed, {time.monotonic() - begun:.0f} s"


def check_left_behind(runs: Runs) -> None:
    """An error that nobody asks for, of a future that is left behind to the end of the process: the run
    says nothing of it."""
    dask()
    out = runs.path("left_behind.ppm")
    program = (
        "import asyncio, sys, trirast.poster._command as command\n"
        "left_behind = asyncio.new_event_loop().create_future()\n"
        "left_behind.set_exception(TimeoutError('Timeout'))\n"
        f"sys.exit(command.main([{runs.small_scene!r}, '-o', {out!r}, '--scheduler', 'local', '--workers', '1']))"
    )
    done = subprocess.run([sys.executable, "-c", program], capture_output=True, timeout=SECONDS)
    must_be_quiet(done.returncode, done.stderr)
    must(os.path.exists(out), "no file")


def check_none_starts(runs: Runs) -> str:
    """No worker lives: one line and status 1, within a bounded time, and no file."""
    dask()
    out = runs.path("none_starts.ppm")
    program = (
        "import sys, trirast.poster._local_workers as local, trirast.poster._command as command\n"
        "local.ENDED = 3\n"
        f"sys.exit(command.main([{runs.small_scene!r}, '-o', {out!r}, '--scheduler', 'local', '--workers', '2']))"
    )
    begun = time.monotonic()
    with subprocess.Popen([sys.executable, "-c", program], stdout=subprocess.DEVNULL, stderr=subprocess.PIPE) as child:
        try:
            killed = kill_workers(child, ENDED)
            must(child.poll() is not None, f"it had not ended after {ENDED} seconds; {killed} were killed")
        finally:
            child.kill()
        _, errors = child.communicate()
    must(child.returncode == 1 and errors.count(b"\n") == 1, f"status {child.returncode}: {errors[-500:]!r}")
    for text in (b"WorkerLostError: worker: expected a window, got ", b"ended, the last with status -9"):
        must(text in errors, f"{killed} killed: {errors!r}")
    must(not os.path.exists(out), "a file stands under the final name")
    return f"{killed} killed, {time.monotonic() - begun:.0f} s"


def a_free_port() -> int:
    with socket.socket() as listening:
        listening.bind(("127.0.0.1", 0))
        port: int = listening.getsockname()[1]
        return port


@contextlib.contextmanager
def started(*command: str) -> Iterator[subprocess.Popen[bytes]]:
    """A process with its descendants, which are ended at the end."""
    child = subprocess.Popen(command, stdout=subprocess.DEVNULL, stderr=subprocess.DEVNULL)
    try:
        yield child
    finally:
        for process in [*descendants(child.pid), child.pid]:
            with contextlib.suppress(ProcessLookupError):
                os.kill(process, signal.SIGKILL)
        child.wait()


def dask_command(name: str) -> List[str]:
    """The command of a part of Dask."""
    return [sys.executable, "-m", f"distributed.cli.dask_{name}"]


@contextlib.contextmanager
def a_cluster(runs: Runs) -> Iterator[tuple[subprocess.Popen[bytes], str]]:
    """A scheduler and two workers as a cluster has them, and the address of the scheduler."""
    dask()
    port = a_free_port()
    address = f"tcp://127.0.0.1:{port}"
    place = ["--host", "127.0.0.1", "--no-dashboard"]
    with contextlib.ExitStack() as stack:
        scheduler = stack.enter_context(started(*dask_command("scheduler"), *place, "--port", str(port)))
        for _ in range(2):
            folder = ["--local-directory", runs.folder, "--nthreads", "1"]
            stack.enter_context(started(*dask_command("worker"), address, *place, *folder))
        yield scheduler, address


def check_killed_scheduler(runs: Runs) -> str:
    """The scheduler is killed: a named error and status 1; the resumed run ends with the same bytes."""
    out = runs.path("scheduler.png")
    with a_cluster(runs) as (scheduler, address):
        with runs.start("-o", out, "--scheduler", address) as child:
            wait_for(lambda: lines_of(out + ".resume") > 3, child)
            scheduler.kill()
            begun = time.monotonic()
            status = child.wait(SECONDS)
            seconds = time.monotonic() - begun
            assert child.stderr
            errors = child.stderr.read()
    must(status == 1 and b"SchedulerLostError" in errors, f"status {status}: {errors[-500:]!r}")
    must(b"Traceback" not in errors, f"a trace: {errors[-800:]!r}")
    must(not os.path.exists(out), "a file stands under the final name")
    must(runs.run("-o", out, "--resume") == 0, "the resumed run failed")
    must(content(out) == runs.wanted_of("png"), "other bytes")
    return f"reported after {seconds:.1f} s"


def check_hung_scheduler(runs: Runs) -> None:
    """A scheduler that is there and does not answer: a named error and status 1."""
    out = runs.path("hung.ppm")
    with a_cluster(runs) as (scheduler, address):
        program = ("import sys, trirast.poster._dask as engine, trirast.poster._command as command\n"
                   "engine.ANSWER = engine.COME_BACK = 3\n"
                   f"sys.exit(command.main([{runs.scene!r}, '-o', {out!r}, '--scheduler', {address!r}]))")
        with subprocess.Popen(
            [sys.executable, "-c", program], stdout=subprocess.DEVNULL, stderr=subprocess.PIPE
        ) as child:
            wait_for(lambda: lines_of(out + ".resume") > 3, child)
            scheduler.send_signal(signal.SIGSTOP)
            _, errors = child.communicate(timeout=SECONDS)
    must(child.returncode == 1 and b"SchedulerLostError" in errors, f"status {child.returncode}: {errors[-500:]!r}")
    must(errors.count(b"\n") == 1, f"more than a line: {errors[-800:]!r}")


def check_lost_for_good(runs: Runs) -> str:
    """Workers that die with each window: a named error and status 1, and no file."""
    dask()
    out = runs.path("lost.ppm")
    with a_cluster(runs) as (_, address):
        program = ("import os, sys, trirast.poster._dask as engine, trirast.poster._command as command\n"
                   "engine.sent_pixels, engine.SENT = (lambda *part: os._exit(1)), 2\n"
                   f"sys.exit(command.main([{runs.scene!r}, '-o', {out!r}, '--scheduler', {address!r}]))")
        done = subprocess.run([sys.executable, "-c", program], capture_output=True, timeout=SECONDS)
    must(
        done.returncode == 1 and b"WorkerLostError" in done.stderr, f"status {done.returncode}: {done.stderr[-500:]!r}"
    )
    must(not os.path.exists(out), "a file stands under the final name")
    return done.stderr.decode().splitlines()[-1][:100]


def check_no_scheduler(runs: Runs) -> None:
    """A scheduler that is not there, or an address of a kind that needs more: a named error and status 1."""
    dask()
    for address in (f"tcp://127.0.0.1:{a_free_port()}", f"tls://127.0.0.1:{a_free_port()}"):
        command = runs.command("-o", runs.path("none.ppm"), "--scheduler", address)
        done = subprocess.run(command, capture_output=True, timeout=SECONDS)
        must(
            done.returncode == 1 and b"SchedulerLostError" in done.stderr,
            f"{address}: status {done.returncode}: {done.stderr[-500:]!r}",
        )


def cases(options: Options) -> Iterator[Case]:
    runs = Runs(options.folder)
    for kind in ("ppm", "png"):
        yield case(f"a killed run that is resumed, {kind}", check_resume, runs, kind)
        yield case(f"a killed run whose file is damaged, {kind}", check_damaged, runs, kind, is_long=kind == "png")
    yield case("a killed run that is resumed, tiles", check_resumed_tiles, runs)
    yield case("a stopped run of another list", check_other_list, runs)
    for number in range(options.kills):
        yield case(f"a worker killed every three seconds, run {number + 1}", check_killed_workers, runs, number)
    yield case("a worker that hangs", check_hung_worker, runs, is_long=True)
    yield case("all workers killed as they start", check_killed_as_they_start, runs)
    yield case("an error that Dask leaves behind", check_left_behind, runs)
    yield case("workers of which none starts", check_none_starts, runs)
    # After these Dask takes minutes on a busy machine.
    yield case("the scheduler killed", check_killed_scheduler, runs, is_long=True)
    yield case("a scheduler that does not answer", check_hung_scheduler, runs, is_long=True)
    yield case("workers that die with each window", check_lost_for_good, runs, is_long=True)
    yield case("no scheduler", check_no_scheduler, runs)
