"""The engine for clusters: Dask's scheduler and workers, on this machine or elsewhere.

Each window's part of the arrays goes with its task, so a worker needs no memory of the whole scene, and none of it is
lost with a worker. The package and the library have to be installed where workers run.
"""

from __future__ import annotations

import contextlib
import gc
import importlib
import logging
import sys
import threading
import time
import warnings
from collections import deque
from concurrent.futures import CancelledError
from typing import Any, Callable, Deque, Dict, Iterable, Iterator, NamedTuple, Optional

import numpy as np

from .._errors import OutOfMemoryError
from ._errors import EngineMissingError, PosterError, SchedulerLostError, WorkerLostError
from ._local_workers import LocalWorkers, local_workers
from ._part import Part, compact
from ._scene import Pixels
from ._window_pixels import releases, sent_pixels
from ._windows import Span, Window

LOCAL = "local"
# How many windows a worker has before it or done and not yet taken.
AHEAD = 4
# How often a window is sent before its loss is an error. Dask itself tries a task that dies with its
# worker several times.
SENT = 10
# Seconds after the last window that came back: as many without a worker of a cluster are an error, and
# so are as many in all.
WITHOUT_WORKERS = 60
WITHOUT_WINDOW = 900
# Seconds from one look at the workers to the next. What takes longer than STOOD_STILL counts as this: then the
# machine stood still.
LOOK, STOOD_STILL = 1, 15
# Seconds for a window to come back that is drawn, before the workers are looked after, and for the scheduler to answer.
COME_BACK = 10
ANSWER = 60
CONNECT = "10s"
# How long a worker of this run's own may be silent. Then Dask gives its windows to others.
SILENT = "60s"
# Loggers that write traces where a scheduler goes away. The error that is raised says it.
LOGGERS = (
    "distributed", "distributed.client", "distributed.utils", "distributed.core", "tornado.application", "asyncio"
)


def draw_by_dask(
    windows: Iterable[Window], part: Callable[[Span], Part], workers: int, scheduler: str
) -> Iterator[Drawn]:
    """Draws windows by Dask, and gives them back in their order.

    `scheduler` is an address, as tcp://host:8786, or "local": then `workers` processes are started, and others in
    place of those that end. Raises EngineMissingError without Dask, or if a worker has another release;
    SchedulerLostError if the scheduler is not reached, does not answer or goes away; WorkerLostError if a window is
    lost with its worker again and again, or if workers are not there for long.
    """
    distributed = dask()
    with contextlib.ExitStack() as stack:
        # These end last: a scheduler that ends has its workers end.
        local = stack.enter_context(local_workers(workers)) if scheduler == LOCAL else None
        client = stack.enter_context(connected(distributed, scheduler))
        yield from Sending(distributed, client, part, local).drawn(windows)


def dask() -> Any:
    """The module distributed."""
    try:
        import distributed
    except ImportError as error:
        raise EngineMissingError(f"--scheduler: expected Dask, got {error}; install python3-distributed") from error
    return distributed


@contextlib.contextmanager
def connected(distributed: Any, scheduler: str) -> Iterator[Any]:
    """A client of a scheduler, which is started and ended here if it is local. It has no workers then."""
    with contextlib.ExitStack() as stack:
        stack.enter_context(quiet_loggers())
        stack.enter_context(importlib.import_module("dask").config.set(settings(scheduler)))
        try:
            if scheduler == LOCAL:
                # Any free port: without a number Dask asks for 8787, and warns if another run has it.
                cluster = distributed.LocalCluster(
                    n_workers=0, host="127.0.0.1", silence_logs=50, dashboard_address=":0"
                )
                client = stack.enter_context(distributed.Client(stack.enter_context(cluster)))
            else:
                client = stack.enter_context(distributed.Client(scheduler))
        except Exception as error:
            # For an address that is none, or of a kind that needs more, Dask raises errors of many classes.
            raise SchedulerLostError(f"scheduler: expected one at {scheduler}, got {reason(error)}") from error
        if has_dashboard() and client.dashboard_link:
            print(f"dashboard: {client.dashboard_link}", file=sys.stderr)
        yield client


def settings(scheduler: str) -> Dict[str, str]:
    """Dask's settings: a run ends whose scheduler is gone, and does not wait long for a worker that hangs."""
    connect = {"distributed.comm.timeouts.connect": CONNECT}
    return {**connect, "distributed.scheduler.worker-ttl": SILENT} if scheduler == LOCAL else connect


def reason(error: BaseException) -> str:
    """An error in words. Some of Dask's have no text but their class."""
    return f"{type(error).__name__}: {error}" if str(error) else type(error).__name__


def quiet_for_good() -> None:
    """Keeps Dask's loggers quiet to the end of the process: what Dask leaves behind may write a trace as late as that.
    Raises EngineMissingError without Dask."""
    # Its import gives the loggers levels of their own.
    dask()
    for logger in map(logging.getLogger, LOGGERS):
        logger.setLevel(logging.CRITICAL)


@contextlib.contextmanager
def quiet_loggers() -> Iterator[None]:
    """Keeps Dask's loggers quiet meanwhile."""
    levels = [(logger, logger.level) for logger in map(logging.getLogger, LOGGERS)]
    try:
        for logger, _ in levels:
            logger.setLevel(logging.CRITICAL)
        yield
    finally:
        # What Dask leaves behind writes a trace when it goes, so it goes now.
        gc.collect()
        for logger, level in levels:
            logger.setLevel(level)


def has_dashboard() -> bool:
    """Whether Dask's dashboard can run: it needs Bokeh."""
    try:
        import bokeh  # noqa: F401
    except ImportError:
        return False
    return True


class Drawn(NamedTuple):
    """A window and its pixels."""

    window: Window
    pixels: Pixels


class Sent(NamedTuple):
    """A window that was sent."""

    window: Window
    future: Any
    times: int
    # No pixels, of the kind that it has.
    blank: Pixels


def checked(window: Window, pixels: Any, blank: Pixels) -> Pixels:
    """The pixels of a window as they came back. Raises WorkerLostError if they are none: a worker may be anyone's."""
    shape = (window.height, window.width, *blank.shape[2:])
    if not isinstance(pixels, np.ndarray) or pixels.dtype != blank.dtype or pixels.shape != shape:
        raise WorkerLostError(
            f"window[{window.column}, {window.row}]: expected {blank.dtype} of the shape {shape} from a worker, got "
            f"{type(pixels).__name__} {getattr(pixels, 'dtype', '')} {getattr(pixels, 'shape', '')}".rstrip()
        )
    return pixels


class Sending:
    """Windows on their way to a cluster and back."""

    def __init__(
        self, distributed: Any, client: Any, part: Callable[[Span], Part], local: Optional[LocalWorkers]
    ) -> None:
        self._distributed = distributed
        self._client = client
        self._part = part
        self._local = local
        self._releases = releases()
        self._under_way: Deque[Sent] = deque()
        # The threads of workers at the last look, and when that was.
        self._threads, self._looked = 0, time.monotonic() - LOOK
        # Seconds since the last window came back, and those of them without a worker.
        self._without_window = self._without_workers = 0.0

    def drawn(self, windows: Iterable[Window]) -> Iterator[Drawn]:
        try:
            for window in windows:
                self._look_after_workers()
                if len(self._under_way) >= AHEAD * max(1, self._threads):
                    yield self._first()
                self._under_way.append(self._send(window, 1))
            while self._under_way:
                yield self._first()
        finally:
            self._under_way.clear()

    def _send(self, window: Window, times: int) -> Sent:
        part = compact(self._part(window.span))
        with warnings.catch_warnings():
            # Dask proposes to scatter large arguments. Scattered data dies with the worker that holds it.
            warnings.filterwarnings("ignore", "Large object", UserWarning)
            try:
                future = self._client.submit(sent_pixels, part, self._releases, pure=False)
                return Sent(window, future, times, part.sheet.blank(0, 0))
            except Exception as error:
                raise lost(error) from error

    def _first(self) -> Drawn:
        """The first window that is under way, once it is drawn. It is sent again if it was lost with its worker."""
        while True:
            window, future, times, blank = self._under_way.popleft()
            try:
                return Drawn(window, checked(window, self._wait(future), blank))
            except (self._distributed.scheduler.KilledWorker, MemoryError, OutOfMemoryError) as error:
                if times == SENT:
                    where = f"window[{window.column}, {window.row}]"
                    raise WorkerLostError(
                        f"{where}: expected its pixels, got {times} failures: {reason(error)}"
                    ) from error
                self._under_way.appendleft(self._send(window, times + 1))
            except PosterError:
                raise
            except (CancelledError, OSError, ImportError) as error:
                if future.status == "error":
                    raise EngineMissingError(
                        f"worker: expected {self._releases}, got {reason(error)}; install it there"
                    ) from error
                raise lost(error) from error

    def _wait(self, future: Any) -> Any:
        """A task's result. Looks after the workers while it waits."""
        is_done = threading.Event()
        future.add_done_callback(lambda _: is_done.set())
        while True:
            if is_done.wait(LOOK):
                # What is done is drawn again if its worker dies before it has come back.
                try:
                    result = future.result(timeout=COME_BACK)
                    self._without_window = self._without_workers = 0.0
                    if self._local is not None:
                        self._local.come_back()
                    return result
                except self._distributed.TimeoutError:
                    if future.status == "error":
                        # The worker's own.
                        raise
            self._look_after_workers()

    def _look_after_workers(self) -> None:
        """Looks which workers are there, if the last look was some time ago, and starts those of this run's
        own that have ended.

        Raises WorkerLostError if no window came back for long, or before too many of this run's own ended.
        """
        now = time.monotonic()
        passed = min(now - self._looked, STOOD_STILL)
        if passed < LOOK:
            return
        self._looked = now
        if self._local is not None:
            self._local.renew(self._client.scheduler.address)
        self._threads = self._threads_now()
        self._without_window += passed
        self._without_workers += 0 if self._threads else passed
        if self._local is not None and self._local.are_lost():
            raise WorkerLostError(f"worker: expected a window, got {self._local}")
        if self._local is None and self._without_workers > WITHOUT_WORKERS:
            raise WorkerLostError(f"workers: expected at least 1, got none for {WITHOUT_WORKERS} seconds; start some")
        if self._without_window > WITHOUT_WINDOW:
            raise WorkerLostError(f"workers: expected a window, got none in {WITHOUT_WINDOW} seconds; see their logs")

    def _threads_now(self) -> int:
        """How many threads the workers have."""
        try:
            return sum(self._client.sync(self._client.scheduler.ncores, callback_timeout=ANSWER).values())
        except (OSError, self._distributed.TimeoutError) as error:
            raise lost(error) from error

def lost(error: BaseException) -> PosterError:
    return SchedulerLostError(f"scheduler: expected an answer, got {reason(error)}")
