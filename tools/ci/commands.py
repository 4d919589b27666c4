"""Runs of commands, each with its status, what it printed, and the seconds of a processor that it took."""

from __future__ import annotations

import os
import signal
import subprocess
import tempfile
import threading
from dataclasses import dataclass
from typing import Mapping, Sequence


@dataclass(frozen=True)
class Ran:
    """How a command ended; its status is `None` if its time was over."""

    status: int | None
    text: str
    seconds: float

    def last_lines(self, number: int) -> list[str]:
        return [line for line in self.text.splitlines() if line.strip()][-number:]


# The commands that run now, and whether no further one is to begin.
RUNNING: set[subprocess.Popen[bytes]] = set()
STOPPING = threading.Event()


def stop(child: subprocess.Popen[bytes]) -> None:
    """Ends a command and what it started."""
    try:
        os.killpg(child.pid, signal.SIGKILL)
    except ProcessLookupError:
        pass


def stop_all() -> None:
    """Ends all commands, and lets none begin."""
    STOPPING.set()
    for child in tuple(RUNNING):
        stop(child)


def run(command: Sequence[str], folder: str, seconds: float, environment: Mapping[str, str] | None = None) -> Ran:
    """Runs a command in a folder for at most these seconds, and returns what it printed."""
    if STOPPING.is_set():
        return Ran(None, "", 0.0)
    late = threading.Event()
    with tempfile.TemporaryFile("w+", errors="replace") as said:
        child = subprocess.Popen(
            command, cwd=folder, env=environment, stdin=subprocess.DEVNULL, stdout=said, stderr=said,
            start_new_session=True,
        )

        def end() -> None:
            late.set()
            stop(child)

        timer = threading.Timer(seconds, end)
        RUNNING.add(child)
        try:
            timer.start()
            _pid, status, used = os.wait4(child.pid, 0)
        finally:
            timer.cancel()
            RUNNING.discard(child)
            stop(child)
        child.returncode = os.waitstatus_to_exitcode(status)
        said.seek(0)
        return Ran(None if late.is_set() else child.returncode, said.read(), used.ru_utime + used.ru_stime)
