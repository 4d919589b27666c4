"""Processes on Linux, as /proc shows them."""

from __future__ import annotations

import contextlib
import os
from typing import Iterator


def descendants(process: int) -> Iterator[int]:
    """The processes that a process started, and those that these started. One that has ended started none."""
    with contextlib.suppress(OSError):
        for thread in os.listdir(f"/proc/{process}/task"):
            with open(f"/proc/{process}/task/{thread}/children", encoding="ascii") as file:
                children = file.read().split()
            for child in children:
                yield int(child)
                yield from descendants(int(child))
