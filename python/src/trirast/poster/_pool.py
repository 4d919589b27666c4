"""The threads of posters, which have enough stack also if a program asked for less."""

from __future__ import annotations

from concurrent.futures import Future, ThreadPoolExecutor
from typing import Any, Callable

from .. import _stack


class Pool(ThreadPoolExecutor):
    """Threads that are started as they are needed, by what is submitted or mapped. As a context it waits for them at
    its end; after an error, as an interrupt, what has not begun is left out."""

    def __exit__(self, kind: Any, *_: Any) -> None:
        self.shutdown(cancel_futures=kind is not None)

    def submit(self, call: Callable[..., Any], /, *given: Any, **named: Any) -> Future[Any]:
        with _stack.enough():
            return super().submit(call, *given, **named)
