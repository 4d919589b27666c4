"""Who may call on a canvas: one thread at a time."""

from sys import is_finalizing
from threading import RLock
from typing import Any
from weakref import WeakSet

from ._system import at_fork


class Calls:
    """The lock of a canvas.

    A lock that a thread had which is no more is never released: in a forked child, which has no other thread of its
    parent, and while the interpreter ends, when no other thread runs. To take it raises RuntimeError.
    """

    def __init__(self) -> None:
        self._lock: Any = RLock()
        ALL.add(self)

    @property
    def lock(self) -> Any:
        """The lock itself: no line of Python stands between it and the body of a `with`, so no interrupt leaves it
        locked."""
        if is_finalizing():
            self.leave_others()
        return self._lock

    def leave_others(self) -> None:
        """Where no other thread is left: a lock that is taken is lost."""
        if self._lock.acquire(blocking=False):
            self._lock.release()
        else:
            self._lock = Lost()


class Lost:
    """A lock that is never released."""

    def acquire(self, blocking: bool) -> bool:
        return False

    def __enter__(self) -> None:
        raise RuntimeError(
            "canvas: expected no call when the process was forked or began to end, got one of another thread; make "
            "another canvas"
        )

    def __exit__(self, *_error: Any) -> None:
        pass


ALL: "WeakSet[Calls]" = WeakSet()


def leave_others() -> None:
    """Looks at all locks in a forked child."""
    for calls in list(ALL):
        calls.leave_others()


at_fork(after_in_child=leave_others)
