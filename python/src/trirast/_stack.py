"""How much stack threads have: that of the calling thread, and that of the threads that are started here.

A call of the library takes up to TRIRAST_STACK of the header (docs/reference/calls.md). A program may give its threads
less, by threading.stack_size or by `ulimit -s`, and to run out of stack ends the process.
"""

import ctypes
import sys
import threading
from _thread import get_ident, stack_size
from contextlib import contextmanager
from functools import lru_cache
from typing import Any, Iterator

from ._system import at_fork, stack_on_windows

if sys.platform != "win32":
    import resource

# Bytes that are enough for a call and for Python.
STACK = 1 << 20
STARTING = threading.RLock()
OWN = threading.local()
# Larger than pthread_attr_t is on any processor.
ATTRIBUTES = ctypes.c_uint64 * 64


def is_enough() -> bool:
    """Whether the calling thread has enough stack."""
    if not hasattr(OWN, "is_enough"):
        OWN.is_enough = size() >= STACK
    found: bool = OWN.is_enough
    return found


def size() -> int:
    """The bytes of stack of the calling thread. Those of the main thread grow up to a limit of the system."""
    if sys.platform == "win32":
        return stack_on_windows()
    if get_ident() == threading.main_thread().ident:
        return of_system()
    attributes, found = ATTRIBUTES(), ctypes.c_size_t()
    calls = threads_library()
    if calls is None or calls.pthread_getattr_np(ctypes.c_ulong(calls.pthread_self()), attributes):
        return asked_for()
    calls.pthread_attr_getstacksize(attributes, ctypes.byref(found))
    calls.pthread_attr_destroy(attributes)
    return found.value


@lru_cache(maxsize=None)
def threads_library() -> Any:
    """The calls of pthreads, or `None` if they do not say how much stack there is."""
    calls = ctypes.CDLL(None)
    if not hasattr(calls, "pthread_getattr_np"):
        return None
    calls.pthread_self.restype = ctypes.c_ulong
    return calls


def of_system() -> int:
    """The bytes of stack that the system gives, or 0 on Windows, where python.exe says how many."""
    if sys.platform == "win32":
        return 0
    limit = resource.getrlimit(resource.RLIMIT_STACK)[0]
    return STACK if limit == resource.RLIM_INFINITY else limit


def asked_for() -> int:
    """The bytes of stack that a thread gets which is started now."""
    with STARTING:
        given = stack_size(STACK)
        put_back(given, STACK)
    return given or of_system()


def put_back(given: int, ours: int) -> None:
    """Asks for what was given before ours, but if a program has asked for something else meanwhile."""
    found = stack_size(given)
    if found != ours:
        stack_size(found)


@contextmanager
def enough() -> Iterator[None]:
    """Threads that are started within have enough stack, also if a program asked for less."""
    with STARTING:
        given = stack_size(STACK)
        try:
            if (given or of_system()) >= STACK:
                put_back(given, STACK)
            yield
        finally:
            if (given or of_system()) < STACK:
                put_back(given, STACK)


# A forked child has none of the other threads: one that is starting threads would leave the lock to nobody.
at_fork(before=STARTING.acquire, after_in_parent=STARTING.release, after_in_child=STARTING.release)
