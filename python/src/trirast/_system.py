"""Where systems differ: what is done at a fork, and what Windows knows of a thread and of a library."""

import ctypes
import os
import sys
from typing import Any, Callable

# Characters of the longest path on Windows.
LONGEST_PATH = 32768


def at_fork(**calls: Callable[[], Any]) -> None:
    """Has `os.register_at_fork` make these calls. Windows has no forks."""
    if sys.platform != "win32":
        os.register_at_fork(**calls)


def windows() -> Any:
    """The calls of kernel32.dll. Raises AttributeError on another system."""
    return getattr(ctypes, "WinDLL")("kernel32", use_last_error=True)


def stack_on_windows() -> int:
    """The bytes of stack of the calling thread. Windows says where it begins and ends."""
    low, high = ctypes.c_size_t(), ctypes.c_size_t()
    windows().GetCurrentThreadStackLimits(ctypes.byref(low), ctypes.byref(high))
    return high.value - low.value


def file_on_windows(library: Any) -> str:
    """The file of a library that ctypes has loaded. Raises OSError if Windows does not say."""
    path = ctypes.create_unicode_buffer(LONGEST_PATH)
    if not windows().GetModuleFileNameW(ctypes.c_void_p(library._handle), path, LONGEST_PATH):
        raise OSError("library: expected its path from Windows, got none")
    return path.value
