"""The library, and the buffers that go in and out. The structs and the types of its calls are in _declarations.

The library is loaded at the first call. It is the one that the environment's TRIRAST_LIBRARY names, else the one in
the folder lib of this package, as a wheel has it, else the one in lib of the repository in which this file lies,
else the installed one.
"""

import ctypes
import os
import sys
from functools import lru_cache
from typing import Any, Tuple

from ._declarations import OTHERS, POINTER, STATUSES, WORD, CError, to
from ._errors import error_of
from ._numbers import ERROR_MESSAGE_SIZE as MESSAGE_SIZE
from ._system import file_on_windows
from ._version import INTERFACE

HOW_TO_GET_IT = "run make library in the repository of trirast, then set TRIRAST_LIBRARY to its lib/libtrirast.so"
# The files by which the library is loaded, the first that is there. load.so is empty and needs the library, so that the
# loader takes the one for the processor's level. The last is the library itself.
BY_SYSTEM = {"win32": ("trirast.dll",), "darwin": ("libtrirast.dylib",)}
FILES = BY_SYSTEM.get(sys.platform, ("load.so", f"libtrirast.so.{INTERFACE}"))


class CSymbolInfo(ctypes.Structure):
    """Dl_info of <dlfcn.h>."""

    _fields_ = [("file", ctypes.c_char_p), ("base", POINTER), ("name", ctypes.c_char_p), ("address", POINTER)]


def library_path() -> str:
    """Where the library is, or its name, by which the system's loader finds it."""
    package = os.path.dirname(os.path.abspath(__file__))
    in_wheel_and_repository = (package, os.path.join(package, "..", "..", ".."))
    paths = (os.path.join(folder, "lib", name) for folder in in_wheel_and_repository for name in FILES)
    found = [path for path in paths if os.path.exists(path)]
    return os.environ.get("TRIRAST_LIBRARY") or [*found, FILES[-1]][0]


@lru_cache(maxsize=None)
def library(kind: Any = ctypes.CDLL) -> Any:
    """The library with the types of its calls. ctypes releases Python's lock during a call, and keeps it if the
    kind is ctypes.PyDLL.

    Raises OSError if it cannot be loaded, and ImportError if it is another or an older one.
    """
    path = library_path()
    try:
        loaded = kind(path)
    except OSError as error:
        raise OSError(f"library: expected one that can be loaded, got {error}; {HOW_TO_GET_IT}") from None
    try:
        check_version(path, loaded)
        for name, (takes, gives) in {**OTHERS, **{name: (takes, WORD) for name, takes in STATUSES.items()}}.items():
            call = getattr(loaded, name)
            call.argtypes, call.restype = takes, gives
            if name in STATUSES:
                call.errcheck = raise_error if takes[-1] == to(CError) else raise_status
    except AttributeError as error:
        raise ImportError(f"{path}: expected calls of interface {INTERFACE}, got {error}; {HOW_TO_GET_IT}") from None
    return loaded


def loaded_path() -> str:
    """The file of the library that the loader chose. library_path() may name one that only leads to it."""
    if sys.platform == "win32":
        return file_on_windows(library())
    found = CSymbolInfo()
    address = ctypes.cast(library().trirast_interface, ctypes.c_void_p)
    if not ctypes.CDLL(None).dladdr(address, ctypes.byref(found)):
        raise OSError("library: expected its path from dladdr, got none")
    return os.path.abspath(os.fsdecode(found.file))


def check_version(path: str, loaded: Any) -> None:
    """Raises ImportError if the library has less than this package calls."""
    version = loaded.trirast_interface()
    if version < INTERFACE:
        raise ImportError(f"{path}: expected interface {INTERFACE}, got {version}; {HOW_TO_GET_IT}")


def raise_error(status: int, _call: Any, arguments: Tuple[Any, ...]) -> int:
    """Raises the exception of a call's error, which is its last argument. Returns the status if it is 0."""
    if status:
        error = arguments[-1]
        raise error_of(status, message_of(error), error.cause, error.draw, error.element, error.value)
    return status


def raise_status(status: int, _call: Any, _arguments: Tuple[Any, ...]) -> int:
    """Raises the exception of a status, if it is not 0."""
    if status:
        raise error_of(status, library().trirast_status_string(status).decode())
    return status


def message_of(error: CError) -> str:
    """The line of an error."""
    line = ctypes.create_string_buffer(MESSAGE_SIZE)
    library().trirast_error_message(error, line, MESSAGE_SIZE)
    return line.value.decode()


def memory_of(view: memoryview) -> Any:
    """The bytes of a contiguous buffer as C sees them. They are copied only if the buffer is read-only."""
    of_bytes = ctypes.c_uint8 * view.nbytes
    if view.readonly or not view.nbytes:
        return of_bytes.from_buffer_copy(view)
    return of_bytes.from_buffer(view)
