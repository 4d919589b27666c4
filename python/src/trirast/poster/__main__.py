"""python3 -m trirast.poster LIST -o OUT"""

import os
import signal
import sys
from typing import Any


def stop_at_once(*_: Any) -> None:
    """Ends the run while modules are imported, which may make other errors of a KeyboardInterrupt.
    Nothing is begun yet."""
    if sys.stderr is not None:
        print("poster: stopped", file=sys.stderr, flush=True)
    # The status of a program that Ctrl-C ended, as shells give it.
    os._exit(130)


def stop_once(*_: Any) -> None:
    """Ends the run at the first Ctrl-C. Another one would interrupt what the run still does to end well."""
    signal.signal(signal.SIGINT, signal.SIG_IGN)
    raise KeyboardInterrupt


# Dask's processes import this file under another name.
if __name__ == "__main__":
    # A program that was started in the background by a shell ignores Ctrl-C already.
    is_stopped = signal.getsignal(signal.SIGINT) is signal.default_int_handler
    if is_stopped:
        signal.signal(signal.SIGINT, stop_at_once)
    try:
        from ._command import main
    except ModuleNotFoundError as error:
        if error.name != "numpy":
            raise
        sys.exit("poster: this Python has no numpy; Debian's /usr/bin/python3 has it by python3-numpy")

    if is_stopped:
        signal.signal(signal.SIGINT, stop_once)
    sys.exit(main())
