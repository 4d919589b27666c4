"""Shares a call among threads. What the call uses is theirs until all have ended, whatever happens to
the caller meanwhile.

A thread that comes back to Python while the interpreter ends may crash the process, and one may begin long after others
have done its part. So the interpreter ends when all threads have left Python: the last that each does is to add itself
to those that are gone, and no bytecode of Python runs after that. A thread that is started later never runs. So from
then on the calling thread does all: in `__del__`, callbacks of `gc` and what was registered with `atexit` before.
"""

import atexit
from _thread import start_new_thread
from collections import deque
from functools import wraps
from itertools import repeat
from queue import SimpleQueue
from sys import is_finalizing
from time import sleep
from typing import Any, Callable, Deque, Dict, List, Optional, Sequence, Tuple, TypeVar, cast
from weakref import WeakSet

from . import _stack
from ._buffers import Buffer
from ._system import at_fork

Part = Tuple[Any, ...]
Call = Callable[..., Any]
Function = TypeVar("Function", bound=Call)
# Two interrupts within a microsecond leave one level.
LEVELS = 4
# Seconds between two looks at threads that have not left Python.
BRIEFLY = 0.001


def with_stack(call: Function) -> Function:
    """A function that is called on a thread of its own if the calling one has too little stack."""

    @wraps(call)
    def checked(*given: Any, **named: Any) -> Any:
        if _stack.is_enough():
            return call(*given, **named)
        made: List[Any] = []
        share(lambda: made.append(call(*given, **named)), lambda _count: [()], 1)
        return made.pop()

    return cast(Function, checked)


def share(call: Call, split: Callable[[int], Sequence[Part]], threads: int, used: Sequence[Buffer] = ()) -> None:
    """Makes a call on each of the parts into which `split` cuts the work for this number of threads.

    An interrupt is raised after all parts have ended, or have not begun. So are errors: that of the first part that has
    one. Where there are more parts than threads, an interrupt leaves out those that have not begun. If no thread can be
    started, as when the interpreter ends, the calling thread does the whole, or raises RuntimeError if it has too
    little stack.
    """
    parts = split(threads)
    if min(threads, len(parts)) > 1 or not _stack.is_enough():
        work = Work(call, parts, threads, used)
        if work.is_done_by_threads():
            work.raise_error()
            return
        if not _stack.is_enough():
            raise RuntimeError(
                f"stack: expected {_stack.STACK} bytes, or a thread that has them, got {_stack.size()} and no thread"
            )
        parts = split(1)
    for part in parts:
        call(*part)


def leave(call: Callable[[], Any]) -> None:
    """Makes a call that may take long, and that nobody else sees anything of. An interrupt is raised at once: the call
    goes on alone, and the interpreter ends after it."""
    work = Work(call, [()], 1, ())
    if work.is_done_or_left():
        work.raise_error()
    else:
        share(call, lambda _count: [()], 1)


class Work:
    """The parts of a call, which threads take one after another."""

    def __init__(self, call: Call, parts: Sequence[Part], threads: int, used: Sequence[Buffer]) -> None:
        self._call: Optional[Call] = call
        self._used = [buffer.memory for buffer in used]
        self._threads = min(threads, len(parts))
        self._may_stop = len(parts) > threads
        self._left: Deque[Tuple[int, Part]] = deque(enumerate(parts))
        self._started: List[int] = []
        # Each thread adds to these before it takes a part, and when it has done it or there was none.
        self._begun: List[None] = []
        self._ended: List[None] = []
        self._gone: Deque[None] = deque()
        self._errors: Dict[int, BaseException] = {}
        self._signals: "SimpleQueue[None]" = SimpleQueue()
        WORKS.add(self)

    def is_done_by_threads(self) -> bool:
        """Has threads do the parts, and returns whether there was a thread. An interrupt is raised after that."""
        self._outlast(LEVELS)
        return bool(self._started)

    def is_done_or_left(self) -> bool:
        """The same, but an interrupt is raised at once, and leaves the parts to the threads."""
        self._start()
        while self._started and not self._is_done():
            self._signals.get()
        return bool(self._started)

    def _outlast(self, levels: int) -> None:
        """Waits in a loop within some `try`. An interrupt that comes as the loop takes up another one leaves it,
        and meets the next."""
        try:
            if levels:
                self._outlast(levels - 1)
            else:
                self._wait()
        except BaseException:
            self._wait()
            raise

    def _wait(self) -> None:
        """Starts the threads, if there are none, and waits for all parts. Raises the last interrupt after that."""
        interrupt: Optional[BaseException] = None
        while True:
            try:
                if interrupt is not None and self._may_stop:
                    self._left.clear()
                self._start()
                while self._started and not self._is_done():
                    self._signals.get()
                break
            except BaseException as error:  # KeyboardInterrupt, or what a program's own handler of a signal raises
                interrupt = error
        try:
            if interrupt is not None:
                raise interrupt
        finally:
            # The interrupt has this frame, which would keep it.
            del interrupt

    def _start(self) -> None:
        """Starts the threads, as far as there are any. One is enough for all parts."""
        if self._started or is_finalizing():
            return
        # A thread takes the next of such an iterator: what `_run` returns, which is None, goes to those that are gone.
        ends = [(map(self._gone.append, iter(self._run, self)),) for _ in range(self._threads)]
        try:
            with _stack.enough():
                if not ENDING:
                    # Nothing of Python runs within this line, so no interrupt comes between the start of a thread and
                    # its entry in the list.
                    self._started.extend(map(start_new_thread, repeat(next), ends))
        except RuntimeError:
            pass  # There are no more threads.

    def _is_done(self) -> bool:
        """Whether no part is left, and each that a thread took has ended."""
        return not self._left and len(self._ended) >= len(self._begun)

    def _run(self) -> None:
        is_left = True
        while is_left:
            self._begun.append(None)
            is_left = self._take()
            self._ended.append(None)
            if self._is_done():
                self._call, self._used = None, []
            self._signals.put(None)

    def _take(self) -> bool:
        """Does the next part. Returns whether there was one."""
        try:
            number, part = self._left.popleft()
        except IndexError:
            return False
        try:
            assert self._call is not None
            self._call(*part)
        except BaseException as error:  # of any class: the calling thread raises it again
            self._errors[number] = error
        return True

    def raise_error(self) -> None:
        """Raises the error of the first part that has one."""
        errors, self._errors = self._errors, {}
        try:
            if errors:
                raise errors[min(errors)]
        finally:
            # The error has this frame, which would keep it, and what the frames of the threads keep.
            del errors

    def wait_for_threads(self) -> None:
        """Waits until each thread that was started has left Python."""
        while len(self._gone) < len(self._started):
            sleep(BRIEFLY)


# What threads still have, and what nobody has let go yet.
WORKS: "WeakSet[Work]" = WeakSet()
# Not empty once the interpreter has begun to end.
ENDING: List[None] = []


def end() -> None:
    """Waits until each thread has left Python. No more are started."""
    # A thread that is starting others has the lock, and ends before.
    with _stack.STARTING:
        ENDING.append(None)
    for work in list(WORKS):
        work.wait_for_threads()


atexit.register(end)
# A copy of the process has none of the threads.
at_fork(after_in_child=WORKS.clear)
