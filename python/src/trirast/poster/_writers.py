"""What the writers have in common: pixels go in by rows from the top, and stand under the final name at
the end alone."""

from __future__ import annotations

from typing import Optional, Protocol

from ._scene import Pixels


class Writer(Protocol):
    """A file or folder into which a poster goes, rows after rows from the top. Rows that it is given stay the caller's.

    When it is made, it opens what a stopped run left, and changes nothing of it. `begin` comes next. Where that run is
    resumed, `read` and `keep` come before `write`: `read` returns the next rows that the run left, or `None` if they
    are not there, and `keep` takes them as written.
    """

    def begin(self) -> None: ...

    def read(self, height: int) -> Optional[Pixels]: ...

    def keep(self, rows: Pixels) -> None: ...

    def write(self, rows: Pixels) -> None: ...

    def finish(self) -> None: ...

    def close(self) -> None: ...
