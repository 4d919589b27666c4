"""The journal of a run: what `--resume` compares before it goes on.

It is a text beside the file that grows: a mark, a line for the run, with the checksum of the list and the
size of a window, and then a line for each row of windows that is written, with its checksum. It is removed
with the end of the run.
"""

from __future__ import annotations

import json
from typing import Any, List, Mapping

from ._errors import ResumeError
from ._own_file import OwnFile

MARK = b'"trirast.poster journal"\n'
# More bytes than a journal of the smallest windows has.
MAX_BYTES = 1 << 20
WHOLE = {"whole": True}


class Journal:
    """A journal that was made, or that a stopped run left. It is locked, so a second run to the same place ends
    with a BusyError."""

    def __init__(self, path: str) -> None:
        """Opens a journal. Raises OutputError if there is a file that is none."""
        self._own = OwnFile(path, (MARK,))
        self._lines = lines_of(self._own.file.read(MAX_BYTES)) if self._own.head else []
        self.rows: List[str] = []
        # Whether the stopped run had written all rows.
        self.is_whole = WHOLE in self._lines

    def begin(self, run: Mapping[str, object], resume: bool) -> None:
        """Begins a run. Raises ResumeError if a stopped one is to be resumed and was another one."""
        if resume and self._lines:
            if self._lines[0] != dict(run):
                raise ResumeError(
                    f"{self._own.path}: expected the list or map, style, samples, --window and output of the stopped "
                    "run, got others; without --resume it begins anew"
                )
            self.rows = rows_of(self._lines[1:])
        self._own.keep()
        self._own.file.seek(0)
        self._own.file.truncate()
        self._own.file.write(MARK)
        self._add(run)

    def kept(self, checksum: str) -> None:
        """Adds a row of windows that is written: its checksum."""
        self._add({"row": checksum})

    def whole(self) -> None:
        """Says that all rows are written, before the first picture gets its name."""
        self._add(WHOLE)

    def _add(self, line: Mapping[str, object]) -> None:
        self._own.file.write(json.dumps(line).encode() + b"\n")
        self._own.file.flush()

    def close(self) -> None:
        self._own.close()

    def remove(self) -> None:
        """Removes the journal of a run that has ended."""
        self._own.remove()


def lines_of(data: bytes) -> List[Mapping[str, Any]]:
    """The whole lines behind the mark. A last one that was cut is left out, and so is all behind a damaged one."""
    found: List[Mapping[str, Any]] = []
    for line in data.split(b"\n")[:-1]:
        try:
            value = json.loads(line)
        except (ValueError, RecursionError):
            break
        if not isinstance(value, dict):
            break
        found.append(value)
    return found


def rows_of(lines: List[Mapping[str, Any]]) -> List[str]:
    """The checksums of rows that lines have, as far as they go on."""
    rows: List[str] = []
    for line in lines:
        checksum = line.get("row")
        if not isinstance(checksum, str):
            break
        rows.append(checksum)
    return rows
