"""The lines that benchmarks print around the rows of their tables."""

from __future__ import annotations

import os
import sys
from typing import Sequence


def processor_name() -> str:
    try:
        with open("/proc/cpuinfo", encoding="utf-8") as file:
            for line in file:
                if line.startswith("model name"):
                    return line.split(":", 1)[1].strip()
    except OSError:
        pass
    return "a processor without a name"


def load() -> str:
    return " ".join(f"{part:.1f}" for part in os.getloadavg())


def machine() -> str:
    """What the table's numbers are of. Call it before the run."""
    return f"Machine: {processor_name()}, {os.cpu_count()} processors; load before the run {load()}."


def row(cells: Sequence[str]) -> str:
    """A row of a table in Markdown."""
    return f"| {' | '.join(cells)} |"


def head(columns: Sequence[str]) -> str:
    """The head of a table in Markdown."""
    return f"{row(columns)}\n{'|---' * len(columns)}|"


def print_head(columns: Sequence[str]) -> None:
    print(head(columns))


def print_end() -> None:
    print(f"\nLoad after the run {load()}.")


def failed(benchmark: str, error: Exception) -> int:
    """Says on standard error why there is no table, and returns the exit status."""
    print(f"{benchmark}: {error}", file=sys.stderr)
    return 2
