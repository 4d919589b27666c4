"""The commands of the pages that no test runs as they stand, each with the reason."""

from __future__ import annotations

import re

NOT_RUN = (
    (r"^make test\b", "takes minutes, and runs these pages"),
    (r"^(?:apt-get|pip|python3 -m pip) ", "installs packages"),
    (r"^make (?:deb|wheel)\b", "`make check-packages` builds the packages and installs them in clean folders"),
    (r"^make web$|http\.server", "`make check-web` builds the page, serves it and uses it in Chromium"),
    (
        r"^make conformance\b|\bpython3 -m conformance\.|conformance/out/",
        "asks the machine's driver, for minutes, or reads what that left",
    ),
    (r"\bpython3 -m bench\.|^make bench$|bench/out/", "measures the machine, for minutes"),
    (r"^cargo run ", "`make check-library` runs the examples in Rust and compares their pictures"),
    (r"^\./spin examples/", "opens a window: `make check-library` does so on a screen of Xvfb"),
    (r"^dask-|tcp://127", "takes a port of the machine: `make check-poster` draws on clusters with ports of its own"),
    (
        r"make_map\.py|world\.npz|covers\.py|seams\.py|choropleth\.py",
        "needs the coastlines of GSHHG, 200 MB of another package",
    ),
    (r"tools\.packaging\.listing", "writes into packaging/: `make check-packages` compares what it would write"),
)


def reason_of(command: str) -> str:
    """Why a command is not run; nothing if it is."""
    return next((reason for pattern, reason in NOT_RUN if re.search(pattern, command)), "")
