"""What all tests print: at the end each skipped test by its name, with the reason, as `make test` shows them."""

from __future__ import annotations

import re

from _pytest.terminal import TerminalReporter


def pytest_terminal_summary(terminalreporter: TerminalReporter) -> None:
    for report in terminalreporter.stats.get("skipped", ()):
        reason = report.longrepr[-1] if isinstance(report.longrepr, tuple) else report.wasxfail
        reason = re.sub(r"^(?:Skipped|unittest\.case\.SkipTest): ", "", reason)
        terminalreporter.write_line(f"skipped {report.nodeid}: {reason}")
