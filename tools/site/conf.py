"""How Sphinx builds the site: `python3 -m tools.site` copies this file to the pages."""

from __future__ import annotations

import os
import re
import sys
from typing import Any

sys.path.insert(0, os.path.join(os.environ["TRIRAST_TOP"], "python", "src"))

project = "trirast"
html_title = "trirast"
html_theme = "furo"
root_doc = "README"
extensions = ["myst_parser", "sphinx.ext.autodoc", "sphinx_copybutton"]
# Headings have the anchors that GitHub gives them.
myst_heading_anchors = 4
# Pages have code in languages that Pygments lacks, and parts of programs.
suppress_warnings = ["misc.highlighting_failure", "myst.header"]
highlight_language = "none"


def escape(_app: Any, _what: str, _name: str, _object: Any, _options: Any, lines: list[str]) -> None:
    """Docstrings are plain text: each line is kept as it stands."""
    lines[:] = ["| " + re.sub(r"([*`|_])", r"\\\1", line) for line in lines] + [""]


def setup(app: Any) -> None:
    app.connect("autodoc-process-docstring", escape)
