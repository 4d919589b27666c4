"""What the canvas of the page does not take."""

from __future__ import annotations

from tools import places
from tests.cases import must
from tests.web.explorer import Explorer


def check_numbers(explorer: Explorer, address: str) -> str:
    """What is no number of a canvas is refused by name, and nothing is drawn. Returns how many calls there were."""
    explorer.load(address)
    count, wrong = explorer.page.run(places.text_of("tests", "web", "numbers.js"))
    must(not wrong, f"not refused as they should be: {wrong}")
    return f"{count} calls"
