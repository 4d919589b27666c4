"""numpy, which this package does without until something of it is used."""

from importlib import import_module
from typing import Any


class Numpy:
    """The module, imported at the first use of one of its names."""

    def __getattr__(self, name: str) -> Any:
        found = getattr(import_module("numpy"), name)
        # The next use finds it here.
        setattr(self, name, found)
        return found


np: Any = Numpy()
