"""The checks of the gate, and the tools of this repository. Each is run at its top as `python3 -m tools.NAME`."""
