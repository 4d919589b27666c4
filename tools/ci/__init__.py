"""What CI runs: the proofs with the must-fail edits, and the checks of what was built."""
