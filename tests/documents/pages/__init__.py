"""Runs the commands and examples of README.md and docs/: see test_pages.py."""
