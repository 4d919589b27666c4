"""The check of the library: see test_library.py."""
