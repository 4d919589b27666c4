"""The checks of posters: see test_poster.py."""
