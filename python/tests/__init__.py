"""Tests of the package, by the standard library alone. They need the library: make library.

    PYTHONPATH=python/src python3 -m unittest discover -s python/tests -t python

pytest runs them too, in the folder python.
"""
