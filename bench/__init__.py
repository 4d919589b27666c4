"""Benchmarks: scenes, and the programs that are timed on them."""
