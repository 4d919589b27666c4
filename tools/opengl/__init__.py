"""Draw lists through the machine's OpenGL, for the conformance suites and the benchmarks."""
