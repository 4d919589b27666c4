"""The suites over Direct3D 11: requests as a stream of bytes, and the answers of a program that draws them."""
