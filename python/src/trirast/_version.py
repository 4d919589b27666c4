"""The release of the package, which is that of the library, and the interface of the library that it calls."""

# The file VERSION of the repository has it too.
VERSION = "0.1.0"
# TRIRAST_INTERFACE of the header.
INTERFACE = 2
