"""Debian packages, Python wheels and releases, and the checks that install and use them."""
