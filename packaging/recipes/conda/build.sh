#!/usr/bin/env bash
# Takes the library that the release has for the platform. Nothing is compiled.
set -euo pipefail
mkdir -p "$PREFIX"
cp -R include lib "$PREFIX/"
