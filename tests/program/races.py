"""Runs bin/trirast under valgrind's memcheck and drd with several workers, and expects no error and the same picture.

    python3 -m pytest tests/program/races.py

A race and a use of freed memory planted in small C programs must be found too, so that silence means something. Needs
valgrind, and gcc for the planted ones. What it
shows is of these runs alone: another schedule could have a race that none of them had.
"""

from __future__ import annotations

import os
import shutil
import subprocess
import tempfile
import unittest
from typing import Any, Sequence

from tools.answers import drawn
from tools.places import PROGRAM, TOP, bytes_of

EXAMPLES = ("top_left", "scissor_and_masks", "gradient")
WORKERS = 4
MAX_SECONDS = 600
FOUND = 99

RACE = """
#include <pthread.h>
static int shared;
static void *add(void *unused) { for (int k = 0; k < 1000; k++) shared++; return unused; }
int main(void) {
    pthread_t one, other;
    pthread_create(&one, 0, add, 0);
    pthread_create(&other, 0, add, 0);
    pthread_join(one, 0);
    pthread_join(other, 0);
    return 0;
}
"""
FREED = """
#include <stdlib.h>
int main(void) {
    volatile char *byte = malloc(1);
    free((void *)byte);
    char read = *byte;
    return read & 0;
}
"""


def watched(
    tool: str, command: Sequence[str], text: bytes = b"", folder: str = TOP, leaks: str = "definite,possible"
) -> tuple[int, bytes, str]:
    """Status, output and the tool's messages of a run in a folder. For memcheck, leaks of these kinds are errors."""
    options = [f"--tool={tool}", f"--error-exitcode={FOUND}", "--quiet"]
    if tool == "memcheck":
        options += ["--leak-check=full", f"--show-leak-kinds={leaks}", f"--errors-for-leak-kinds={leaks}"]
    how: Any = {"input": text, "capture_output": True, "cwd": folder, "timeout": MAX_SECONDS}
    done = subprocess.run(["valgrind", *options, *command], **how)
    return done.returncode, done.stdout, done.stderr.decode(errors="replace")


@unittest.skipUnless(shutil.which("valgrind"), "valgrind is not there")
class Runs(unittest.TestCase):
    def check_examples(self, tool: str) -> None:
        for example in EXAMPLES:
            text = bytes_of("examples", f"{example}.json")
            picture = drawn(PROGRAM, text).output
            command = [PROGRAM, "--tile", "8", "--workers", str(WORKERS)]
            self.assertEqual(watched(tool, command, text), (0, picture, ""), example)

    def test_memory(self) -> None:
        self.check_examples("memcheck")

    def test_threads(self) -> None:
        self.check_examples("drd")

    def check_planted(self, tool: str, source: str, message: str) -> None:
        if not shutil.which("gcc"):
            self.skipTest("gcc is not there")
        with tempfile.TemporaryDirectory() as folder:
            program = os.path.join(folder, "planted")
            command = ["gcc", "-g", "-O0", "-pthread", "-x", "c", "-o", program, "-"]
            subprocess.run(command, input=source.encode(), check=True)
            status, _output, messages = watched(tool, [program])
        self.assertEqual(status, FOUND, messages)
        self.assertIn(message, messages)

    def test_a_planted_use_of_freed_memory_is_found(self) -> None:
        self.check_planted("memcheck", FREED, "Invalid read of size 1")

    def test_a_planted_race_is_found(self) -> None:
        self.check_planted("drd", RACE, "Conflicting")
