"""Runs the steps of one page in their order, in the folder in which it is started, as a reader would type them.

    python3 session.py < steps.json > answers.json

A step is a kind and a text: a command for the shell, or an example in Python, which goes on where the one before it
ended. An answer is an exit status and what was printed. After a step that failed no other is taken. It stands alone, so
that any Python can run it.
"""

import contextlib
import io
import json
import os
import subprocess
import sys
import traceback
from typing import Any, Dict, List, Tuple

Answer = Tuple[int, str]


def in_python(text: str, names: Dict[str, Any]) -> Answer:
    printed = io.StringIO()
    with contextlib.redirect_stdout(printed):
        try:
            exec(compile(text, "example", "exec"), names)
        except BaseException:
            return 1, printed.getvalue() + traceback.format_exc()
    return 0, printed.getvalue()


def in_shell(command: str, environment: Dict[str, str]) -> Answer:
    """Runs a command. One that exports a variable changes the environment of those behind it."""
    exported = command.split("#")[0].strip().partition("export ")[2]
    if exported:
        name, _equals, value = exported.partition("=")
        shown = subprocess.run(
            ["bash", "-c", f'printf %s "{value}"'], env=environment, stdout=subprocess.PIPE, check=True
        )
        environment[name] = shown.stdout.decode()
        return 0, ""
    done = subprocess.run(["bash", "-c", command], env=environment, stdout=subprocess.PIPE, stderr=subprocess.PIPE)
    status = done.returncode
    return status, (done.stdout + (done.stderr if status else b"")).decode(errors="replace")


def main() -> None:
    steps: List[Tuple[str, str]] = json.load(sys.stdin)
    environment = {name: value for name, value in os.environ.items() if name != "PYTHONPATH"}
    names: Dict[str, Any] = {"__name__": "example"}
    answers: List[Answer] = []
    for kind, text in steps:
        answers.append(in_python(text, names) if kind == "python" else in_shell(text, environment))
        if answers[-1][0]:
            break
    json.dump(answers, sys.stdout)


if __name__ == "__main__":
    main()
