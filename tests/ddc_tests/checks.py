"""Checks that a test makes in order: each that fails is printed, and the last line counts them."""

import os
import subprocess
from collections.abc import Sequence
from dataclasses import dataclass
from pathlib import Path

from ddc_tests.program import program

Word = str | bytes | Path


@dataclass(frozen=True)
class Done:
    """How a command ended: its status, and what it wrote to both its streams."""

    status: int
    out: bytes
    errors: bytes

    @property
    def text(self) -> str:
        """What was printed to both streams."""
        return (self.out + self.errors).decode(errors="replace")


def ran(
    words: Sequence[Word], folder: Path | None = None, given: bytes | None = None,
    **environment: str,
) -> Done:
    """Runs a command in a folder, given its input or none, with further variables of the
    environment. One that is not there ends with the status 127, as under a shell."""
    source = {"stdin": subprocess.DEVNULL} if given is None else {"input": given}
    try:
        done = subprocess.run(
            list(words), cwd=folder, capture_output=True, check=False,
            env={**os.environ, **environment}, **source,
        )
    except FileNotFoundError as error:
        return Done(127, b"", f"{error}\n".encode())
    status = done.returncode if done.returncode >= 0 else 128 - done.returncode
    return Done(status, done.stdout, done.stderr)


class Checks:
    """The checks of a test. With a name each failure bears it, as 'FAILED name: ..'."""

    def __init__(self, name: str = "") -> None:
        """Nothing was checked yet."""
        self.begin = f"FAILED {name}: " if name else "FAILED "
        self.passed = self.failed = 0

    def check(self, is_right: bool, failure: str) -> None:
        """Counts a check, and prints the failure where it is not right."""
        if is_right:
            self.passed += 1
        else:
            self.failed += 1
            print(f"{self.begin}{failure}", flush=True)

    def answers(
        self, name: str, status: int, text: str, words: Sequence[Word], folder: Path
    ) -> None:
        """ddc ends with this status, prints exactly this text, and nothing on standard error."""
        done = ran([program(), *words], folder)
        is_right = (done.status, done.out, done.errors) == (status, text.encode(), b"")
        seen = f"{name}: status {done.status}, not {status}; printed:\n{done.text}".rstrip("\n")
        self.check(is_right, seen)

    def counted(self) -> int:
        """Prints 'N passed, M failed': the status to exit with."""
        print(f"{self.passed} passed, {self.failed} failed")
        return 1 if self.failed else 0

    def ended(self, line: str) -> int:
        """Prints a line where nothing failed: the status to exit with, the number of failures."""
        if not self.failed:
            print(line)
        return min(self.failed, 100)
