"""The program `ddc`: where it is, how a tool calls it, and how a tool itself begins and ends."""

import argparse
import os
import shutil
import signal
import subprocess
import sys
from collections.abc import Callable, Sequence
from dataclasses import dataclass
from pathlib import Path

USAGE = 2
NOT_FOUND = 127
INTERRUPTED = 130


class Refusal(Exception):
    """The end of a tool that could not do what it was asked: one line, and its exit status."""

    def __init__(self, text: str, status: int = 1) -> None:
        super().__init__(text)
        self.status = status


@dataclass
class Answer:
    """How a call of ddc ended: its status, and the bytes of both its streams."""

    status: int
    output: bytes
    errors: bytes

    @property
    def text(self) -> str:
        """What was printed, as text."""
        return self.output.decode(errors="replace")

    @property
    def said(self) -> str:
        """The first line of the answer, or what a process without an answer ended with."""
        lines = (self.output + self.errors).decode(errors="replace").splitlines()
        return lines[0] if lines else ended(self.status)


def ended(status: int) -> str:
    """A status in words, for an answer without a line."""
    if status < 0:
        return f"ended by the signal {signal.Signals(-status).name}"
    return {12: "standard output failed (status 12)", 13: "out of memory (status 13)"}.get(
        status, f"status {status}")


def program() -> str:
    """The path of ddc: the environment variable DDC, or else `ddc` in PATH."""
    name = os.environ.get("DDC", "ddc")
    found = shutil.which(name)
    if found is None:
        raise Refusal(f"{name} not found: put ddc in PATH, or set DDC to its path", NOT_FOUND)
    return os.path.abspath(found)


def call(words: Sequence[str | bytes | Path], folder: Path | None = None) -> Answer:
    """Calls ddc with these words, in a folder or here, without standard input."""
    done = subprocess.run([program(), *words], cwd=folder, stdin=subprocess.DEVNULL,
                          capture_output=True, check=False)
    return Answer(done.returncode, done.stdout, done.stderr)


def need(words: Sequence[str | bytes | Path], folder: Path | None = None) -> Answer:
    """Calls ddc for what only its status 0 gives, and refuses with its own line and status."""
    answer = call(words, folder)
    if answer.status != 0:
        raise Refusal(f"ddc {words[0]}: {answer.said}", abs(answer.status))
    return answer


class Words(argparse.ArgumentParser):
    """The words of a tool: `--help` prints its text, and wrong words the usage with status 2."""

    def __init__(self, text: str) -> None:
        super().__init__(description=text, allow_abbrev=False,
                         formatter_class=argparse.RawDescriptionHelpFormatter)


def read(path: Path | str) -> bytes:
    """The content of a file, or a refusal that names it and says why it could not be read."""
    try:
        return Path(path).read_bytes()
    except OSError as error:
        raise Refusal(f"{path}: {error.strerror}", 10) from None


def replace(path: Path, content: bytes) -> None:
    """Writes a file beside its name and then renames it, so that no half of it is ever there."""
    new = path.with_name(path.name + ".new")
    new.write_bytes(content)
    new.replace(path)


def begin(tool: Callable[[], int]) -> None:
    """Runs a tool, prints its refusal in one line, and exits with its status."""
    name = Path(sys.argv[0]).name
    try:
        status = tool()
        sys.stdout.flush()
    except Refusal as refusal:
        print(f"{name}: {refusal}", file=sys.stderr)
        status = refusal.status
    except KeyboardInterrupt:
        status = INTERRUPTED
    except BrokenPipeError:
        os.dup2(os.open(os.devnull, os.O_WRONLY), sys.stdout.fileno())
        status = 12
    except OSError as error:
        print(f"{name}: {error.filename or 'a file'}: {error.strerror}", file=sys.stderr)
        status = 11
    sys.exit(status)
