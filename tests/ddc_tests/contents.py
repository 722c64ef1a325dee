"""The length and SHA-256 digest of a content, as reports and `provenance` print them."""

import hashlib
import os
import subprocess
from pathlib import Path


def digest(content: bytes) -> str:
    """The SHA-256 digest of a content, in 64 hexadecimal digits."""
    return hashlib.sha256(content).hexdigest()


def mark(content: bytes) -> str:
    """The length of a content and its digest."""
    return f"{len(content)} {digest(content)}"


def mark_of_file(path: Path | str) -> str:
    """The mark of a file: its length from the system, its digest from `sha256sum`."""
    with open(path, "rb") as content:
        done = subprocess.run(["sha256sum"], stdin=content, capture_output=True, check=True)
    return f"{os.path.getsize(path)} {done.stdout.split()[0].decode()}"
