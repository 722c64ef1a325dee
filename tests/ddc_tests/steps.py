"""Steps of a script that ends at the first one that goes wrong, and what such scripts look at."""

import sys
from collections.abc import Callable, Sequence
from pathlib import Path

from ddc_tests.checks import Done, Word, ran

# The machine for 64-bit RISC-V, without instructions that ddc's machine has not.
ON_RISCV: Sequence[Word] = (
    "env", "-i", "qemu-riscv64", "-cpu", "rv64,f=false,d=false,c=false",
)


class Wrong(Exception):
    """What ends a script: a step that went wrong, or a thing that is not as it has to be."""


def done(words: Sequence[Word], folder: Path | None = None, given: bytes | None = None,
         statuses: Sequence[int] = (0,), **environment: str) -> Done:
    """Runs a command, given its input or none, that has to end with one of these statuses."""
    seen = ran(words, folder, given, **environment)
    if seen.status not in statuses:
        called = " ".join(str(it) for it in words)
        raise Wrong(f"{called}: status {seen.status}, {seen.text}".rstrip())
    return seen


def bytes_of(content: bytes | Path) -> bytes:
    """A content, which a path stands for too."""
    return content.read_bytes() if isinstance(content, Path) else content


def same(seen: bytes | Path, wanted: bytes | Path, what: str) -> None:
    """Two contents that have to be equal byte for byte."""
    one, other = bytes_of(seen), bytes_of(wanted)
    if one != other:
        shorter = min(len(one), len(other))
        first = next((it for it in range(shorter) if one[it] != other[it]), shorter)
        raise Wrong(f"{what}: {len(one)} and {len(other)} bytes, which differ at {first}")


def need(is_right: bool, failure: str) -> None:
    """Ends the script where something is not as it has to be."""
    if not is_right:
        raise Wrong(failure)


def differing(one: bytes | Path, other: bytes | Path) -> int:
    """At how many places two contents differ, as far as the shorter one goes."""
    pairs = zip(bytes_of(one), bytes_of(other), strict=False)
    return sum(seen != wanted for seen, wanted in pairs)


def of_hex0(source: bytes | Path) -> bytes:
    """What sed and xxd make of a text in hex0."""
    bare = done(["sed", "s/[#;].*//"], given=bytes_of(source)).out
    return done(["xxd", "-r", "-p"], given=bare).out


def has_picture(page: Path, picture: str) -> bool:
    """Whether a page has as many lines of a picture as the picture itself."""
    lines = picture.splitlines()
    return sum(it in lines for it in page.read_text().splitlines()) == len(lines)


def ending(script: Callable[[], int]) -> int:
    """Runs a script: its status, or 1 after what ended it was printed."""
    try:
        return script()
    except Wrong as error:
        sys.stdout.flush()
        print(f"FAILED: {error}", file=sys.stderr)
        return 1
