"""The answers on the pieces of a stage: whether they are those of a whole run."""

import hashlib
import re
import shutil
from collections.abc import Iterable
from pathlib import Path

from ddc_tools.program import Refusal, call

NUMBER = re.compile(r"0|[1-9][0-9]*")
YES = re.compile(r"segment yes ([0-9]+)")


def digest_of(path: Path) -> str:
    """The SHA-256 digest of a file, in hexadecimal digits."""
    with path.open("rb") as file:
        return hashlib.file_digest(file, "sha256").hexdigest()


def answers_of(lines: Iterable[str], last: int) -> tuple[dict[int, tuple[str, str]], int]:
    """The two digests of each piece below `last` that was answered with yes, and all steps."""
    found: dict[int, tuple[str, str]] = {}
    steps = 0
    for line in lines:
        word, number, first, second, rest = [*line.rstrip("\n").split(" ", 4), *[""] * 5][:5]
        if word != "piece":
            raise Refusal(f"no answer: {line.strip()}")
        if not NUMBER.fullmatch(number) or int(number) >= last:
            raise Refusal(f"piece {number} is none of these")
        if int(number) in found:
            raise Refusal(f"piece {number} is answered twice")
        yes = YES.fullmatch(rest)
        if yes is None:
            raise Refusal(f"piece {number}: {rest}")
        found[int(number)] = first, second
        steps += int(yes.group(1))
    return found, steps


def check_chain(found: dict[int, tuple[str, str]], first: str, last: str, name: str) -> None:
    """Refuses unless neighbours were checked with the same state, from the first to the last."""
    between = first
    for number in range(len(found)):
        if number not in found:
            raise Refusal(f"piece {number} is missing")
        if found[number][0] != between:
            raise Refusal(f"piece {number} does not begin with the file before it")
        between = found[number][1]
    if between != last:
        raise Refusal(f"the last piece does not end with {name}")


def ends_of(recipe: Path, stage: str, prefix: Path, count: int, lines: Iterable[str],
            folder: Path, home: Path | None = None) -> tuple[int, str]:
    """The steps of all pieces, and what `ends` says with 0 of copies of the outer two states.

    The copies lie in `folder`; the inputs' paths start in `home`, or here."""
    last = count - 1
    found, steps = answers_of(lines, last)
    missing = [str(number) for number in range(last) if number not in found]
    if missing:
        raise Refusal(f"piece {missing[0]} is missing")
    for number in {0, last}:
        shutil.copyfile(f"{prefix}.{number}", folder / f"state.{number}")
    outer = digest_of(folder / "state.0"), digest_of(folder / f"state.{last}")
    check_chain(found, *outer, f"{prefix}.{last}")
    answer = call(["ends", recipe, stage, folder / "state", str(count)], home)
    if answer.status != 0:
        raise Refusal(answer.said)
    return steps, answer.text


def sha256(content: bytes) -> bytes:
    """The SHA-256 digest of bytes, as 32 bytes."""
    return hashlib.sha256(content).digest()
