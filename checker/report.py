"""Reports of audits and of scripts: their text, and the line at which a text is none.

The lines are those of docs/reference/report.md and docs/reference/kaem-report.md. A report is kept
as the list of its lines' fields: what a checker says of a report it says of its lines.
"""

from __future__ import annotations

import hashlib
import re
from typing import Any, Dict, Iterable, Sequence, Tuple

from outside import Answer

NAME, DIGEST, HEX = rb"([a-z0-9_]{1,32})", rb"([0-9a-f]{64})", rb"((?:[0-9a-f]{2}){1,255})"
NUMBER = rb"(0|[1-9][0-9]{0,19})"
MARK = NUMBER + b" " + DIGEST
COMPARE = b"compare " + NAME + b" " + NAME + b" "
LONGEST = (1 << 64) - 1
# Each kind of line: its form, and the kinds that may follow.
AUDIT = {
    "": (b"", "header"),
    "header": (rb"ddc-report ([12])", "recipe"),
    "recipe": (b"recipe " + DIGEST, "input"),
    "input": (b"input " + NAME + b" " + MARK, "input stage"),
    "stage": (b"stage " + NAME + b" " + NUMBER, "stream1"),
    "stream1": (b"stream 1 " + MARK, "stream2"),
    "stream2": (b"stream 2 " + MARK, "left made"),
    "left": (b"left " + HEX + b" " + MARK, "left made"),
    "made": (b"made " + MARK, "checked"),
    "checked": (rb"unchecked|checked (hex0|hex1|hex2|m1)", "stage equal differs"),
    "equal": (COMPARE + b"equal " + NUMBER, "equal differs end"),
    "differs": (COMPARE + b"differs " + b" ".join([NUMBER] * 3), "equal differs end"),
    "end": (rb"end", ""),
}
SCRIPT = {
    "": (b"", "header"),
    "header": (rb"kaem-report (1)", "script"),
    "script": (b"script " + DIGEST, "file command left end"),
    "file": (b"file " + HEX + b" " + MARK, "file command left end"),
    "command": (b"command " + NUMBER, "stream1"),
    "stream1": (b"stream 1 " + MARK, "stream2"),
    "stream2": (b"stream 2 " + MARK, "command left end"),
    "left": (b"left " + HEX + b" " + MARK, "left end"),
    "end": (rb"end", ""),
}
NUMBERS = {"stage": [1], "equal": [2], "differs": [2, 3, 4], "made": [0], "input": [1], "left": [1],
           "file": [1], "command": [0], "stream1": [0], "stream2": [0]}
Grammar = Dict[str, Tuple[bytes, str]]
MOST = {"input": 256, "stage": 256, "left": 4096, "file": 4096, "command": 4096}


class Line:
    """A line of a report: its kind, its text, and its fields; one that is not there is empty."""

    def __init__(self, kind: str, match: re.Match[bytes]) -> None:
        """A line of a match of its form."""
        self.kind, self.text = kind, match[0].decode()
        self.fields = [(group or b"").decode() for group in match.groups()]


def line_of(grammar: Grammar, before: str, text: bytes) -> Line | None:
    """The line of a text, where it is one that may follow a line of this kind."""
    for kind in grammar[before][1].split():
        match = re.fullmatch(grammar[kind][0], text)
        if match:
            return Line(kind, match)
    return None


def in_range(line: Line) -> bool:
    """Whether the numbers of a line are in their ranges, and those of `differs` differ."""
    found = [int(line.fields[place]) for place in NUMBERS.get(line.kind, [])]
    if line.kind == "command":
        return 1 <= found[0] <= 1 << 48
    if line.kind == "differs" and not min(found[1:]) >= found[0] < max(found[1:]):
        return False
    return all(number <= LONGEST for number in found)


def read(grammar: Grammar, text: bytes) -> list[Line]:
    """The lines of a report; Answer with the first line that begins none."""
    lines: list[Line] = []
    counts: dict[str, int] = {}
    most, kind, at = dict(MOST), "", 0
    while kind != "end":
        feed = text.find(b"\n", at)
        line = line_of(grammar, kind, text[at:feed]) if feed >= 0 else None
        if line is None or not in_range(line):
            raise fault(lines)
        if line.kind == "header":
            most["compare"] = 1 if line.fields[0] == "1" else 16
        if line.kind == "stage":
            counts["left"] = 0
        counted = "compare" if line.kind in ("equal", "differs") else line.kind
        counts[counted] = counts.get(counted, 0) + 1
        disordered = line.kind == kind == "left" and lines[-1].fields[0] >= line.fields[0]
        if counts[counted] > most.get(counted, 1 << 20) or disordered:
            raise fault(lines)
        lines.append(line)
        kind, at = line.kind, feed + 1
    if at != len(text):
        raise fault(lines)
    return lines


def fault(before: list[Line]) -> Answer:
    """The refusal of the line after these."""
    return Answer(5, f"report line {len(before) + 1}")


def digest(content: bytes) -> str:
    """The SHA-256 digest of a content (FIPS 180-4)."""
    return hashlib.sha256(content).hexdigest()


def mark(content: bytes) -> str:
    """The length of a content and its digest."""
    return f"{len(content)} {digest(content)}"


def marks(kind: str, files: Iterable[tuple[bytes, bytes]]) -> list[str]:
    """The lines of a kind on files."""
    return [f"{kind} {name.hex()} {mark(content)}" for name, content in files]


def compared(made: bytes, other: bytes) -> tuple[str, str]:
    """What a comparison says: `equal` or `differs`, and its numbers."""
    if made == other:
        return "equal", f"{len(made)}"
    return "differs", f"{first_difference(made, other)} {len(made)} {len(other)}"


def first_difference(one: Sequence[Any], other: Sequence[Any]) -> int:
    """The first offset at which two rows differ or one of them has ended."""
    least, most = 0, min(len(one), len(other)) + 1
    while least + 1 < most:
        middle = (least + most) // 2
        if one[least:middle] == other[least:middle]:
            least = middle
        else:
            most = middle
    return least
