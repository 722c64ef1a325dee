"""What a call of ddc was asked, and what can be looked up to explain its answer."""

import contextlib
import os
import re
import tempfile
import tomllib
from collections.abc import Iterator
from dataclasses import dataclass, field
from pathlib import Path
from typing import Any

from ddc_tools.program import Answer, call

ORDINALS = ("top", "first", "second", "third", "fourth", "fifth", "sixth", "seventh")


@dataclass
class Asked:
    """The words of a call by their names in `help`, its answer, and the forms of all commands."""

    words: list[str]
    forms: dict[str, list[str]]
    answer: Answer
    audit: int | None = None
    named: dict[str, str] = field(default_factory=dict)

    def __post_init__(self) -> None:
        names = self.forms.get(self.command, [])
        self.named.update(zip(names, self.words[1:], strict=False))

    @property
    def command(self) -> str:
        """The command's name."""
        return self.words[0] if self.words else ""

    def word(self, name: str) -> str:
        """The word that stands for this name."""
        return self.named.get(name, "")

    def content(self, name: str) -> bytes:
        """What the file of a word holds, or nothing."""
        return content_of(self.word(name))

    def tables(self) -> dict[str, Any]:
        """The tables of the recipe, or none where it is no TOML here."""
        with contextlib.suppress(ValueError):
            return tomllib.loads(self.content("RECIPE").decode())
        return {}

    def items(self, kind: str) -> list[dict[str, Any]]:
        """The tables of a kind, those that are none left empty."""
        found = self.tables().get(kind, [])
        found = found if isinstance(found, list) else []
        return [it if isinstance(it, dict) else {} for it in found]

    def item(self, kind: str, name: str) -> dict[str, Any]:
        """The table of a kind with this name."""
        return next((it for it in self.items(kind) if it.get("name") == name), {})


def content_of(path: str) -> bytes:
    """What a file holds, or nothing."""
    with contextlib.suppress(OSError, ValueError):
        return Path(path).read_bytes()
    return b""


def forms_of(text: str) -> dict[str, list[str]]:
    """The names of each command's words, as `help` lists them."""
    return {it[0]: it[1:] for it in (line.split() for line in text.splitlines()) if it}


def ordinal(number: int) -> str:
    """A number in order."""
    return ORDINALS[number] if 0 < number < len(ORDINALS) else f"{number}th"


def line_at(content: bytes, offset: int) -> tuple[int, int]:
    """The line and the column of an offset, both from 1."""
    before = content[:offset]
    return before.count(b"\n") + 1, offset - (before.rfind(b"\n") + 1) + 1


def shown(content: bytes, most: int = 60) -> str:
    """Bytes as a short text between quotes."""
    cut = content[:most].decode("ascii", "backslashreplace")
    text = re.sub(r"[\x00-\x1f\x7f]", lambda it: f"\\x{ord(it[0]):02x}", cut)
    return f"`{text}`" + (" .." if len(content) > most else "")


def spot(path: str, content: bytes, offset: int) -> str:
    """FILE:LINE:COLUMN of an offset, and what stands there."""
    line, column = line_at(content, offset)
    rest = re.split(rb"[ \t\r\n]", content[offset:offset + 80])[0]
    return f"{path}:{line}:{column}: {shown(rest) if rest else 'at the end of a word or line'}"


def header_line(text: bytes, kind: str, number: int) -> int | None:
    """The line of the N-th table of a kind in a recipe, where its header says so."""
    double = re.compile(rb"^\s*\[\[\s*\"?" + kind.encode() + rb"\"?\s*\]\]")
    single = re.compile(rb"^\s*\[\s*\"?" + kind.encode() + rb"\"?\s*\]")
    found = [at for at, line in enumerate(text.split(b"\n"), 1)
             if (single if kind == "compare" else double).match(line)]
    wanted = max(number, 1)
    return found[wanted - 1] if len(found) >= wanted else None


def key_line(text: bytes, header: int, key: str) -> int | None:
    """The line of a key in the table whose header stands at a line, 0 for the top."""
    lines = text.split(b"\n")
    assigns = re.compile(rb"^\s*\"?" + key.encode() + rb"\"?\s*=")
    for at in range(header, len(lines)):
        if re.match(rb"^\s*\[", lines[at]):
            return None
        if assigns.match(lines[at]):
            return at + 1
    return None


@contextlib.contextmanager
def scratch() -> Iterator[Path]:
    """A folder that is removed again."""
    with tempfile.TemporaryDirectory(prefix="ddc-explain-") as folder:
        yield Path(folder)


def left_by(asked: Asked, stage: str, file: str) -> bytes | None:
    """What a stage left at a file, whatever it ended with, by `ddc left`."""
    with scratch() as folder:
        call(["left", asked.word("RECIPE"), stage, file, folder / "out"])
        path = folder / "out"
        return path.read_bytes() if path.exists() else None


def output_word(stage: dict[str, Any]) -> str:
    """The word by which `left` names a stage's output."""
    output = stage.get("output", "")
    return "1" if output == "-" else f"./{output}"


def is_writable(path: str) -> str:
    """Why a file could not be made beside this path, in the host's words, or nothing."""
    folder = os.path.dirname(path) or "."
    try:
        with tempfile.NamedTemporaryFile(dir=folder, prefix=".ddc-explain-") as file:
            file.write(b"\0" * 4096)
            file.flush()
            os.fsync(file.fileno())
    except OSError as error:
        return error.strerror or "an error of the host"
    return ""
