"""Why a file was refused: the line or the word of its text, or the host's own words."""

import difflib
import os
import re
from collections.abc import Iterator
from pathlib import Path

from ddc_tools.asked import Asked, content_of, is_writable, line_at, shown, spot
from ddc_tools.kaem import BUILT_IN, name_of
from ddc_tools.pieces import sha256
from ddc_tools.usage_reasons import stripped

SCRIPT_FAULTS = {1: "no `\"` closes this quoted word on its line",
                 2: "a plain word has no `\"`, `$`, `\\` or zero byte, a quoted word ends at a "
                    "blank, and a program's name is not empty without ./",
                 3: "a word has at most 255 bytes", 4: "a command has at most 64 words",
                 5: "a script has at most 4,096 commands"}
SAVES = {1: "it is no save, or is not whole", 3: "it says no position of this audit",
         5: "PATCH is no difference from the save in BASE, or is not whole",
         6: "PATCH is a difference from another save than that in BASE",
         7: "PATCH says no position of this audit"}
SAVE_HEAD, DIGEST = 8, 32
SAVED = ("REPORT", "SAVE", "PATCH", "OUT")
# What the files begin with that the commands write.
BEGINNINGS = {"REPORT": (b"ddc-report", b"kaem-report"), "SAVE": (b"ddcsave",),
              "PATCH": (b"ddcdelt",)}


def absent(asked: Asked, found: re.Match[str]) -> Iterator[str]:
    """A file that is not there: where it was looked for, and what is there."""
    name = found[1]
    here = os.getcwd()
    yield f"{name}: no such file; paths start in the folder in which ddc is called, {here}"
    beside = Path(asked.word("RECIPE")).parent / name if "RECIPE" in asked.named else Path(name)
    if beside != Path(name) and beside.exists():
        yield f"{beside} is there, beside the recipe: call ddc in that folder"
    folder = Path(name).parent
    if not folder.is_dir():
        yield f"there is no folder {folder}"
        return
    close = difflib.get_close_matches(Path(name).name, os.listdir(folder), 2)
    if close:
        yield f"in this folder is {', '.join(close)}"


def too_long(asked: Asked, found: re.Match[str]) -> Iterator[str]:
    """A file that passes its limit."""
    size = os.path.getsize(found[1]) if os.path.exists(found[1]) else 0
    yield f"{found[1]} has {size:,} bytes, which is more than its limit: a recipe, a script and " \
          "a list may have 1,048,576, an input 268,435,456 and all inputs of a recipe " \
          "1,073,741,824, the files of a script 536,870,912 together (docs/reference/audit.md)"


def shelf_fault(asked: Asked, found: re.Match[str]) -> Iterator[str]:
    """A failure of the host, in the host's words where it still says so."""
    name = found[1]
    path, folder = Path(name), Path(name).parent
    saved = any(asked.word(it) == name for it in SAVED) or (
        "PREFIX" in asked.named and name.startswith(asked.word("PREFIX") + "."))
    if path.is_dir():
        yield f"{name} is a folder, and a file is needed"
    elif not folder.is_dir():
        yield f"there is no folder {folder}: make it first"
    elif saved:
        yield f"{name} could not be written: {is_writable(name) or 'its rights, or a full disk'}"
    else:
        yield f"{name} could not be read: {unreadable(path) or 'the host failed at it'}"


def unreadable(path: Path) -> str:
    """Why a file cannot be read, in the host's words, or nothing."""
    try:
        with path.open("rb") as file:
            file.read(1)
    except OSError as error:
        return error.strerror or "an error of the host"
    return ""


def report_line(asked: Asked, found: re.Match[str]) -> Iterator[str]:
    """The first line at which a file is no report."""
    content, number, name = asked.content("REPORT"), int(found[1]), asked.word("REPORT")
    lines = content.split(b"\n")
    line = lines[number - 1] if number <= len(lines) else b""
    if not content:
        yield f"{name}:1: the file is empty"
    elif number == 1:
        yield f"{name}:1: {shown(line)} begins no report; a report's first line is ddc-report 1, " \
              "ddc-report 2 or, of a script, kaem-report 1"
    elif line.endswith(b"\r"):
        yield f"{name}:{number}: the line ends with CR LF; a report's lines end with LF alone"
    elif number >= len(lines) and content.endswith(b"\n"):
        yield f"{name}:{number}: the report is not whole: it ends here, before the line `end`"
    elif number == len(lines) and line:
        yield f"{name}:{number}: the last line {shown(line)} has no line's end, or is not whole"
    else:
        before = shown(lines[number - 2])
        yield f"{name}:{number}: {shown(line)} may not stand after {before}, or has a field of " \
              "another spelling (a leading zero, upper case, a digit too few)"


def script_refused(asked: Asked, found: re.Match[str]) -> Iterator[str]:
    """The word at which a script is refused."""
    number, offset = int(found[1]), int(found[2])
    content, name = asked.content("SCRIPT"), asked.word("SCRIPT")
    yield f"{spot(name, content, offset)}: {SCRIPT_FAULTS.get(number, 'a fault')}"
    line = line_at(content, offset)[0]
    first = (content.split(b"\n")[line - 1].split() or [b""])[0].decode(errors="replace")
    if name_of(first) in BUILT_IN:
        yield f"{first} is built into shells, and ddc has no such program: {BUILT_IN[first]}"
    elif b"$" in re.split(rb"[ \t\r\n]", content[offset:offset + 300])[0]:
        yield "a script here has no variables: write the value out"


def list_refused(asked: Asked, found: re.Match[str]) -> Iterator[str]:
    """The line at which a list is refused."""
    content, number, name = asked.content("LIST"), int(found[1]), asked.word("LIST")
    lines = content.split(b"\n")
    line = lines[number - 1] if number <= len(lines) else b""
    most, words = (64, 2) if asked.command == "chain" else (4096, 1)
    before = [stripped(it.decode(errors="replace")) for it in lines[:number - 1]]
    text = line.decode(errors="replace")
    if number > most:
        why = f"a list has at most {most:,} lines"
    elif not content:
        why = "the list is empty"
    elif number == len(lines):
        why = f"{shown(line)} is not ended by a line's end (LF)"
    elif b"\r" in line:
        why = f"{shown(line)} has a CR; lines end with LF alone"
    elif line.count(b" ") != words - 1 or not all(line.split(b" ")):
        why = f"{shown(line)} has not {words} word{'s' * (words > 1)} with single blanks between"
    elif not stripped(text):
        why = f"nothing is left of {shown(line)} without ./"
    elif stripped(text) in before:
        why = f"{shown(line)} names the same file as line {before.index(stripped(text)) + 1}"
    else:
        why = f"{shown(line)} has a word over 255 bytes, or a byte that is not from ! to ~"
    yield f"{name}:{number}: {why}"


def save_refused(asked: Asked, found: re.Match[str]) -> Iterator[str]:
    """Why a save is none of this audit."""
    number = int(found[1])
    name = asked.word("SAVE") or asked.word("BASE")
    if number != 2:
        yield f"{asked.word('PATCH') if number > 3 else name}: {SAVES[number]}"
        return
    content = asked.content("SAVE") or asked.content("BASE")
    yield f"{name} is a save of another recipe or of other inputs; begin anew with `ddc part`"
    yield from other_digests(asked, content)


def other_digests(asked: Asked, save: bytes) -> Iterator[str]:
    """Which of the recipe and the inputs a save does not name."""
    if save[SAVE_HEAD:SAVE_HEAD + DIGEST] != sha256(asked.content("RECIPE")):
        yield f"{asked.word('RECIPE')} was changed since the save was made, if only in a comment"
    at = SAVE_HEAD + DIGEST + 4
    for input_table in asked.items("input"):
        if save[at:at + DIGEST] != sha256(content_of(str(input_table.get("path")))):
            yield f"the input {input_table.get('name')} ({input_table.get('path')}) was changed " \
                  "since the save was made"
        at += DIGEST


def overwritten(asked: Asked) -> Iterator[str]:
    """Files that the command would write over though they are no such texts as it writes."""
    for name in SAVED:
        path = asked.word(name)
        if asked.command in ("verify", "show", "kaem-verify", "provenance") or not path:
            continue
        content = content_of(path)[:16]
        if content and not content.startswith(BEGINNINGS.get(name, ())):
            what = f"is no {name.lower()}" if name in BEGINNINGS else "is not empty"
            yield f"note: {name} {path} is there, {what}, and would be written over"
