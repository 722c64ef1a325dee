"""Scripts of commands and the replay of their reports (docs/reference/kaem.md)."""

from __future__ import annotations

import re

import report as reports
import start
from outside import (REPORT_LIMIT, TEXT_LIMIT, USAGE, Answer, clash, judge_words, load, load_all,
                     stripped)
from recipe import DEFAULT_HEAP
from verify import need, streams_of

MOST_COMMANDS = MOST_LISTED = 4096
MOST_WORDS, LONGEST_WORD = 64, 255
MOST_TOGETHER = 536_870_912
BLANKS = re.compile(rb"[ \t\r]*(?:#.*)?", re.DOTALL)
PLAIN = re.compile(rb"[^ \t\r]+")
LISTED = re.compile(rb"[\x21-\x7e]{1,255}")


def word_at(line: bytes, at: int, is_first: bool) -> tuple[bytes, int, int]:
    """The text of the word at an offset of a line, its end, and the number of its fault or 0."""
    if line[at] == ord('"'):
        close = line.find(b'"', at + 1)
        if close < 0:
            return b"", at, 1
        text, end = line[at + 1 : close], close + 1
        bad = b"\0" in text or line[end : end + 1] not in (b"", b" ", b"\t", b"\r")
    else:
        end = PLAIN.match(line, at).end()  # type: ignore[union-attr]
        text = line[at:end]
        bad = any(sign in text for sign in (b'"', b"$", b"\\", b"\0"))
    if bad or is_first and not stripped(text):
        return text, end, 2
    return text, end, 3 if len(text) > LONGEST_WORD else 0


def read_script(script: bytes) -> list[list[bytes]]:
    """The commands of a script; Answer with the first fault where it is none."""
    commands: list[list[bytes]] = []
    start_of_line = 0
    for line in script.split(b"\n"):
        words: list[bytes] = []
        at = BLANKS.match(line).end()  # type: ignore[union-attr]
        while at < len(line):
            text, end, fault = word_at(line, at, not words)
            if len(words) == MOST_WORDS:
                fault = 4
            if not words and len(commands) == MOST_COMMANDS:
                fault = 5
            if fault:
                raise Answer(15, f"script refused {fault} {start_of_line + at}")
            words.append(text)
            at = BLANKS.match(line, end).end()  # type: ignore[union-attr]
        if words:
            commands.append(words)
        start_of_line += len(line) + 1
    return commands


def read_list(text: bytes) -> list[str]:
    """The words of a list of files; Answer with the first line that is none."""
    words: list[str] = []
    names: set[bytes] = set()
    *lines, rest = text.split(b"\n")
    for number, line in enumerate(lines, 1):
        name = stripped(line)
        if not LISTED.fullmatch(line) or name in names | {b""} or number > MOST_LISTED:
            raise Answer(16, f"list refused {number}")
        names.add(name)
        words.append(line.decode())
    if rest:
        raise Answer(16, f"list refused {len(lines) + 1}")
    return words


def replay(
    commands: list[list[bytes]], world: dict[bytes, bytes], recorded: list[list[reports.Line]]
) -> dict[bytes, bytes]:
    """Replays each command with its lines, and gives the files that are left."""
    for number in range(1, max(len(commands), len(recorded)) + 1):
        need(number <= min(len(commands), len(recorded)), "run", number)
        words, lines = commands[number - 1], recorded[number - 1]
        program = world.get(stripped(words[0]))
        need(program is not None, "run", number)
        steps = int(lines[0].fields[0])
        box = start.Box(words, [], world, DEFAULT_HEAP)
        ending = start.run(program or b"", box, steps, f"command {number}")
        need((ending.cause, ending.step) == ("status 0", steps), "run", number)
        assert ending.world is not None
        need(streams_of(ending) == [line.text for line in lines[1:]], "streams", number)
        world = dict(ending.world.left())
    return world


def kaem_verify(words: list[str]) -> Answer:
    """`kaem-verify SCRIPT LIST REPORT`: replays the commands, and judges their report."""
    judge_words(words, 3)
    if len(set(map(stripped, words))) < len(words):
        raise USAGE
    script = load(words[0], TEXT_LIMIT)
    commands = read_script(script)
    listed = read_list(load(words[1], TEXT_LIMIT))
    if any(clash(words[2], word) for word in listed):
        raise USAGE
    lines = reports.read(reports.SCRIPT, load(words[2], REPORT_LIMIT))
    world = load_all([(stripped(word).encode(), word) for word in listed], MOST_TOGETHER)
    need(lines[1].text == f"script {reports.digest(script)}", "header", 0)
    recorded = [line.text for line in lines if line.kind == "file"]
    files = reports.marks("file", world.items())
    for number in range(max(len(recorded), len(files))):
        need(recorded[number : number + 1] == files[number : number + 1], "file", number + 1)
    blocks = [lines[at : at + 3] for at, line in enumerate(lines) if line.kind == "command"]
    world = replay(commands, world, blocks)
    left = [line.text for line in lines if line.kind == "left"]
    need(left == reports.marks("left", sorted(world.items())), "left", 0)
    return Answer(0, f"yes {len(commands)}")
