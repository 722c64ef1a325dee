"""Scripts of commands and lists of files, as `ddc kaem` reads them."""

from dataclasses import dataclass

BLANKS = b" \t\r"
MOST_COMMANDS, MOST_WORDS, MOST_WORD = 4096, 64, 255
# What shells and the second kaem do themselves. Here these are names of programs.
BUILT_IN = {
    "set": "every command has to exit with 0 already: leave the line out",
    "cd": "there are no folders: write each name in full, from one root",
    "echo": "leave it out: the report has each command's steps and streams",
    "pwd": "leave it out: there are no folders", "exec": "leave out the word exec",
    "if": "write the commands that would be run", "then": "write the commands that would be run",
    "else": "write the commands that would be run", "fi": "write the commands that would be run",
    "alias": "write the command itself", "unset": "write the value where it is used",
    "export": "write the value where it is used", "source": "put the other script's lines here",
    ".": "put the other script's lines here", "mkdir": "leave it out: no folder has to be made",
    "chmod": "leave it out: each file may be run", "true": "leave it out", "test": "leave it out",
    "cp": "name the file by its first name", "rm": "leave it out", "exit": "leave it out"}


class ScriptFault(Exception):
    """The first fault of a script: its number in docs/reference/kaem.md, and its offset."""

    def __init__(self, number: int, offset: int) -> None:
        super().__init__(f"fault {number} at {offset}")
        self.number, self.offset = number, offset


@dataclass
class Command:
    """A line of a script: its number from 1, and its words."""

    line: int
    words: list[str]

    @property
    def program(self) -> str:
        """The name of its program, without leading `./`."""
        return name_of(self.words[0])


def name_of(word: str) -> str:
    """A file's name: a word without the `./` that it begins with."""
    while word.startswith("./"):
        word = word[2:]
    return word


def words_of(line: bytes, start: int) -> list[str]:
    """The words of a line that begins at an offset."""
    words: list[str] = []
    at = 0
    while True:
        while at < len(line) and line[at] in BLANKS:
            at += 1
        if at == len(line) or line[at:at + 1] == b"#":
            return words
        if len(words) == MOST_WORDS:
            raise ScriptFault(4, start + at)
        word, end = quoted(line, at, start) if line[at:at + 1] == b'"' else plain(line, at, start)
        words.append(word.decode("utf-8", "surrogateescape"))
        if not name_of(words[0]):
            raise ScriptFault(2, start + at)
        if len(word) > MOST_WORD:
            raise ScriptFault(3, start + at)
        at = end


def quoted(line: bytes, at: int, start: int) -> tuple[bytes, int]:
    """The text of a quoted word, and the offset after it."""
    close = line.find(b'"', at + 1)
    if close < 0:
        raise ScriptFault(1, start + at)
    word = line[at + 1:close]
    if b"\0" in word or (close + 1 < len(line) and line[close + 1] not in BLANKS):
        raise ScriptFault(2, start + at)
    return word, close + 1


def plain(line: bytes, at: int, start: int) -> tuple[bytes, int]:
    """A plain word, and the offset after it."""
    end = at
    while end < len(line) and line[end] not in BLANKS:
        end += 1
    word = line[at:end]
    if any(it in word for it in (b'"', b"$", b"\\", b"\0")):
        raise ScriptFault(2, start + at)
    return word, end


def commands_of(script: bytes) -> list[Command]:
    """The commands of a script, in order."""
    commands = []
    start = 0
    for number, line in enumerate(script.split(b"\n"), 1):
        first = start + len(line) - len(line.lstrip(BLANKS))
        is_empty = not line.strip(BLANKS) or line.lstrip(BLANKS).startswith(b"#")
        if len(commands) == MOST_COMMANDS and not is_empty:
            raise ScriptFault(5, first)
        words = words_of(line, start)
        if words:
            commands.append(Command(number, words))
        start += len(line) + 1
    return commands
