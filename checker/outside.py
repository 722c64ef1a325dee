"""Words, files and standard output (docs/reference/outside.md, docs/reference/command-line.md)."""

from __future__ import annotations

import os
import signal
import stat
import sys
from typing import AnyStr, Callable, TypeVar

FILE_LIMIT = 268_435_456
REPORT_LIMIT = 1_073_741_824
TEXT_LIMIT = 1_048_576
Key = TypeVar("Key")


class Answer(Exception):
    """The end of a command: its status and the lines that it prints."""

    def __init__(self, status: int, *lines: str) -> None:
        """An answer of these lines."""
        super().__init__(status)
        self.status, self.text = status, "".join(line + "\n" for line in lines)


USAGE = Answer(2, "usage")


def stripped(name: AnyStr) -> AnyStr:
    """A name without the `./` that it begins with, again and again."""
    while name[:2] in ("./", b"./"):
        name = name[2:]
    return name


def clash(one: str, other: str) -> bool:
    """Whether two words stand for one file."""
    return stripped(one) == stripped(other)


def judge_words(words: list[str], count: int) -> None:
    """Usage, unless there are so many words and each is a file word."""
    if len(words) != count or not all(1 <= len(word.encode()) <= 255 for word in words):
        raise USAGE


def load(name: str, limit: int) -> bytes:
    """The content of a file, of at most so many bytes."""
    try:
        with open(name.encode(), "rb", buffering=0) as file:
            if os.fstat(file.fileno()).st_size > limit:
                raise Answer(10, f"file refused {name} too long")
            content = bytearray()
            while len(content) <= limit:
                part = file.read(1 << 20)
                if not part:
                    return bytes(content)
                content += part
            raise Answer(10, f"file refused {name} too long")
    except FileNotFoundError:
        raise Answer(10, f"file refused {name} absent") from None
    except OSError:
        raise Answer(11, f"shelf fault {name}") from None


def load_all(files: list[tuple[Key, str]], together: int) -> dict[Key, bytes]:
    """The contents of files by their keys, of so many bytes together."""
    contents: dict[Key, bytes] = {}
    for key, name in files:
        contents[key] = load(name, min(FILE_LIMIT, together))
        together -= len(contents[key])
    return contents


def write_all(handle: int, content: bytes) -> None:
    """Writes all of the content."""
    left = memoryview(content)
    while left:
        left = left[os.write(handle, left) :]


def new_beside(path: bytes, mode: int) -> bytes | None:
    """The name of a new file beside a path; none where none can be made there."""
    number = 0
    while True:
        new = path + b".ddc-%d" % number
        try:
            os.close(os.open(new, os.O_WRONLY | os.O_CREAT | os.O_EXCL, mode))
            return new
        except FileExistsError:
            number += 1
        except OSError:
            return None


def save(name: str, content: bytes) -> None:
    """Saves a content: by a new file, or in place of a link, a device or a pipe."""
    path, new = name.encode(), None
    try:
        held = os.lstat(path) if os.path.lexists(path) else None
        if held is None or stat.S_ISREG(held.st_mode):
            if held:
                os.close(os.open(path, os.O_WRONLY | os.O_NOFOLLOW))
            new = new_beside(path, 0o600 if held else 0o666)
        elif stat.S_ISLNK(held.st_mode) and held.st_uid not in (0, os.getuid()):
            raise PermissionError
        handle = os.open(new or path, os.O_WRONLY | os.O_CREAT | os.O_TRUNC, 0o666)
        with os.fdopen(handle, "wb", buffering=0):
            if new and held:
                os.fchmod(handle, held.st_mode & 0o700)
            write_all(handle, content)
            if new:
                os.fsync(handle)
        if new:
            os.replace(new, path)
    except OSError:
        if new:
            os.unlink(new)
        raise Answer(11, f"shelf fault {name}") from None


def answer_of(perform: Callable[[list[str]], Answer], words: list[str]) -> tuple[int, bytes]:
    """The status of a command, and the text that it prints."""
    try:
        b"".join(map(os.fsencode, words)).decode()
        answer = perform(words)
    except UnicodeError:
        answer = USAGE
    except Answer as end:
        answer = end
    except MemoryError:
        return 13, b""
    return answer.status, answer.text.encode()


def main(perform: Callable[[list[str]], Answer]) -> None:
    """Performs a command on the words of this process, prints its text and ends."""
    signal.signal(signal.SIGINT, signal.SIG_DFL)
    status, text = answer_of(perform, sys.argv[2 if sys.argv[1:2] == ["--progress"] else 1 :])
    try:
        write_all(1, text)
    except OSError:
        status = 12
    os._exit(status)
