"""Files that a test lays in a folder, and what the folder then holds."""

import functools
import os
from collections.abc import Callable, Mapping
from dataclasses import dataclass
from pathlib import Path
from typing import Final


@dataclass(frozen=True)
class Zeros:
    """A file of so many zero bytes, of which none takes room on the disk."""

    size: int


@dataclass(frozen=True)
class Link:
    """A symbolic link."""

    target: str


@dataclass(frozen=True)
class Folder:
    """A folder."""


FOLDER: Final = Folder()
# A path stands for the content of that file, a function for what it returns.
Content = bytes | str | Path | Zeros | Link | Folder | Callable[[], bytes]
# A name with None has no file: so a case says what its command removes.
Files = Mapping[str, Content | None]


class CannotLay(Exception):
    """This host has no files of that length."""


def content_of(content: Content) -> bytes | Zeros | Link | Folder:
    """The content itself, of a text, a path or a function too."""
    if isinstance(content, str):
        return content.encode()
    if isinstance(content, Path):
        return content.read_bytes()
    if isinstance(content, (bytes, Zeros, Link, Folder)):
        return content
    return content()


def lay(folder: Path, files: Files) -> None:
    """Lays files, and the folders that they are in."""
    for name, content in files.items():
        if content is None:
            continue
        path = folder / name
        path.parent.mkdir(parents=True, exist_ok=True)
        match content_of(content):
            case Folder():
                path.mkdir(exist_ok=True)
            case Link(target):
                path.symlink_to(target)
            case Zeros(size):
                path.touch()
                try:
                    os.truncate(path, size)
                except OSError as error:
                    raise CannotLay(name) from error
            case bytes() as given:
                path.write_bytes(given)


def look(path: Path) -> bytes | Zeros | Link | Folder | str:
    """What stands under a path: a file that takes no room is not read. A pipe is a text."""
    if path.is_symlink():
        return Link(os.readlink(path))
    if path.is_dir():
        return FOLDER
    if not path.is_file():
        return "neither a file nor a folder"
    found = path.stat()
    if found.st_size > 1 << 24 and found.st_blocks * 512 < found.st_size // 2:
        return Zeros(found.st_size)
    return path.read_bytes()


def wanted_in(files: Files) -> dict[str, bytes | Zeros | Link | Folder]:
    """What a folder with exactly these files holds, by name."""
    wanted: dict[str, bytes | Zeros | Link | Folder] = {}
    for name, content in files.items():
        if content is not None:
            for above in list(Path(name).parents)[:-1]:
                wanted[str(above)] = FOLDER
            wanted[str(Path(name))] = content_of(content)
    return wanted


def same(seen: object, wanted: bytes | Zeros | Link | Folder) -> bool:
    """Whether what stands under a name is what is wanted there."""
    if isinstance(wanted, Zeros) and isinstance(seen, bytes):
        return seen == bytes(wanted.size)
    return seen == wanted


def differences(folder: Path, files: Files) -> list[str]:
    """A line for each name whose file is not as wanted, is missing, or is one too many."""
    wanted = wanted_in(files)
    seen = {str(it.relative_to(folder)): it for it in folder.rglob("*")}
    lines = [f"{name} is not wanted" for name in sorted(seen.keys() - wanted.keys())]
    for name, content in sorted(wanted.items()):
        if name not in seen:
            lines.append(f"{name} is missing")
        elif not same(found := look(seen[name]), content):
            lines.append(f"{name} holds {short(found)}, not {short(content)}")
    return lines


def short(content: object) -> str:
    """A content as a message shows it, without its middle where it is long."""
    text = repr(content)
    return text if len(text) <= 400 else f"{text[:200]} .. {text[-190:]}"


@functools.cache
def files_of(folder: Path) -> dict[str, Content | None]:
    """The files of a folder, by name."""
    return {it.name: it for it in sorted(folder.iterdir()) if it.is_file()}
