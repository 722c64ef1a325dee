"""The files that a guest sees, and what each call does to them (docs/reference/files.md).

Numbers of flags and errors are Linux's (asm-generic/fcntl.h, errno-base.h, errno.h).
"""

from __future__ import annotations

from typing import Union

FILE_LIMIT = 268_435_456
TOTAL_LIMIT = 536_870_912
MOST_DESCRIPTORS = 1024
MOST_NAMES = 4096
O_CREAT, O_EXCL, O_TRUNC, O_APPEND = 64, 128, 512, 1024
ENOENT, EBADF, EEXIST, ENOTDIR, EINVAL, EMFILE, EFBIG, ENOSPC, ESPIPE = (
    -2, -9, -17, -20, -22, -24, -27, -28, -29,
)


class File:
    """A file's bytes, and how many descriptors stand for it."""

    def __init__(self, content: bytes = b"") -> None:
        """A file of this content that no descriptor stands for."""
        self.content, self.opened, self.named = bytearray(content), 0, True


class Opened:
    """A descriptor of a file: its file offset, and how it uses the file."""

    def __init__(self, file: File, flags: int) -> None:
        """The descriptor of an open with these flags."""
        self.file, self.offset = file, 0
        self.reads, self.writes = flags & 3 in (0, 2), flags & 3 in (1, 2)
        self.appends = bool(flags & O_APPEND)


class World:
    """The names, the files, the descriptors and the two streams."""

    def __init__(self, placed: dict[bytes, bytes]) -> None:
        """The world of a start with these files."""
        self.names = {name: File(content) for name, content in placed.items()}
        self.total = sum(map(len, placed.values()))
        self.streams = {1: bytearray(), 2: bytearray()}
        self.table: dict[int, Union[int, Opened]] = {0: 0, 1: 1, 2: 2}

    def drop(self, file: File) -> None:
        """Forgets the bytes of a file that has neither a name nor a descriptor."""
        if not file.named and not file.opened:
            self.total -= len(file.content)

    def open(self, name: bytes, flags: int) -> int:
        """The lowest unused descriptor, which then stands for the file of a name."""
        if len(self.table) >= MOST_DESCRIPTORS:
            return EMFILE
        file = self.names.get(name)
        if file and flags & O_CREAT and flags & O_EXCL:
            return EEXIST
        if not file and not flags & O_CREAT:
            return ENOENT
        if not file and len(self.names) >= MOST_NAMES:
            return ENOSPC
        if not file:
            file = self.names[name] = File()
        elif flags & O_TRUNC:
            self.total -= len(file.content)
            file.content.clear()
        descriptor = next(one for one in range(MOST_DESCRIPTORS) if one not in self.table)
        self.table[descriptor] = Opened(file, flags)
        file.opened += 1
        return descriptor

    def close(self, descriptor: int) -> int:
        """Takes a descriptor away."""
        if descriptor not in self.table:
            return EBADF
        opened = self.table.pop(descriptor)
        if isinstance(opened, Opened):
            opened.file.opened -= 1
            self.drop(opened.file)
        return 0

    def seek(self, descriptor: int, offset: int, whence: int) -> int:
        """Moves a file offset, and says where it is then."""
        opened = self.table.get(descriptor)
        if opened is None:
            return EBADF
        if not isinstance(opened, Opened):
            return ESPIPE
        if whence > 2:
            return EINVAL
        moved = offset + (0, opened.offset, len(opened.file.content))[whence]
        if not 0 <= moved < 1 << 63:
            return EINVAL
        opened.offset = moved
        return moved

    def ready(self, descriptor: int, count: int) -> Union[int, bytes]:
        """The bytes that a read has before it, or an error."""
        opened = self.table.get(descriptor)
        if opened == 0:
            return b""
        if not isinstance(opened, Opened) or not opened.reads:
            return EBADF
        return bytes(opened.file.content[opened.offset : opened.offset + count])

    def is_writable(self, descriptor: int) -> bool:
        """Whether bytes may be written there."""
        opened = self.table.get(descriptor)
        return opened.writes if isinstance(opened, Opened) else opened in (1, 2)

    def target(self, descriptor: int) -> tuple[bytearray, int]:
        """The bytes that a write to a writable descriptor changes, and where it begins."""
        opened = self.table[descriptor]
        if not isinstance(opened, Opened):
            return self.streams[opened], len(self.streams[opened])
        content = opened.file.content
        return content, len(content) if opened.appends else opened.offset

    def fits(self, descriptor: int, count: int) -> int:
        """0 where so many bytes may be written there, else the error of the limit they pass."""
        target, at = self.target(descriptor)
        if at + count > FILE_LIMIT:
            return EFBIG
        return ENOSPC if self.total + max(0, at + count - len(target)) > TOTAL_LIMIT else 0

    def write(self, descriptor: int, content: bytes) -> int:
        """Writes some bytes that fit."""
        target, at = self.target(descriptor)
        end = at + len(content)
        self.total += max(0, end - len(target))
        if at > len(target):
            target.extend(bytes(at - len(target)))
        target[at:end] = content
        opened = self.table[descriptor]
        if isinstance(opened, Opened):
            opened.offset = end
        return len(content)

    def remove(self, name: bytes) -> int:
        """Takes a name away."""
        file = self.names.pop(name, None)
        if file is None:
            return ENOENT
        file.named = False
        self.drop(file)
        return 0

    def left(self) -> list[tuple[bytes, bytes]]:
        """What stands under each name, ascending by the names' bytes."""
        return [(name, bytes(self.names[name].content)) for name in sorted(self.names)]
