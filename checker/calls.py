"""The eleven Linux calls of a guest (docs/reference/calls.md).

Their numbers are Linux's (include/uapi/asm-generic/unistd.h).
"""

from __future__ import annotations

from typing import TYPE_CHECKING, Callable

from elf import PAGE, page_up
from files import EBADF, EINVAL, ENOENT, ENOTDIR, World
from outside import stripped

if TYPE_CHECKING:
    from machine import Memory

EFAULT, ENAMETOOLONG = -14, -36
AT_FDCWD = 0xFFFFFF9C
LONGEST_PATH = 256
LOW = 0xFFFFFFFF


class Ended(Exception):
    """The run ends, for a cause as it is printed."""


class System:
    """The calls on one memory, one world of files and one heap."""

    def __init__(self, memory: Memory, world: World, first: int, limit: int) -> None:
        """The system at a start, whose heap begins at `first` and is empty."""
        self.memory, self.world = memory, world
        self.first, self.now, self.last = first, first, first + limit
        self.table: dict[int, Callable[[int, int, int], int]] = {
            35: self.unlinkat, 48: self.faccessat, 56: self.openat, 63: self.read, 64: self.write,
            53: lambda directory, path, mode: self.faccessat(directory, path, 0),
            57: lambda descriptor, y, z: world.close(descriptor & LOW),
            62: lambda descriptor, offset, whence: world.seek(
                descriptor & LOW, offset - (offset >> 63 << 64), whence & LOW
            ),
            93: self.exit, 94: self.exit, 214: self.brk,
        }

    def call(self, number: int, x: int, y: int, z: int) -> int:
        """What the call of a number answers to its first three arguments, each below 2^64."""
        perform = self.table.get(number)
        if perform is None:
            raise Ended(f"call {number}")
        return perform(x, y, z)

    def path(self, address: int) -> bytes | int:
        """The name that a path stands for, or an error."""
        name = b""
        while len(name) < LONGEST_PATH:
            byte = self.memory.peek(address + len(name), 1)
            if byte is None:
                return EFAULT
            if byte == b"\0":
                break
            name += byte
        else:
            return ENAMETOOLONG
        return stripped(name) or ENOENT

    def directory(self, directory: int, name: bytes) -> int:
        """0 where a directory argument is right for a name, else an error."""
        if name.startswith(b"/") or directory & LOW == AT_FDCWD:
            return 0
        return ENOTDIR if directory & LOW in self.world.table else EBADF

    def named(self, directory: int, address: int) -> bytes | int:
        """The name of a path beside its directory argument, or the first error of both."""
        name = self.path(address)
        return name if isinstance(name, int) else self.directory(directory, name) or name

    def unlinkat(self, directory: int, path: int, flags: int) -> int:
        """Removes a name."""
        name = self.named(directory, path)
        if isinstance(name, int):
            return name
        return EINVAL if flags & LOW else self.world.remove(name)

    def faccessat(self, directory: int, path: int, mode: int) -> int:
        """Asks whether a name is there."""
        name = self.named(directory, path)
        if isinstance(name, int):
            return name
        if mode & LOW > 7:
            return EINVAL
        return 0 if name in self.world.names else ENOENT

    def openat(self, directory: int, path: int, flags: int) -> int:
        """Opens a file."""
        name = self.path(path)
        if isinstance(name, int):
            return name
        if flags & 3 == 3:
            return EINVAL
        return self.directory(directory, name) or self.world.open(name, flags)

    def read(self, descriptor: int, buffer: int, count: int) -> int:
        """Reads bytes into memory."""
        found = self.world.ready(descriptor & LOW, count)
        if isinstance(found, int) or not found:
            return found or 0
        if not self.memory.is_mapped(buffer, len(found)):
            return EFAULT
        self.memory.poke(buffer, found)
        self.world.seek(descriptor & LOW, len(found), 1)
        return len(found)

    def write(self, descriptor: int, buffer: int, count: int) -> int:
        """Writes bytes from memory."""
        if not self.world.is_writable(descriptor & LOW):
            return EBADF
        if count == 0:
            return 0
        if not self.memory.is_mapped(buffer, count):
            return EFAULT
        error = self.world.fits(descriptor & LOW, count)
        return error or self.world.write(descriptor & LOW, self.memory.peek(buffer, count) or b"")

    def exit(self, status: int, y: int, z: int) -> int:
        """Ends the program."""
        raise Ended(f"status {status & 255}")

    def brk(self, to: int, y: int, z: int) -> int:
        """Moves the break."""
        if not self.first <= to <= self.last:
            return self.now
        before, after = page_up(self.now) // PAGE, page_up(to) // PAGE
        self.memory.map_zero(range(before, after))
        self.memory.unmap(range(after, before))
        self.now = to
        return to
