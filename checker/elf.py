"""Which program files are taken, and what of them stands in memory (docs/reference/loader.md).

The fields are those of the System V gABI, chapters 4 and 5, the number of RISC-V that of its psABI.
"""

from __future__ import annotations

import struct
from typing import List, NamedTuple

PAGE = 4096
END = 1 << 37
MOST_PAGES_BYTES = 268_435_456


class NoProgram(Exception):
    """The file is no program that can be loaded; it holds the number of the reason."""


class Segment(NamedTuple):
    """A segment: its address, its bytes in memory, and its bytes in the file."""

    address: int
    size: int
    content: bytes

    def pages(self) -> range:
        """The numbers of its pages."""
        return range(self.address // PAGE, page_up(self.address + self.size) // PAGE)


Image = NamedTuple(
    "Image", [("entry", int), ("segments", List[Segment]), ("first_break", int)]
)


def page_up(address: int) -> int:
    """An address rounded up to a page."""
    return -(-address // PAGE) * PAGE


def need(holds: bool, number: int) -> None:
    """Refuses what does not hold."""
    if not holds:
        raise NoProgram(number)


def read_image(file: bytes) -> Image:
    """The image of a program file; NoProgram with the first refusal that fits."""
    need(len(file) >= 64, 1)
    need(file[:4] == b"\x7fELF", 2)
    need(file[4] == 2 and file[5] == 1, 3)
    kind, machine, entry, table = struct.unpack_from("<HH4xQQ", file, 16)
    entry_size, count = struct.unpack_from("<HH", file, 54)
    need(machine == 243, 4)
    need(kind == 2, 5)
    need(entry_size == 56 and table + 56 * count <= len(file), 6)
    headers = [struct.unpack_from("<I4xQQ8xQQ", file, table + 56 * at) for at in range(count)]
    need(all(header[0] != 3 for header in headers), 7)
    loads = [header for header in headers if header[0] == 1 and header[4] != 0]
    need(bool(loads), 8)
    need(len(loads) <= 16, 9)
    total = 0
    for _, offset, address, in_file, in_memory in loads:
        need(in_file <= in_memory and offset + in_file <= len(file), 10)
        end = page_up(address + in_memory)
        need(end <= END, 10)
        total += end - address // PAGE * PAGE
    need(total <= MOST_PAGES_BYTES, 10)
    segments = [Segment(load[2], load[4], file[load[1] : load[1] + load[3]]) for load in loads]
    rows = sorted((one.pages() for one in segments), key=lambda pages: pages.start)
    need(all(one.stop <= other.start for one, other in zip(rows, rows[1:])), 11)
    inside = any(one.address <= entry < one.address + one.size for one in segments)
    need(entry % 4 == 0 and inside, 12)
    return Image(entry, segments, max(page_up(one.address + one.size) for one in segments))
