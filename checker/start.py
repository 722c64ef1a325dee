"""How a program starts, and how its run ends (docs/reference/running.md)."""

from __future__ import annotations

import contextlib
import os
import struct
import sys
import time
from typing import Dict, List, NamedTuple, Optional

from calls import System
from elf import PAGE, NoProgram, read_image
from files import TOTAL_LIMIT, World
from machine import END, Hart, Memory

STACK_PAGES = 2048
MOST_TEXTS = 131_072


class Box(NamedTuple):
    """What a program is given; no text has a zero byte, and no name begins with `./`."""

    args: List[bytes]
    env: List[bytes]
    files: Dict[bytes, bytes]
    heap: int


class Ending(NamedTuple):
    """How a run ended, as it is printed, at which step, and what it left."""

    cause: str
    step: int
    world: Optional[World] = None


class Progress:
    """Says on standard error, each two seconds, how far a long run is."""

    def __init__(self, name: str) -> None:
        """The progress of a stage or command."""
        self.name, self.shown = name, sys.argv[1:2] == ["--progress"] or os.isatty(2)
        self.start = self.last = time.monotonic()

    def __call__(self, steps: int) -> None:
        """Says it, where it is time."""
        now = time.monotonic()
        if self.shown and now - self.last >= 2:
            self.last = now
            rate = int(steps / (now - self.start))
            with contextlib.suppress(OSError):
                os.write(2, f"{self.name}: {steps} steps, {rate} a second\n".encode())


def stack_of(box: Box) -> tuple[int, bytes]:
    """The stack pointer at the start, and what stands from there to the end of the stack."""
    texts = b"".join(text + b"\0" for text in box.args + box.env)
    first = at = END - len(texts)
    words = [len(box.args)]
    for row in (box.args, box.env):
        for text in row:
            words.append(at)
            at += len(text) + 1
        words.append(0)
    words += [0, 0]
    pointer = (first - 8 * len(words)) // 16 * 16
    content = struct.pack(f"<{len(words)}Q", *words)
    return pointer, content + bytes(first - pointer - len(content)) + texts


def run(program: bytes, box: Box, most: int, name: str) -> Ending:
    """Starts a program and runs it to its first end within so many steps."""
    try:
        image = read_image(program)
    except NoProgram as refused:
        return Ending(f"start elf {refused.args[0]}", 0)
    texts = box.args + box.env
    if sum(map(len, texts)) + len(texts) + 8 * (5 + len(texts)) > MOST_TEXTS:
        return Ending("start args", 0)
    if sum(map(len, box.files.values())) > TOTAL_LIMIT:
        return Ending("start box", 0)
    memory, world = Memory(), World(box.files)
    for segment in image.segments:
        memory.map_zero(segment.pages())
        memory.poke(segment.address, segment.content)
    memory.map_zero(range(END // PAGE - STACK_PAGES, END // PAGE))
    pointer, content = stack_of(box)
    memory.poke(pointer, content)
    system = System(memory, world, image.first_break, box.heap)
    hart = Hart(memory, system, image.entry, pointer)
    cause, step = hart.run(most, Progress(name))
    return Ending(cause, step, world)
