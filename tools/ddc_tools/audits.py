"""An audit by `part` and `resume`, so many steps at a time, until it is over."""

import os
import re
import signal
import subprocess
import sys
import time
from collections.abc import Callable
from pathlib import Path
from types import FrameType
from typing import Self

from ddc_tools.program import Answer, program
from ddc_tools.progress import Pace, Progress, of_stage
from ddc_tools.recipes import Recipe

PAUSED = 8
LINE = re.compile(r"paused (\w+) (\d+)\n")
Paused = Callable[[str, int], None]
Handler = Callable[[int, FrameType | None], object]


class Audit:
    """An audit that goes on from a save where there is one, and keeps one after each call."""

    def __init__(self, recipe: Path, save: Path, report: Path, progress: Progress) -> None:
        self.recipe, self.save, self.report, self.progress = recipe, save, report, progress
        self.tables: Recipe | None = None
        self.beside = set(self.unfinished())

    def unfinished(self) -> list[Path]:
        """What saves that were ended in the middle have left beside the save."""
        return list(self.save.parent.glob(self.save.name + ".ddc-*"))

    def call(self, steps: int) -> Answer:
        """One call. An interrupt ends it, and the save from before it stays."""
        command = "resume" if self.save.exists() else "part"
        words = [program(), command, self.recipe, self.save, self.report, str(steps)]
        with Held() as interrupts, \
                subprocess.Popen(words, stdin=subprocess.DEVNULL, stdout=subprocess.PIPE,
                                 stderr=subprocess.PIPE, start_new_session=True) as running:
            try:
                interrupts.release()
                output, errors = running.communicate()
            except BaseException:
                # A program that has ended by itself, and was waited for, has no group any more.
                if running.poll() is None:
                    os.killpg(running.pid, signal.SIGKILL)
                    running.wait()
                for path in set(self.unfinished()) - self.beside:
                    path.unlink()
                raise
        return Answer(running.returncode, output, errors)

    def limit(self, stage: str) -> int:
        """The limit of a stage's steps."""
        self.tables = self.tables or Recipe(self.recipe.read_bytes(), str(self.recipe))
        return self.tables.stages[stage]["steps"]

    def run(self, pace: Callable[[], int], told: Pace, paused: Paused) -> Answer:
        """Goes on by pace() steps a call, and returns the answer that is no pause."""
        while True:
            steps, begun = pace(), time.monotonic()
            answer = self.call(steps)
            found = LINE.fullmatch(answer.text)
            if answer.status != PAUSED or found is None:
                self.progress.clear()
                return answer
            told.took(steps, time.monotonic() - begun)
            stage, taken = found.group(1), int(found.group(2))
            self.progress.tell(of_stage(stage, taken, self.limit(stage), told.rate))
            paused(stage, taken)


class Held:
    """Holds interrupts back while a program begins, so that none is left running unseen."""

    def __init__(self) -> None:
        self.handlers: dict[int, Handler] = {}
        self.has_come = False

    def __enter__(self) -> Self:
        for number in (signal.SIGINT, signal.SIGTERM, signal.SIGHUP):
            handler = signal.getsignal(number)
            if callable(handler):
                self.handlers[number] = handler
                signal.signal(number, self.note)
        return self

    def __exit__(self, *_: object) -> None:
        self.release()

    def note(self, number: int, frame: object) -> None:
        """Keeps in mind that an interrupt has come."""
        self.has_come = True

    def release(self) -> None:
        """Lets interrupts through again, and the one that has come first of all."""
        while self.handlers:
            signal.signal(*self.handlers.popitem())
        if self.has_come:
            self.has_come = False
            raise KeyboardInterrupt


def stop_at_signals() -> None:
    """Has SIGTERM and SIGHUP end a tool as an interrupt does, so that nothing is left behind."""
    def interrupt(number: int, frame: object) -> None:
        """Interrupts what is at work."""
        raise KeyboardInterrupt
    for number in (signal.SIGTERM, signal.SIGHUP):
        signal.signal(number, interrupt)


def tell_kept(save: Path) -> None:
    """Says where an interrupted audit can be gone on with."""
    if save.exists():
        print(f"\n{Path(sys.argv[0]).name}: interrupted; {save} has the last save: "
              f"call again to go on from it", file=sys.stderr)
