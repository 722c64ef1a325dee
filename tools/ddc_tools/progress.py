"""How far a long piece of work is: lines on a terminal, and steps that fit a time."""

import sys
import time

MOST_STEPS = 1 << 48
# Fewer steps take less time than the start of a call.
FEWEST_STEPS = 4_000_000


def spelled(seconds: float) -> str:
    """A time in minutes and seconds."""
    return f"{int(seconds) // 60} min {int(seconds) % 60:2} s"


class Progress:
    """A line on standard error that replaces the one before it on a terminal; silent elsewhere."""

    def __init__(self) -> None:
        self.begun = time.monotonic()
        self.is_shown = sys.stderr.isatty()

    def tell(self, text: str) -> None:
        """Shows a text with the time since the start."""
        if self.is_shown:
            since = spelled(time.monotonic() - self.begun)
            print(f"\r\033[K{text}, {since}", end="", file=sys.stderr, flush=True)

    def clear(self) -> None:
        """Removes the line."""
        if self.is_shown:
            print("\r\033[K", end="", file=sys.stderr, flush=True)


class Pace:
    """How many steps to ask for, so that each call takes about so many seconds."""

    def __init__(self, seconds: float) -> None:
        self.seconds = seconds
        self.steps = FEWEST_STEPS
        self.rate = 0.0

    def took(self, steps: int, seconds: float) -> None:
        """Takes in that a call did so many steps in a time; a change is at most by a factor 8."""
        self.rate = steps / max(seconds, 0.001)
        wanted = int(self.rate * self.seconds)
        self.steps = min(max(wanted, FEWEST_STEPS), self.steps * 8, MOST_STEPS)


def of_stage(name: str, steps: int, limit: int, rate: float) -> str:
    """Where a stage's run stands, of its limit, and at which rate."""
    share = f"{100 * steps / limit:.1f} %"
    speed = f"{rate / 1e6:.1f} million a second"
    return f"stage {name}: {steps:,} of {limit:,} steps ({share}), {speed}"
