"""Saves of the worked report's audit, which the program makes when a case first asks for them."""

import functools
from collections.abc import Callable

from ddc_tests.cases import made
from tables.fixtures import REPORT


@functools.cache
def at(steps: int) -> Callable[[], bytes]:
    """The save after so many steps of examples/report/a.toml, in one piece."""
    return made(REPORT, f"part a.toml save none {steps}", "save")


def patched(content: Callable[[], bytes], offset: int, new: bytes) -> Callable[[], bytes]:
    """A content with these bytes at an offset."""

    def patching() -> bytes:
        """Puts the bytes in the place of those that stand there."""
        whole = content()
        return whole[:offset] + new + whole[offset + len(new) :]

    return patching
