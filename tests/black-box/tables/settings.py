"""How a case calls the program where that needs a set-up: outputs, inputs and limits.

Each is a line of bash around the call: `"$@"` is the program with its words.
"""

import os

from ddc_tests.cases import LeftOut, Setting

# Standard output is closed, or no byte can be written to it.
CLOSED = Setting('exec "$@" >&-')
FULL = Setting('exec "$@" >/dev/full', needs="/dev/full")
# 150,000 KiB of addresses: too few for a file of 256 MiB.
SMALL = Setting('ulimit -v 150000 && exec "$@"')
# No file may become longer than 1,024 bytes; the signal that says so is ignored.
SHORT = Setting('trap "" XFSZ && ulimit -f 1 && exec "$@"')
NO_INPUT = Setting('exec "$@" <&-')

# The call's second word, a file, is read through a pipe.
THROUGH_PIPE = Setting('"$1" "$2" <(cat "$3") "${@:4}"')


def fed(lines: str | bytes) -> Setting:
    """These lines are the input, in a pipe."""
    return Setting(given=lines.encode() if isinstance(lines, str) else lines)


def closed_and_fed(lines: str) -> Setting:
    """These lines are the input, and standard output is closed."""
    return Setting(CLOSED.line, lines.encode())


def full_and_fed(lines: str) -> Setting:
    """These lines are the input, and no byte can be written to standard output."""
    return Setting(FULL.line, lines.encode(), FULL.needs)


def rest(lines: str) -> Setting:
    """These lines are the input, and what the call left of them follows what it printed."""
    return Setting('"$@" && cat', lines.encode())


def from_file(path: str) -> Setting:
    """A file of the case, or a folder, is the input."""
    return Setting(f'exec "$@" <{path}')


def not_root() -> None:
    """Leaves the case out where root runs it: root may read and write every file."""
    if os.geteuid() == 0:
        raise LeftOut
