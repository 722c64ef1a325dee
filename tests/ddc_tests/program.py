"""The program that is tested, and the top folder of the repository."""

import functools
import os
import subprocess
import sys
from pathlib import Path

TOP = Path(__file__).resolve().parents[2]
WRAPPER = TOP / "ddc"
BUILT = TOP / "crates/ddc/out/ddc"
NOT_BUILT = 125


@functools.cache
def program() -> Path:
    """The program that DDC names, or else the one that ./ddc runs.

    A first call of ./ddc builds the program where it is missing or older than its sources. Later
    calls run what was built itself, since ./ddc reads all sources at each call.
    """
    named = Path(os.environ.get("DDC", WRAPPER)).absolute()
    if named.resolve() != WRAPPER:
        return named
    done = subprocess.run(
        [named], stdin=subprocess.DEVNULL, stdout=subprocess.DEVNULL, stderr=subprocess.PIPE,
        check=False,
    )
    if done.returncode == NOT_BUILT:
        sys.exit(done.stderr.decode(errors="replace").strip())
    return BUILT
