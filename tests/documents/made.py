"""The pages and pictures that a script prints: each is what its script prints now, byte for
byte."""
import subprocess
import sys
from pathlib import Path
from typing import Iterator

MADE = {
    "docs/process.svg": "docs/draw-process",
    "docs/limits.md": "docs/make-limits",
    "docs/PROMISES.md": "docs/make-promises",
    "docs/reading-order.md": "docs/make-reading-order",
}


def faults(root: Path) -> Iterator[str]:
    """Each fault, after the name of its file."""
    for name, script in MADE.items():
        call = [sys.executable, root / script]
        made = subprocess.run(call, cwd=root, capture_output=True, check=False)
        if made.returncode:
            yield f"{name}: {script}: {made.stderr.decode(errors='replace').strip()}"
        elif made.stdout != (root / name).read_bytes():
            yield f"{name}: not what {script} prints"
