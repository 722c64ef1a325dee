"""Copies of crates in which edits are tried, and the commands that run there."""
import os
import pathlib
import shutil
import subprocess
from typing import Callable

from edits import PARTS, TOP

# The crate that stands on all that is to be built in the copy, so that one call builds it.
ABOVE = "above_all"
running: set[subprocess.Popen[str]] = set()


def libraries_of() -> dict[str, list[str]]:
    """The crates of crates.txt, each with the crates that it names."""
    text = (TOP / "crates.txt").read_text()
    lines = [line.partition("#")[0].split() for line in text.splitlines()]
    named = {words[0].rstrip(":"): words[1:] for words in lines if words}
    return {name: [it for it in words if it in named] for name, words in named.items()}


def below(name: str, libraries: dict[str, list[str]]) -> set[str]:
    """The crates that a crate stands on."""
    found = set(libraries[name])
    for it in libraries[name]:
        found |= below(it, libraries)
    return found


def link(source: str, to: str) -> None:
    """Has a file stand in two places. What is built is taken away before it is built anew, so that
    nobody writes into it."""
    try:
        os.link(source, to)
    except OSError:
        shutil.copy2(source, to)


def put_crates(top: pathlib.Path, room: pathlib.Path, names: list[str],
               copy: Callable[[str, str], object]) -> None:
    """Puts these crates with their built libraries into the folder of a copy."""
    room.mkdir()
    shutil.copy2(top / "HANDLES", room / "HANDLES")
    lines = (top / "crates.txt").read_text().splitlines()
    kept = [it for it in lines if it.partition("#")[0].partition(":")[0].strip() in names]
    (room / "crates.txt").write_text("".join(f"{it}\n" for it in kept))
    for name in names:
        crate, to = top / "crates" / name, room / "crates" / name
        for part in PARTS:
            if (crate / part).is_dir():
                shutil.copytree(crate / part, to / part, copy_function=copy)
        if (crate / "out" / "rlib" / "stamp").is_file():
            shutil.copytree(crate / "out" / "rlib", to / "out" / "rlib", copy_function=link)


def kit_day() -> float:
    """When the kit was put here."""
    page = subprocess.check_output(["rt", "doc"], text=True).strip()
    return os.stat(page).st_ctime


def is_fresh(crate: pathlib.Path, kit: float) -> bool:
    """Whether a library was built after all of its files were written and the kit was put here.
    Where this is wrong, rt sees it and builds."""
    stamp = crate / "out" / "rlib" / "stamp"
    files = [it for part in PARTS for it in (crate / part).rglob("*") if it.is_file()]
    newest = max([kit, *(it.stat().st_mtime for it in files)])
    return stamp.is_file() and newest <= stamp.stat().st_mtime


def build(base: pathlib.Path, stale: list[str], jobs: int) -> bool:
    """Builds crates of the copy, over what earlier checks kept; returns whether all are proved."""
    print(f"building what is not built: {' '.join(stale)}", flush=True)
    for name in stale:
        kept = TOP / "crates" / name / "out" / "incremental"
        if kept.is_dir():
            shutil.copytree(kept, base / "crates" / name / "out" / "incremental")
    said, above = (base / "crates.txt").read_text(), base / "crates" / ABOVE
    (above / "src").mkdir(parents=True)
    (above / "src" / "lib.rt").write_text("#![tactic(auto)]\n")
    (base / "crates.txt").write_text(f"{said}{ABOVE}: {' '.join(stale)}\n")
    printed = start(["rt", "all", "check", "--jobs", str(jobs)], base)
    shutil.rmtree(above)
    (base / "crates.txt").write_text(said)
    lacking = [name for name in stale
               if not (base / "crates" / name / "out" / "rlib" / "stamp").is_file()]
    if lacking:
        print(f"{printed[-3000:]}\nnot proved, so nothing was tried: {' '.join(lacking)}")
    return not lacking


def start(words: list[str], folder: pathlib.Path) -> str:
    """Runs a command in a folder of the copies and returns what it printed."""
    room = {**os.environ, "TMPDIR": str(folder.parent / "tmp")}
    with subprocess.Popen(words, cwd=folder, env=room, stdin=subprocess.DEVNULL, errors="replace",
                          stdout=subprocess.PIPE, stderr=subprocess.STDOUT) as begun:
        running.add(begun)
        printed = begun.communicate()[0]
        running.discard(begun)
    return printed


def put_texts(crate: pathlib.Path, texts: dict[str, str]) -> None:
    """Puts texts in the place of files, which may stand in other copies too."""
    for path, text in texts.items():
        (crate / path).unlink()
        (crate / path).write_text(text, encoding="utf-8")
