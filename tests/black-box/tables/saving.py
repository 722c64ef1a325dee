"""Cases of `asm` over what stands under the name that is saved: modes, links, pipes and limits."""

import os
import stat
import subprocess

from ddc_tests.cases import TOP, AnyCase, Case, Room, specials, table
from ddc_tests.folders import Files, Link
from ddc_tests.program import program
from tables.fixtures import OTHER_HEX0, WORKED, WORKED_HEX0
from tables.settings import SHORT, not_root

SOURCES: Files = {
    "other.hex0": OTHER_HEX0, "worked.hex0": WORKED_HEX0, "long.hex0": b"61 " * 2000,
    "saves/made": b"kept",
}
MADE = b"abd"


def mode(room: Room) -> None:
    """A save over a file keeps its mode, and names beside it stay the user's."""
    files = {**SOURCES, "saves/made.ddc-0": b"of the user"}
    room.lay(files)
    (room.folder / "saves/made").chmod(0o751)
    room.answers("asm hex0 0 other.hex0 saves/made", 0, "made 3\n")
    room.holds({**files, "saves/made": MADE})
    found = stat.S_IMODE((room.folder / "saves/made").stat().st_mode)
    room.equal("the mode", f"{found:o}", "751")


def stream(room: Room) -> None:
    """A save to the standard output, which is a pipe, comes before what is printed."""
    room.lay(SOURCES)
    room.answers("asm hex0 0 other.hex0 /dev/stdout", 0, b"abdmade 3\n")
    room.holds(SOURCES)


def pipe(room: Room) -> None:
    """A save into a pipe goes through it, and the pipe stays one."""
    room.lay(SOURCES)
    path = room.folder / "saves/pipe"
    os.mkfifo(path)
    with subprocess.Popen(["cat", path], stdout=subprocess.PIPE) as reader:
        try:
            room.answers("asm hex0 0 other.hex0 saves/pipe", 0, "made 3\n")
            room.equal("what went through", reader.communicate(timeout=20)[0], MADE)
        finally:
            reader.kill()
    room.equal("a pipe", stat.S_ISFIFO(path.lstat().st_mode), True)


def unwritable_folder(room: Room) -> None:
    """In a folder that may not be written a new file is refused, and an old one is set."""
    not_root()
    files = {**SOURCES, "shut/there": b"kept"}
    room.lay(files)
    (room.folder / "shut").chmod(0o555)
    try:
        room.answers("asm hex0 0 other.hex0 shut/made", 11, "shelf fault shut/made\n")
        room.holds(files)
        room.answers("asm hex0 0 other.hex0 shut/there", 0, "made 3\n")
        room.holds({**files, "shut/there": MADE})
    finally:
        (room.folder / "shut").chmod(0o755)


def unwritable(room: Room) -> None:
    """A file that may not be written is as before."""
    not_root()
    room.lay({**SOURCES, "shut": b"kept"})
    (room.folder / "shut").chmod(0o444)
    room.answers("asm hex0 0 other.hex0 shut", 11, "shelf fault shut\n")
    room.holds({**SOURCES, "shut": b"kept"})


def shared_folder(room: Room) -> None:
    """Saves over files that others laid, as in the table of docs/reference/outside.md."""
    script = TOP / "tests/black-box/shared-folder"
    done = subprocess.run([script], env={**os.environ, "DDC": str(program())}, check=False)
    room.equal("the status", done.returncode, 0)


CASES: list[AnyCase] = [
    *table(
        "save", SOURCES,
        Case("a save that is longer than a file may be", "asm hex0 0 long.hex0 saves/made", 11,
             "shelf fault saves/made\n", setting=SHORT),
        Case("such a save under a new name", "asm hex0 0 long.hex0 saves/new", 11,
             "shelf fault saves/new\n", setting=SHORT),
        Case("a save over a file", "asm hex0 0 other.hex0 saves/made", 0, "made 3\n",
             {"saves/made": MADE}),
        Case("a save through a link, which stays one", "asm hex0 0 worked.hex0 saves/link", 0,
             "made 2\n", {"saves/made": WORKED}, files={"saves/link": Link("made")}),
    ),
    *specials("save", mode, stream, pipe, unwritable_folder, unwritable, shared_folder),
]
