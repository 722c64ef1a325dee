"""The shared folder of a row of `shared-folder`: what is laid there, saved there and looked at."""

import os
import pathlib
import shutil
import stat
import subprocess
import time
from collections.abc import Callable
from typing import Any, NamedTuple

from ddc_tests.program import program

ROOT, NOBODY = 0, 65534
OLD, NEW = b"of old", b"abd"
DONE = (0, b"made 3\n")
FAULT = (11, b"shelf fault out\n")


class Look(NamedTuple):
    """A file's mode without its kind, its owner, its group and its content."""

    mode: int
    owner: int
    group: int
    content: bytes


class Room:
    """A temporary folder with the program, its source and a shared folder in it."""

    def __init__(self, top: pathlib.Path, mode: int, owner: int) -> None:
        """Makes the shared folder with this mode and owner."""
        self.top, self.shared, self.out = top, top / "shared", top / "shared" / "out"
        shutil.copy(program(), top / "ddc")
        (top / "ddc").chmod(0o755)
        (top / "source").write_bytes(b"61 62\n64\n")
        (top / "source").chmod(0o644)
        top.chmod(0o755)
        self.shared.mkdir()
        if os.geteuid() == ROOT:
            os.chown(self.shared, owner, owner)
        self.shared.chmod(mode)

    def lay(self, path: pathlib.Path, owner: int, mode: int, group: int | None = None) -> None:
        """Lays a file of an owner with a mode, as a stranger would before the save."""
        path.write_bytes(OLD)
        if os.geteuid() == ROOT:
            os.chown(path, owner, owner if group is None else group)
        path.chmod(mode)

    def shell(self, user: int, line: str) -> subprocess.CompletedProcess[bytes]:
        """Runs a line of the shell as this user in the shared folder, with umask 022."""
        return self.call(user, ["sh", "-c", line])

    def call(self, user: int, words: list[str]) -> subprocess.CompletedProcess[bytes]:
        """Runs a command as this user in the shared folder, with umask 022."""
        given: dict[str, Any] = {}
        if user != os.geteuid():
            given = {"user": user, "group": user, "extra_groups": []}
        return subprocess.run(
            words, cwd=self.shared, stdin=subprocess.DEVNULL, stdout=subprocess.PIPE,
            stderr=subprocess.STDOUT, check=False, timeout=60, umask=0o022, **given,
        )

    def save(self, user: int, name: str = "out") -> tuple[int, bytes]:
        """Saves a made file as this user: the status and the text."""
        done = self.call(user, ["../ddc", "asm", "hex0", "0", "../source", name])
        return done.returncode, done.stdout

    def names(self) -> list[str]:
        """The names in the shared folder, of which none may be one of ddc's own."""
        return sorted(it.name for it in self.shared.iterdir())


def look(path: pathlib.Path) -> Look:
    """What stands under a path; a link is not followed."""
    found = path.lstat()
    assert stat.S_ISREG(found.st_mode), path
    return Look(stat.S_IMODE(found.st_mode), found.st_uid, found.st_gid, path.read_bytes())


def equal(seen: object, wanted: object) -> None:
    """Fails the row where what was seen is not what is wanted."""
    if seen != wanted:
        raise AssertionError(f"{seen}, not {wanted}")


def takes_path(room: Room, saver: int, mode: int) -> None:
    """A save by which a new file of the saver, with this mode, takes the path."""
    before = room.out.lstat().st_ino
    with room.out.open("rb") as old:
        equal(room.save(saver), DONE)
        equal(old.read(), OLD)
    equal(look(room.out), Look(mode, saver, saver, NEW))
    equal(room.out.lstat().st_ino != before, True)
    equal("out.ddc-0" in room.names() or "out.ddc-1" in room.names(), False)


def same_file(room: Room, saver: int, mode: int) -> None:
    """A save after which the old file itself, with its mode, has the new content."""
    before = room.out.lstat().st_ino
    equal(room.save(saver), DONE)
    equal(look(room.out), Look(mode, saver, saver, NEW))
    equal(room.out.lstat().st_ino, before)
    equal(room.names(), ["out"])


def refused(room: Room, saver: int, kept: pathlib.Path) -> None:
    """A save that fails and leaves a file, and all names, as they were."""
    before, names = look(kept), room.names()
    equal(room.save(saver), FAULT)
    equal(look(kept), before)
    equal(room.names(), names)


def saved_while(
    room: Room, lay: Callable[[], None], call: str, mark: str
) -> tuple[int, bytes]:
    """Saves as root over what is laid, while a stranger lays a link to a file of root's before a
    slowed call. Where the stranger came too late it is tried again, with a slower call."""
    room.lay(room.top / "victim", ROOT, 0o644)
    for delay in (500_000, 2_000_000, 8_000_000):
        lay()
        seen = slowed(room, call, mark, delay)
        if seen:
            equal(look(room.top / "victim"), Look(0o644, ROOT, ROOT, OLD))
            return seen
        for name in room.names():
            (room.shared / name).unlink()
    raise AssertionError(f"the stranger came after {call} each time")


def slowed(room: Room, call: str, mark: str, delay: int) -> tuple[int, bytes] | None:
    """The end of a save during whose call, slowed by so many microseconds, the link was laid; None
    where the call was over before."""
    log = room.top / "log"
    log.write_text("")
    slower = ["-e", "trace=openat,statx,link", "-e", f"inject={call}:delay_enter={delay}"]
    words = ["strace", "-o", log, *slower, "../ddc", "asm", "hex0", "0", "../source", "out"]
    # A pipe has a reader, so that no save waits for one.
    with open(room.out, "rb", buffering=0, opener=without_waiting), subprocess.Popen(
        words, cwd=room.shared, stdin=subprocess.DEVNULL, stdout=subprocess.PIPE
    ) as saving:
        try:
            while saving.poll() is None and mark not in log.read_text():
                time.sleep(0.02)
            room.shell(NOBODY, "mv out away; ln -s ../victim out")
            is_late = "(DELAYED)" in log.read_text().partition(mark)[2]
            text = saving.communicate(timeout=300)[0]
        except subprocess.TimeoutExpired:
            saving.kill()
            raise
    return None if is_late else (saving.returncode, text)


def without_waiting(path: str, flags: int) -> int:
    """Opens a pipe to read it, whether or not anybody writes."""
    return os.open(path, flags | os.O_NONBLOCK)
