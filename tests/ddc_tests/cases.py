"""Cases of the built program: what one is, how it runs in a folder of its own, and what it says."""

import functools
import multiprocessing
import os
import subprocess
import tempfile
from collections.abc import Callable, Iterator, Sequence
from dataclasses import dataclass, field, replace
from pathlib import Path

from ddc_tests.folders import CannotLay, Files, differences, lay, short
from ddc_tests.program import TOP, program

TIME = 600
Words = str | Sequence[str | bytes]
# The cases that are run. A forked worker has them too, so that only numbers are sent to it.
_CHOSEN: list["AnyCase"] = []


class LeftOut(Exception):
    """A case that this host or this user cannot show."""


@dataclass(frozen=True)
class Setting:
    """How the program is called: by a line of bash with `"$@"` for the call, and its input."""

    line: str = ""
    given: bytes = b""
    needs: str = "/"


PLAIN = Setting()


@dataclass(frozen=True)
class Answer:
    """The status of a call, and what it wrote to standard output and standard error."""

    status: int
    out: bytes
    error: bytes = b""


def split(words: Words) -> list[str | bytes]:
    """The words of a call; a text is cut at its blanks."""
    return list(words.split()) if isinstance(words, str) else list(words)


def call(folder: Path, words: Words, setting: Setting = PLAIN) -> Answer:
    """Calls the program in a folder."""
    whole: list[str | bytes] = [str(program()), *split(words)]
    if setting.line:
        whole = ["bash", "-c", setting.line, "bash", *whole]
    done = subprocess.run(
        whole, cwd=folder, input=setting.given, capture_output=True, check=False, timeout=TIME
    )
    return Answer(done.returncode, done.stdout, done.stderr)


@dataclass
class Room:
    """The folder of a case, and what was found in it."""

    folder: Path
    passed: int = 0
    failures: list[str] = field(default_factory=list)

    def check(self, what: str, wrong: Sequence[str]) -> None:
        """Counts a check, which failed where there are lines of what is wrong."""
        if wrong:
            self.failures.append("\n    ".join([what, *wrong]))
        else:
            self.passed += 1

    def answers(
        self, words: Words, status: int = 0, out: str | bytes = "", setting: Setting = PLAIN,
        where: str = ".",
    ) -> None:
        """A call has this status, prints exactly this, and nothing on standard error."""
        if any(it in map(os.fsdecode, split(words)) and not os.path.exists(it)
               for it in ("/dev/full", "/proc/self/mem")) or not os.path.exists(setting.needs):
            raise LeftOut
        wanted = Answer(status, out.encode() if isinstance(out, str) else out)
        seen = call(self.folder / where, words, setting)
        parts = ("status", "out", "error")
        pairs = [(part, getattr(seen, part), getattr(wanted, part)) for part in parts]
        wrong = [f"{part} {short(is_)}, not {short(was)}" for part, is_, was in pairs if is_ != was]
        self.check(f"ddc {short(words)}", wrong)

    def prints(self, words: Words, status: int = 0, where: str = ".") -> list[str]:
        """The lines of a call that has this status and prints nothing on standard error."""
        seen = call(self.folder / where, words)
        self.equal(f"ddc {short(words)}", (seen.status, seen.error), (status, b""))
        return seen.out.decode().splitlines()

    def holds(self, files: Files) -> None:
        """The folder has exactly these files, with these contents."""
        self.check("the files afterwards", differences(self.folder, files))

    def equal(self, what: str, seen: object, wanted: object) -> None:
        """Two things that were found otherwise are equal."""
        self.check(what, [] if seen == wanted else [f"{short(seen)}, not {short(wanted)}"])

    def lay(self, files: Files) -> None:
        """Lays files in the folder."""
        lay(self.folder, files)


@dataclass(frozen=True)
class Case:
    """A call, and what is wanted of it. `after` has the files that are otherwise afterwards."""

    name: str
    words: Words
    status: int = 0
    out: str | bytes = ""
    after: Files = field(default_factory=dict)
    setting: Setting = PLAIN
    files: Files = field(default_factory=dict)
    where: str = "."

    def run(self, room: Room) -> None:
        """Lays the files, makes the call, and looks at all files."""
        room.lay(self.files)
        room.answers(self.words, self.status, self.out, self.setting, self.where)
        room.holds({**self.files, **self.after})


@dataclass(frozen=True)
class Special:
    """A case with a set-up of its own: a function that lays, calls and looks.

    One that is long is run before the others, so that no processor waits for it at the end.
    """

    name: str
    run: Callable[[Room], None]
    is_long: bool = False


AnyCase = Case | Special


def table(group: str, files: Files, *cases: Case) -> list[AnyCase]:
    """Cases over the same files, whose names begin with the group's."""
    return [
        replace(it, name=f"{group}: {it.name}", files={**files, **it.files}) for it in cases
    ]


def specials(
    group: str, *functions: Callable[[Room], None], is_long: bool = False
) -> list[AnyCase]:
    """Functions as cases: the first line of each docstring is the name."""
    named = [((it.__doc__ or "").splitlines()[0].rstrip("."), it) for it in functions]
    return [Special(f"{group}: {name}", it, is_long) for name, it in named]


def made(files: Files, words: Words, name: str) -> Callable[[], bytes]:
    """What a call over these files saves under a name: made when it is first asked for."""

    @functools.cache
    def making() -> bytes:
        """Calls the program in a folder of its own."""
        with tempfile.TemporaryDirectory(prefix="ddc-made-") as folder:
            lay(Path(folder), files)
            call(Path(folder), words)
            return (Path(folder) / name).read_bytes()

    return making


def run_case(case: AnyCase) -> Room | None:
    """A case in a folder of its own: what was found, or nothing where it was left out."""
    with tempfile.TemporaryDirectory(prefix="ddc-case-") as folder:
        room = Room(Path(folder))
        try:
            case.run(room)
        except (LeftOut, CannotLay):
            return room if room.passed or room.failures else None
        except Exception as error:  # pylint: disable=broad-except
            # What a broken program printed or saved may be nothing that the case can read.
            room.failures.append(f"{type(error).__name__}: {error}")
        return room


def rooms(cases: Sequence[AnyCase]) -> Iterator[tuple[AnyCase, Room | None]]:
    """Each case with what was found of it, the long ones first; a worker for each processor."""
    program()
    _CHOSEN[:] = sorted(cases, key=lambda it: not getattr(it, "is_long", False))
    workers = min(len(cases), len(os.sched_getaffinity(0)))
    with multiprocessing.get_context("fork").Pool(workers) as pool:
        yield from zip(_CHOSEN, pool.imap(_run_chosen, range(len(cases))), strict=True)


def _run_chosen(number: int) -> Room | None:
    """What was found of the case with this number, in a worker."""
    return run_case(_CHOSEN[number])


def report(cases: Sequence[AnyCase]) -> int:
    """Runs cases and prints each failure; last 'N passed, M failed'. The status to exit with."""
    passed = failed = left_out = 0
    for case, room in rooms(cases):
        if room is None:
            left_out += 1
            continue
        passed += room.passed
        failed += len(room.failures)
        for failure in room.failures:
            print(f"FAILED {case.name}: {failure}", flush=True)
    if left_out:
        print(f"{left_out} cases need another host or another user than this one")
    print(f"{passed} passed, {failed} failed")
    return 1 if failed else 0
