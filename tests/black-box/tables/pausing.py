"""Cases of `part` and `resume` over the worked report: where audits pause, and how they end."""

from ddc_tests.cases import AnyCase, Case, Room, specials, table
from ddc_tests.folders import FOLDER, Files
from tables.fixtures import (
    A_REPORT, A_TOML, ALTERED_REPORT, AUDIT, MOST_STEPS, REPORT, edited, replaced,
)
from tables.pauses import at
from tables.settings import CLOSED, FULL, SHORT, not_root

PIECES: Files = {**REPORT, **{name: it for name, it in AUDIT.items() if name != "audit.toml"},
                 "folder": FOLDER}
EQUAL = "equal two bin 3\n"
END: Files = {"report": A_REPORT}
SPENT: Files = {"other.toml": replaced(A_TOML, "100000", "31")}
NO_START: Files = {"other.toml": replaced(A_TOML, '"copy.elf"', '"hex0.hex0"')}
BAD_CHECK: Files = {"nothing": b"", "other.toml": replaced(A_TOML, '"copy.hex0"', '"nothing"')}
BAD_START: Files = {"other.toml": edited(
    replaced(A_TOML, 'program = "one"', 'program = "text"'),
    '^path = "copy.hex0"', '\\g<0>\nimplements = "copy_src"')}


def pieces(room: Room) -> None:
    """Three pieces have the saves of one, and the undivided report, which is true."""
    room.lay(PIECES)
    room.answers("part a.toml save none 32", 8, "paused two 0\n")
    room.holds({**PIECES, "save": at(32)})
    room.answers("resume a.toml save none 13", 8, "paused two 13\n")
    room.holds({**PIECES, "save": at(45)})
    room.answers("resume a.toml save report 19", 0, EQUAL)
    room.holds({**PIECES, "save": at(45), **END})
    room.answers("verify a.toml report", 0, f"yes\n{EQUAL}")


def first_step(room: Room) -> None:
    """An audit that pauses after its first step ends with as many steps as may be."""
    room.lay(PIECES)
    room.answers("part a.toml save none 1", 8, "paused one 1\n")
    room.holds({**PIECES, "save": at(1)})
    room.answers(f"resume a.toml save report {MOST_STEPS}", 0, EQUAL)
    room.holds({**PIECES, "save": at(1), **END})


def last_step(room: Room) -> None:
    """An audit can pause at its last step but one."""
    room.lay(PIECES)
    room.answers("part a.toml at63 none 63", 8, "paused two 31\n")
    room.holds({**PIECES, "at63": at(63)})
    room.answers("resume a.toml at63 report 1", 0, EQUAL)
    room.holds({**PIECES, "at63": at(63), **END})
    room.answers("verify a.toml report", 0, f"yes\n{EQUAL}")


def differs(room: Room) -> None:
    """An audit in pieces of an altered binary has its report, which is true."""
    room.lay(PIECES)
    room.answers("part altered.toml save none 1000", 8, "paused first 1000\n")
    room.answers("resume altered.toml save none 180510", 8, "paused second 5\n")
    room.answers("resume altered.toml save report 1000000", 3,
                 "differs second binary 314 653 653\n")
    kept = (room.folder / "save").read_bytes()
    room.holds({**PIECES, "save": kept, "report": ALTERED_REPORT})
    room.answers("verify altered.toml report", 3, "differs second binary 314 653 653\n")


def ends(room: Room, recipe: str, steps: int, where: str, ended: tuple[int, str]) -> None:
    """A piece pauses, and the next one ends the audit without a report, as one piece does."""
    room.answers(f"part {recipe} save none {steps}", 8, f"paused {where} {steps}\n")
    files = {it.name: it for it in room.folder.iterdir() if it.is_file()}
    before: Files = {name: it.read_bytes() for name, it in files.items()}
    more = 1_000_000 if steps == 1000 else 1
    room.answers(f"resume {recipe} save none {more}", *ended)
    room.answers(f"part {recipe} none report {1_000_000 if steps == 1000 else steps + 1}", *ended)
    room.holds({**before, "folder": FOLDER})


def check_fails(room: Room) -> None:
    """An audit whose check fails, in pieces and in one."""
    room.lay(PIECES)
    ends(room, "bad-seed.toml", 1000, "first", (7, "check failed first differs 4\n"))


def spent(room: Room) -> None:
    """An audit that runs out of steps, in pieces and in one."""
    room.lay({**PIECES, **SPENT})
    ends(room, "other.toml", 30, "one", (6, "run failed one spent step 31\n"))


def step_with_check(room: Room) -> None:
    """The check of a stage belongs to its last step, the 32nd."""
    room.lay({**PIECES, **BAD_CHECK})
    ends(room, "other.toml", 31, "one", (7, "check failed one differs 0\n"))


def step_with_start(room: Room) -> None:
    """The start of the next stage belongs to the last step of the one before, the 32nd."""
    room.lay({**PIECES, **BAD_START})
    ends(room, "other.toml", 31, "one", (6, "run failed two start elf 2 step 0\n"))


def unwritable(room: Room) -> None:
    """A save in a folder that may not be written, and a save that may not be written itself."""
    not_root()
    files: Files = {**PIECES, "save": at(9), "shut/there": b""}
    room.lay(files)
    (room.folder / "shut").chmod(0o555)
    (room.folder / "save").chmod(0o444)
    try:
        room.answers("part a.toml shut/save none 9", 11, "shelf fault shut/save\n")
        room.answers("resume a.toml save none 9", 11, "shelf fault save\n")
        room.holds(files)
    finally:
        (room.folder / "shut").chmod(0o755)


CASES: list[AnyCase] = [
    *table(
        "part", PIECES,
        Case("an audit that is over in its first piece", "part a.toml save report 64", 0, EQUAL,
             END),
        Case("the last step at which an audit can pause", "part a.toml at63 none 63", 8,
             "paused two 31\n", {"at63": at(63)}),
        Case("the first step", "part a.toml save none 1", 8, "paused one 1\n", {"save": at(1)}),
        Case("a first piece of as many steps as may be", f"part a.toml none report {MOST_STEPS}", 0,
             EQUAL, END),
        Case("a pause at a stage's end", "part a.toml at32 none 32", 8, "paused two 0\n",
             {"at32": at(32)}),
        Case("a pause in the second stage", "part a.toml at45 none 45", 8, "paused two 13\n",
             {"at45": at(45)}),
        Case("an audit whose program does not start", "part other.toml none report 1", 6,
             "run failed one start elf 2 step 0\n", files=NO_START),
        Case("part without its words", "part", 2, "usage\n"),
        Case("resume without its words", "resume", 2, "usage\n"),
    ),
    *specials("part", pieces, first_step, last_step, differs, check_fails, spent, step_with_check,
              step_with_start, unwritable),
    *table(
        "part saves", {**PIECES, "save": b"kept", "at9": at(9)},
        Case("a folder as the save", "part a.toml folder none 9", 11, "shelf fault folder\n"),
        Case("a path through a file for the save", "part a.toml copy.elf/a none 9", 11,
             "shelf fault copy.elf/a\n"),
        Case("a save in a folder that is not there", "part a.toml none/save none 9", 11,
             "shelf fault none/save\n"),
        Case("a folder as the report of a piece, which is not asked for",
             "part a.toml at9 folder 9", 8, "paused one 9\n", {"at9": at(9)}),
        Case("a folder as the report of the last piece", "part a.toml save folder 64", 11,
             "shelf fault folder\n"),
        Case("a folder as the report of a resumed piece", "resume a.toml at9 folder 64", 11,
             "shelf fault folder\n"),
        Case("a full device as the save", "part a.toml /dev/full none 9", 11,
             "shelf fault /dev/full\n"),
        Case("a full device as the report of the last piece", "part a.toml save /dev/full 64", 11,
             "shelf fault /dev/full\n"),
        Case("a pause whose output is full: its save is saved", "part a.toml save none 45", 12,
             after={"save": at(45)}, setting=FULL),
        Case("a save that is longer than a file may be", "resume a.toml at9 none 9", 11,
             "shelf fault at9\n", setting=SHORT),
        Case("a pause whose output is closed: its save is saved", "part a.toml save none 32", 12,
             after={"save": at(32)}, setting=CLOSED),
        Case("a resumed pause whose output is closed: its save is saved",
             "resume a.toml save none 13", 12, after={"save": at(45)}, setting=CLOSED,
             files={"save": at(32)}),
        Case("a last piece whose output is closed: its report is saved",
             "resume a.toml save report 64", 12, after=END, setting=CLOSED,
             files={"save": at(45)}),
    ),
]
