"""Cases of `verify` over the worked audit: true reports, altered ones, refusals and faults."""

from collections.abc import Callable

from ddc_tests.cases import AnyCase, Case, Room, specials, table
from ddc_tests.folders import FOLDER, Files, Zeros
from tables.fixtures import (
    ALTERED_REPORT, AUDIT, AUDIT_REPORT, AUDIT_TOML, MOST_INPUT, MOST_REPORT, MOST_TEXT, edited,
)
from tables.settings import CLOSED, SMALL, not_root

TRUE = AUDIT_REPORT.read_text()
LINES = TRUE.splitlines(keepends=True)
REPLAYED: Files = {**AUDIT, "report": TRUE, "folder": FOLDER, "empty": b""}


def altered(name: str, text: str, edit: Callable[[], str]) -> Case:
    """What `verify` says of an edited report."""
    return Case(name, "verify audit.toml edited", 1, f"{text}\n", files={"edited": edit()})


def another_input() -> str:
    """The report with another length in its third line."""
    return "".join([*LINES[:2], edited(LINES[2], " [0-9]* ", " 7 ", 1), *LINES[3:]])


def unreadable(room: Room) -> None:
    """A report that may not be read."""
    not_root()
    room.lay(REPLAYED)
    (room.folder / "report").chmod(0)
    room.answers("verify audit.toml report", 11, "shelf fault report\n")


CASES: list[AnyCase] = [
    *table(
        "verify", REPLAYED,
        Case("a true report", "verify audit.toml report", 0, "yes\nequal second binary 653\n"),
        Case("a true report of an altered binary", "verify altered.toml altered.report", 3,
             "differs second binary 314 653 653\n", files={"altered.report": ALTERED_REPORT}),
        Case("a report of another recipe", "verify altered.toml report", 1, "refuted header 0\n"),
        altered("another length of an input", "refuted input 1", another_input),
        altered("another step of the first stage", "refuted run 1",
                lambda: edited(TRUE, "^(stage first) .*", r"\1 7")),
        altered("another length of the first stage's second stream", "refuted files 1",
                lambda: edited(TRUE, "^stream 2 0", "stream 2 1", 1)),
        altered("another comparison", "refuted compare 0",
                lambda: edited(TRUE, "^(compare .*) [0-9]*$", r"\1 654")),
        Case("a report without its last line", "verify audit.toml edited", 5,
             f"report line {len(LINES)}\n", files={"edited": "".join(LINES[:-1])}),
        Case("an empty file as the report", "verify audit.toml empty", 5, "report line 1\n"),
        Case("a recipe that is not there", "verify none report", 10, "file refused none absent\n"),
        Case("a recipe of one byte too many", "verify long.toml report", 10,
             "file refused long.toml too long\n", files={"long.toml": Zeros(MOST_TEXT + 1)}),
        Case("a folder as the recipe", "verify folder report", 11, "shelf fault folder\n"),
        Case("a file that is no recipe", "verify seed.elf report", 4, "recipe refused 1\n"),
        Case("a report that is not there", "verify audit.toml none", 10,
             "file refused none absent\n"),
        Case("a report of one byte too many, which is not kept", "verify audit.toml long.report",
             10, "file refused long.report too long\n", setting=SMALL,
             files={"long.report": Zeros(MOST_REPORT + 1)}),
        Case("a folder as the report", "verify audit.toml folder", 11, "shelf fault folder\n"),
        Case("an input as the report", "verify audit.toml seed.elf", 2, "usage\n"),
        Case("the recipe as the report", "verify audit.toml audit.toml", 2, "usage\n"),
        Case("no report", "verify audit.toml", 2, "usage\n"),
        Case("a word too many", "verify audit.toml report more", 2, "usage\n"),
        Case("the output is closed", "verify audit.toml report", 12, setting=CLOSED),
        Case("an input that is not there", "verify audit.toml report", 10,
             "file refused seed.elf absent\n", files={"seed.elf": None}),
        Case("an input of one byte too many, which is not kept", "verify audit.toml report", 10,
             "file refused seed.elf too long\n", setting=SMALL,
             files={"seed.elf": Zeros(MOST_INPUT + 1)}),
        Case("a folder as an input", "verify audit.toml report", 11, "shelf fault seed.elf\n",
             files={"seed.elf": FOLDER}),
        Case("an input that was changed after the audit", "verify audit.toml report", 1,
             "refuted input 1\n",
             files={"seed.elf": (AUDIT_REPORT.parents[2] / "examples/audit/seed.elf").read_bytes()
                    + b"\n"}),
        Case("a recipe that was changed after the audit", "verify audit.toml report", 1,
             "refuted header 0\n", files={"audit.toml": AUDIT_TOML + "\n"}),
    ),
    *specials("verify", unreadable),
]
