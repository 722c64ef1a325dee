"""Cases of `delta-start` and `delta-resume`: audits by differences from a whole save.

What write_delta.py writes without ddc is compared in tests/saves/run.
"""

from collections.abc import Callable

from ddc_tests.cases import AnyCase, Case, Room, made, specials, table
from ddc_tests.folders import FOLDER, Files, Zeros
from tables.fixtures import A_REPORT, LONG_NAME, MOST_SAVE, MOST_STEPS, REPORT
from tables.part_words import with_source
from tables.pauses import at, patched
from tables.settings import CLOSED, SHORT, SMALL

BASE: Files = {**REPORT, "base": at(32), "folder": FOLDER}
START = made(BASE, "delta-start a.toml base change none 13", "change")
CHANGED: Files = {**BASE, "change": START, "report": b"kept"}
EQUAL = "equal two bin 3\n"
END: Files = {"report": A_REPORT}
PAST_END = made(BASE, "delta-start a.toml base change none 31", "change")
FURTHER = "delta-resume a.toml base change report 1"

# The words after the command.
WORDS: list[tuple[str, str | list[str]]] = [
    ("no words", ""),
    ("the words of resume", "a.toml base none 9"),
    ("a word too many", "a.toml base change none 9 9"),
    ("no steps", "a.toml base change none 0"),
    ("a step too many", "a.toml base change none 281474976710657"),
    ("an empty word as the base", ["a.toml", "", "change", "none", "9"]),
    ("a patch's name of 256 bytes", f"a.toml base {LONG_NAME} none 9"),
    ("the recipe as the base", "a.toml a.toml change none 9"),
    ("the recipe as the patch", "a.toml base a.toml none 9"),
    ("the base as the patch", "a.toml base base none 9"),
    ("the base after ./ as the patch", "a.toml base ./base none 9"),
    ("the base as the report", "a.toml base change base 9"),
    ("the patch as the report", "a.toml base change ././change 9"),
    ("an input as the base", "a.toml b.bin change none 9"),
    ("an input as the patch", "a.toml base ./b.bin none 9"),
    ("an input as the report", "a.toml base change b.bin 9"),
]


def both(name: str, words: str | list[str]) -> list[Case]:
    """Words that both commands refuse."""
    rest = words.split() if isinstance(words, str) else words
    return [Case(f"{command} with {name}", [command, *rest], 2, "usage\n")
            for command in ("delta-start", "delta-resume")]


def refused(name: str, number: int, files: Files) -> Case:
    """A difference that is refused for this reason: all files stay, the report among them."""
    return Case(name, FURTHER, 9, f"save refused {number}\n", files=files)


def cut(content: Callable[[], bytes]) -> Callable[[], bytes]:
    """A content without its last byte."""
    return lambda: content()[:-1]


def in_turn(room: Room) -> None:
    """Two differences and the end have the undivided report; one difference has the same bytes."""
    room.lay(BASE)
    room.answers("delta-start a.toml base change none 13", 8, "paused two 13\n")
    room.equal("it lists no page", (room.folder / "change").stat().st_size, 257)
    room.holds({**BASE, "change": START})
    room.answers("delta-resume a.toml base change none 18", 8, "paused two 31\n")
    room.equal("it lists one page", (room.folder / "change").stat().st_size, 4353)
    room.holds({**BASE, "change": PAST_END})
    room.answers(FURTHER, 0, EQUAL)
    room.holds({**BASE, "change": PAST_END, **END})
    room.answers("verify a.toml report", 0, f"yes\n{EQUAL}")
    room.answers("delta-start a.toml base change none 31", 8, "paused two 31\n")
    room.holds({**BASE, "change": PAST_END, **END})


CASES: list[AnyCase] = [
    *specials("delta", in_turn),
    *table(
        "delta", BASE,
        Case("the end at once, which keeps no difference",
             f"delta-start a.toml base none.change report {MOST_STEPS}", 0, EQUAL, END),
    ),
    *table(
        "delta refuses", CHANGED,
        refused("a difference without its last byte", 5, {"change": cut(START)}),
        refused("an empty difference", 5, {"change": b""}),
        refused("a save as the difference", 5, {"change": at(45)}),
        refused("a difference from another save", 6, {"base": at(45)}),
        refused("a difference as the base", 1, {"base": START}),
        refused("a difference with a pc between words", 7, {"change": patched(START, 64, b"\xae")}),
        refused("an input that was changed after the base", 2, {"a.bin": b"abd"}),
    ),
    *table("delta words", CHANGED,
           *(case for name, words in WORDS for case in both(name, words))),
    # The base is loaded after the recipe, then the patch, then the inputs.
    *table(
        "delta loads", {**CHANGED, **with_source("away")},
        Case("a base that is not there", "delta-start other.toml none change none.report 9", 10,
             "file refused none absent\n"),
        Case("a base that is not there, for delta-resume",
             "delta-resume other.toml none none.change none.report 9", 10,
             "file refused none absent\n"),
        Case("a patch that is not there", "delta-resume other.toml base none none.report 9", 10,
             "file refused none absent\n"),
        Case("an input that is not there, before the base is judged",
             "delta-resume other.toml base change none 9", 10, "file refused away absent\n"),
        Case("a folder as the base", "delta-start other.toml folder change none 9", 11,
             "shelf fault folder\n"),
        Case("a folder as the patch", "delta-resume other.toml base folder none 9", 11,
             "shelf fault folder\n"),
        Case("a patch of one byte too many, which is not kept",
             "delta-resume other.toml base large none 9", 10, "file refused large too long\n",
             setting=SMALL, files={"large": Zeros(MOST_SAVE + 1)}),
    ),
    *table(
        "delta saves", CHANGED,
        Case("a folder as the patch", "delta-start a.toml base folder none 9", 11,
             "shelf fault folder\n"),
        Case("a folder as the report of a piece, which is not asked for",
             "delta-start a.toml base change folder 9", 8, "paused two 9\n",
             {"change": made(BASE, "delta-start a.toml base change none 9", "change")}),
        Case("a folder as the report of the last piece",
             "delta-resume a.toml base change folder 64", 11, "shelf fault folder\n"),
        Case("a full device as the patch", "delta-start a.toml base /dev/full none 9", 11,
             "shelf fault /dev/full\n"),
        Case("a difference that is longer than a file may be",
             "delta-resume a.toml base change none 22", 11, "shelf fault change\n", setting=SHORT,
             files={"change": made(BASE, "delta-start a.toml base change none 9", "change")}),
        Case("a pause whose output is closed: its difference is saved",
             "delta-start a.toml base change none 13", 12, after={"change": START}, setting=CLOSED,
             files={"change": b"old"}),
    ),
]
