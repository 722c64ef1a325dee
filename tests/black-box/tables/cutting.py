"""Cases of `cut`, `segment` and `ends`: a run in segments, by the worked report's second stage.

That stage takes 32 steps; the lines of `ends` are those of its report.
"""

import functools
from collections.abc import Callable

from ddc_tests.cases import AnyCase, Case, Room, made, specials, table
from ddc_tests.folders import FOLDER, Files
from tables.fixtures import A_REPORT, A_TOML, ENDLESS, REPORT, block_of, replaced
from tables.pauses import patched
from tables.settings import THROUGH_PIPE

ENDS = "".join(block_of(A_REPORT, "two").splitlines(keepends=True)[:-1])
LAID: Files = {**REPORT, "folder": FOLDER,
               "short.toml": replaced(A_TOML, "steps = 100000", "steps = 31"),
               "clash.toml": replaced(A_TOML, '"b.bin"', '"./c.7"')}


@functools.cache
def state(number: int, stage: str = "two", recipe: str = "a.toml") -> Callable[[], bytes]:
    """The state after so many segments of ten steps."""
    return made(LAID, f"cut {recipe} {stage} 10 c", f"c.{number}")


def states(prefix: str, stage: str = "two", recipe: str = "a.toml") -> Files:
    """The four states of a cut, by their names."""
    return {f"{prefix}.{number}": state(number, stage, recipe) for number in range(4)}


CUT: Files = {**LAID, **states("c")}
LONG_PREFIX = "p" * 251


def too_many(room: Room) -> None:
    """Too many states: a thousand of them are there, and the last one follows the first."""
    limited = replaced(A_TOML, "steps = 100000", "steps = 1000")
    files: Files = {**REPORT, "copy.elf": ENDLESS, "limited.toml": limited}
    room.lay(files)
    room.answers("cut a.toml one 1 h", 14, "too many segments\n")
    names = sorted(it.name for it in room.folder.iterdir())
    room.equal("the names", names, sorted([*files, *(f"h.{at}" for at in range(1000))]))
    room.answers("segment h.0 h.999", 0, "segment yes 999\n")
    room.answers("cut limited.toml one 1 h", 6, "run failed one spent step 1000\n", THROUGH_PIPE)


CASES: list[AnyCase] = [
    *table(
        "cut", LAID,
        Case("a cut", "cut a.toml two 10 c", 0, "cut 4 step 32\n", states("c")),
        Case("a prefix of an input's name is no clash", "cut a.toml two 10 copy", 0,
             "cut 4 step 32\n", states("copy")),
        Case("a stage at its limit: the states before it stay", "cut short.toml one 10 d", 6,
             "run failed one spent step 31\n", states("d", "one", "short.toml")),
        Case("an earlier stage that is not done", "cut short.toml two 10 e", 6,
             "run failed one spent step 31\n"),
        Case("no folder for the states", "cut a.toml two 10 f/e", 11, "shelf fault f/e.0\n"),
        Case("a folder in the place of the second state: the first stays",
             "cut a.toml two 10 g", 11, "shelf fault g.1\n", {"g.0": state(0)},
             files={"g.1": FOLDER}),
    ),
    *table(
        "segments", CUT,
        Case("a segment", "segment c.0 c.1", 0, "segment yes 10\n"),
        Case("a segment over a state", "segment c.0 c.2", 0, "segment yes 20\n"),
        Case("a segment from a later state", "segment c.1 c.0", 1, "refuted segment later\n"),
        Case("a segment of one state", "segment c.1 folder/../c.1", 1, "refuted segment later\n"),
        Case("both ends", "ends a.toml two c 4", 0, ENDS),
        Case("a last state before the last one", "ends a.toml two c 1", 0, ENDS),
        Case("states of another stage", "ends a.toml one c 4", 1, "refuted first differs 8533\n"),
        Case("a register altered", "segment c.1 c.2", 1, "refuted segment differs 80\n",
             files={"c.2": patched(state(2), 80, b"\2")}),
        Case("no text of a state", "segment c.1 c.2", 1, "refuted segment to 1\n",
             files={"c.2": patched(state(2), 0, b"D")}),
        Case("no text of a state in front", "segment c.2 c.3", 1, "refuted segment from 1\n",
             files={"c.2": patched(state(2), 0, b"D")}),
        Case("no text of a state at the end", "ends a.toml two c 3", 1, "refuted last 1\n",
             files={"c.2": patched(state(2), 0, b"D")}),
        Case("a state that is not there", "segment c.3 c.4", 10, "file refused c.4 absent\n"),
        Case("a last state that is not there", "ends a.toml two c 5", 10,
             "file refused c.4 absent\n"),
        Case("a folder as a state", "segment folder c.1", 11, "shelf fault folder\n"),
        Case("the end of a stage at its limit", "ends short.toml one d 4", 6,
             "run failed one spent step 31\n", files=states("d", "one", "short.toml")),
        Case("an input among the states", "cut clash.toml two 10 c", 2, "usage\n"),
        Case("and for the ends", "ends clash.toml two ./c 4", 2, "usage\n"),
        Case("the recipe among the states", "cut c.0 two 10 c", 2, "usage\n"),
        Case("a stage that is none", "cut a.toml three 10 c", 2, "usage\n"),
        *(Case(f"a cut every '{word}' steps", ["cut", "a.toml", "two", word, "c"], 2, "usage\n")
          for word in ("0", "01", "281474976710657", "-1", "", "1x")),
        *(Case(f"the ends of '{word}' states", ["ends", "a.toml", "two", "c", word], 2, "usage\n")
          for word in ("0", "01", "1001", "-1", "", "1x")),
        Case("no prefix", ["cut", "a.toml", "two", "10", ""], 2, "usage\n"),
        Case("a long prefix", f"cut a.toml two 10 {LONG_PREFIX}", 2, "usage\n"),
        Case("one word twice", "segment c.0 ./c.0", 2, "usage\n"),
    ),
    *specials("cut", too_many),
]
