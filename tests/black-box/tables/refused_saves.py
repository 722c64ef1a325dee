"""Cases of `resume` over saves that are refused, or that are believed and refuted at last."""

from collections.abc import Callable

from ddc_tests.cases import AnyCase, Case, Room, specials, table
from ddc_tests.folders import Files
from tables.fixtures import A_REPORT, A_TOML, REPORT
from tables.pauses import at, patched

RESUMED: Files = {**REPORT, "report": b"kept"}
AT_45 = at(45)


def refused(name: str, number: int, save: bytes | str | Callable[[], bytes], **files: str) -> Case:
    """A save that is refused for this reason, and stays as it is, as the report does."""
    recipe = "other.toml" if "other" in files else "a.toml"
    laid: Files = {"save": save}
    laid |= {"other.toml": files["other"]} if "other" in files else {}
    laid |= {"a.bin": files["source"]} if "source" in files else {}
    return Case(name, f"resume {recipe} save report 9", 9, f"save refused {number}\n", files=laid)


def at_45(offset: int, new: bytes) -> Callable[[], bytes]:
    """The save of 45 steps with these bytes at an offset; its state begins at 577."""
    return patched(AT_45, offset, new)


def cut(length: int) -> Callable[[], bytes]:
    """So many first bytes of the save of 45 steps."""
    return lambda: AT_45()[:length]


def believed(room: Room) -> None:
    """Another value of a register is believed, and the report of it is refuted."""
    save = at_45(657, b"\2\0")
    room.lay({**RESUMED, "save": save})
    room.answers("resume a.toml save report 1000", 0, "equal two bin 3\n")
    room.equal("the save", (room.folder / "save").read_bytes(), save())
    room.answers("verify a.toml report", 1, "refuted run 2\n")


CASES: list[AnyCase] = [
    *table(
        "resume refuses", RESUMED,
        refused("an empty save", 1, b""),
        refused("a report as the save", 1, A_REPORT),
        *(refused(f"a save of which {length} bytes are left", 1, cut(length))
          for length in (7, 8, 175, 176, 344, 576, 577, 585, 849, 9191)),
        refused("a save and one more byte", 1, lambda: AT_45() + b"\0"),
        refused("another magic", 1, at_45(0, b"e")),
        refused("another magic of the state", 1, at_45(577, b"e")),
        refused("as many inputs as a field can say", 1, at_45(40, b"\xff" * 4)),
        refused("as many stages as a field can say", 1, at_45(172, b"\xff" * 4)),
        refused("another digest of the recipe", 2, at_45(8, b"\0")),
        refused("another digest of an input", 2, at_45(44, b"\0")),
        refused("a save of another recipe", 2, AT_45, other=A_TOML + "\n"),
        refused("an input that was changed after the pause", 2, AT_45, source="abd"),
        refused("which is found before a pc that is no place for an instruction", 2,
                at_45(593, b"\1"), source="abd"),
        refused("a pc that is no multiple of 4", 3, at_45(593, b"\1")),
        refused("a stage that is done in no step", 3, at_45(176, b"\0")),
        refused("an artefact that has not its digest", 3, at_45(345, b"\0")),
        refused("a state at its stage's limit of steps", 3, at_45(585, b"\xa0\x86\1")),
        refused("another limit of the heap", 3, at_45(865, b"\1")),
    ),
    *specials("resume", believed),
]
