"""Cases of `audit` over the worked audit: what it saves, refusals, faults, and one file twice."""

from ddc_tests.cases import AnyCase, Case, Room, specials, table
from ddc_tests.contents import digest, mark
from ddc_tests.folders import FOLDER, Files, Zeros
from tables.fixtures import (
    ALTERED_REPORT, AUDIT, AUDIT_REPORT, AUDIT_TOML, EXIT, MOST_CHECKED, MOST_INPUT, MOST_TEXT,
    STREAMS, replaced,
)
from tables.settings import CLOSED, FULL, SMALL, not_root

AUDITED: Files = {**AUDIT, "folder": FOLDER, "kept": b"as before"}
EQUAL = "equal second binary 653\n"
DIFFERS = "differs second binary 314 653 653\n"


def with_seed(path: str) -> Files:
    """The recipe with another path of its first input."""
    return {"seeded.toml": replaced(AUDIT_TOML, '"seed.elf"', f'"{path}"')}


def unwritable(room: Room) -> None:
    """A folder that may not be written, for the report."""
    not_root()
    room.lay({**AUDITED, "shut/there": b"kept"})
    (room.folder / "shut").chmod(0o555)
    try:
        room.answers("audit audit.toml shut/report", 11, "shelf fault shut/report\n")
        room.holds({**AUDITED, "shut/there": b"kept"})
    finally:
        (room.folder / "shut").chmod(0o755)


def other_spelling(room: Room) -> None:
    """No other spelling of an input is seen through: that input is written over."""
    recipe = with_seed("twin")
    files = {**AUDITED, "twin": AUDIT["seed.elf"], **recipe}
    room.lay(files)
    room.answers("audit seeded.toml .//twin", 0, EQUAL)
    text = replaced(AUDIT_REPORT.read_text(), digest(AUDIT_TOML.encode()),
                    digest(str(recipe["seeded.toml"]).encode()))
    room.holds({**files, "twin": text})


def unreadable(room: Room) -> None:
    """A recipe and an input that may not be read."""
    not_root()
    room.lay({**AUDITED, "locked": b"", **with_seed("locked")})
    (room.folder / "locked").chmod(0)
    room.answers("audit locked kept", 11, "shelf fault locked\n")
    room.answers("audit seeded.toml kept", 11, "shelf fault locked\n")
    (room.folder / "locked").chmod(0o644)
    room.holds({**AUDITED, "locked": b"", **with_seed("locked")})


CHECKED = """format = 1
source = [{{ name = "text", lang = "{language}", files = ["source_file"] }}]
input = [
    {{ name = "prog", path = "exit.elf" }},
    {{ name = "source_file", path = "{source}" }},
    {{ name = "given", path = "{made}" }},
]
[[stage]]
name = "one"
program = "prog"
args = ["exit"]
files = [{{ path = "in", from = "given" }}]
output = "in"
steps = 3
check = "text"
[compare]
stage = "one"
binary = "given"
"""
CHECKED_FILES: Files = {"exit.elf": EXIT, "empty": b"", "long": Zeros(MOST_CHECKED + 1)}


def checked(language: str, source: str, made: str) -> Files:
    """A recipe whose stage makes the file `made`, checked by the file `source`."""
    return {"long.toml": CHECKED.format(language=language, source=source, made=made)}


def empty_report() -> bytes:
    """The report of an empty artefact that is checked by an empty source in hex0."""
    recipe = str(checked("hex0", "empty", "empty")["long.toml"]).encode()
    lines = ["ddc-report 1", f"recipe {digest(recipe)}", f"input prog {mark(EXIT)}",
             f"input source_file {mark(b'')}", f"input given {mark(b'')}", "stage one 3",
             *STREAMS.splitlines(), f"left {b'in'.hex()} {mark(b'')}", f"made {mark(b'')}",
             "checked hex0", "compare one given equal 0", "end"]
    return "".join(f"{it}\n" for it in lines).encode()


CASES: list[AnyCase] = [
    *table(
        "audit", AUDITED,
        Case("an audit", "audit audit.toml report", 0, EQUAL, {"report": AUDIT_REPORT}),
        Case("an altered binary", "audit altered.toml differs", 3, DIFFERS,
             {"differs": ALTERED_REPORT}),
        Case("a check fails", "audit bad-seed.toml none", 7, "check failed first differs 4\n"),
        Case("a file that is no recipe", "audit hex0.elf none", 4, "recipe refused 1\n"),
        Case("a recipe that is not there", "audit none kept", 10, "file refused none absent\n"),
        Case("a recipe of one byte too many", "audit long.toml kept", 10,
             "file refused long.toml too long\n", files={"long.toml": Zeros(MOST_TEXT + 1)}),
        Case("a folder as the recipe", "audit folder kept", 11, "shelf fault folder\n"),
        Case("a folder as the report", "audit audit.toml folder", 11, "shelf fault folder\n"),
        Case("a report in a folder that is not there", "audit audit.toml none/report", 11,
             "shelf fault none/report\n"),
        Case("an input as the report", "audit audit.toml seed.elf", 2, "usage\n"),
        Case("the recipe as the report", "audit audit.toml audit.toml", 2, "usage\n"),
        Case("no report", "audit audit.toml", 2, "usage\n"),
        Case("the output is closed: its report is saved all the same", "audit audit.toml kept", 12,
             after={"kept": AUDIT_REPORT}, setting=CLOSED),
        Case("a full device as the report", "audit audit.toml /dev/full", 11,
             "shelf fault /dev/full\n"),
        Case("the output is full: its report is saved all the same", "audit altered.toml kept", 12,
             after={"kept": ALTERED_REPORT}, setting=FULL),
        Case("a recipe below a folder that is not there", "audit none/a kept", 10,
             "file refused none/a absent\n"),
        Case("a path through a file to the recipe", "audit hex0.elf/a kept", 11,
             "shelf fault hex0.elf/a\n"),
        Case("an input that is not there", "audit seeded.toml kept", 10,
             "file refused away absent\n", files=with_seed("away")),
        Case("a folder as an input", "audit seeded.toml kept", 11, "shelf fault folder\n",
             files=with_seed("folder")),
        Case("a path through a file to an input", "audit seeded.toml kept", 11,
             "shelf fault seed.elf/a\n", files=with_seed("seed.elf/a")),
        Case("a recipe that cannot be read", "audit /proc/self/mem kept", 11,
             "shelf fault /proc/self/mem\n"),
        Case("an input that cannot be read", "audit seeded.toml kept", 11,
             "shelf fault /proc/self/mem\n", files=with_seed("/proc/self/mem")),
        Case("an input of one byte too many, which is not kept", "audit seeded.toml kept", 10,
             "file refused large too long\n", setting=SMALL,
             files={"large": Zeros(MOST_INPUT + 1), **with_seed("large")}),
        Case("an input as large as may be, for which there is no memory", "audit seeded.toml kept",
             13, setting=SMALL, files={"large": Zeros(MOST_INPUT), **with_seed("large")}),
        Case("leading ./ are taken off an input's path", "audit seeded.toml report", 2, "usage\n",
             files={"report": AUDIT_REPORT, **with_seed("./report")}),
        Case("and off the report", "audit seeded.toml ././report", 2, "usage\n",
             files={"report": AUDIT_REPORT, **with_seed("./report")}),
        Case("an input after ./ as the report", "audit audit.toml ./seed.elf", 2, "usage\n"),
        Case("an input after ./ twice", "audit audit.toml ././seed.elf", 2, "usage\n"),
        Case("an input after ./ as the report to replay", "verify audit.toml ./seed.elf", 2,
             "usage\n"),
        Case("the recipe after ./ as the report", "audit audit.toml ./audit.toml", 2, "usage\n"),
        Case("the recipe after ./ and the report", "audit ./audit.toml audit.toml", 2, "usage\n"),
        Case("nothing but ./ as the report", "audit audit.toml ./", 11, "shelf fault ./\n"),
        Case("nothing but ./ as the recipe", "audit ././ report", 11, "shelf fault ././\n",
             files={"report": AUDIT_REPORT}),
        Case("a report after ./ is saved under its name", "audit audit.toml ./kept", 0, EQUAL,
             {"kept": AUDIT_REPORT}),
    ),
    *specials("audit", other_spelling, unwritable, unreadable),
    *table(
        "audit too long", CHECKED_FILES,
        *(Case(f"a source in {language} of one byte too many", "audit long.toml none", 7,
               f"check failed one {reason} 7 0\n", files=checked(language, "long", "empty"))
          for language, reason in (("hex1", "hex"), ("hex2", "hex"), ("m1", "m1"))),
        Case("an artefact of one byte too many", "audit long.toml none", 7,
             "check failed one items 7 0\n", files=checked("m1", "empty", "long")),
        Case("nothing is what an empty source stands for", "audit long.toml made", 0,
             "equal one given 0\n", {"made": empty_report},
             files=checked("hex0", "empty", "empty")),
    ),
]
