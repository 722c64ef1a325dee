"""Cases that `part` and `resume` answer alike: wrong words, and faults of the recipe and inputs."""

import subprocess

from ddc_tests.cases import PLAIN, AnyCase, Case, LeftOut, Room, Setting, specials, table
from ddc_tests.folders import FOLDER, Files, Zeros
from tables.fixtures import A_TOML, LONG_NAME, MOST_INPUT, MOST_SAVE, MOST_TEXT, REPORT, replaced
from tables.pauses import at
from tables.settings import SMALL, not_root

LAID: Files = {**REPORT, "folder": FOLDER, "save": at(45)}
# The words after the command.
WORDS: list[tuple[str, str | list[str | bytes]]] = [
    ("a word too few", "a.toml save none"),
    ("a word too many", "a.toml save none 9 9"),
    ("no steps", "a.toml save none 0"),
    ("a step too many", "a.toml save none 281474976710657"),
    ("steps past 64 bits", "a.toml save none 18446744073709551617"),
    ("steps with a leading zero", "a.toml save none 09"),
    ("a sign before the steps", "a.toml save none +9"),
    ("steps in hexadecimal", "a.toml save none 0x9"),
    ("an empty word as the steps", ["a.toml", "save", "none", ""]),
    ("an empty word as the recipe", ["", "save", "none", "9"]),
    ("an empty word as the save", ["a.toml", "", "none", "9"]),
    ("an empty word as the report", ["a.toml", "save", "", "9"]),
    ("a save's name of 256 bytes", f"a.toml {LONG_NAME} none 9"),
    ("a word that is not UTF-8", ["a.toml", "save", b"\xff", "9"]),
    ("the recipe as the save", "a.toml a.toml none 9"),
    ("the recipe as the report", "a.toml save a.toml 9"),
    ("the save as the report", "a.toml save save 9"),
    ("one file for all three", "save save save 9"),
    ("words that are judged before the recipe is loaded", "none none none 9"),
    ("an input as the save", "a.toml b.bin none 9"),
    ("an input after ./ as the save", "a.toml ./b.bin none 9"),
    ("an input after ./ as the report", "a.toml save ././b.bin 9"),
    ("the recipe after ./ as the save", "a.toml ./a.toml none 9"),
    ("the save after ./ as the report", "a.toml save ./save 9"),
    ("an input as the report", "a.toml save b.bin 9"),
]


def with_source(path: str) -> Files:
    """The recipe with another path of its third input."""
    return {"other.toml": replaced(A_TOML, '"a.bin"', f'"{path}"')}


def both(name: str, words: str | list[str | bytes]) -> list[Case]:
    """Words that both commands refuse."""
    rest = words.split() if isinstance(words, str) else words
    return [Case(f"{command} with {name}", [command, *rest], 2, "usage\n")
            for command in ("part", "resume")]


def fault(
    name: str, status: int, text: str, words: str, files: Files | None = None,
    setting: Setting = PLAIN,
) -> list[Case]:
    """A fault that both commands have."""
    out = f"{text}\n" if text else ""
    return [Case(f"{name} for {command}", f"{command} {words} 9", status, out, files=files or {},
                 setting=setting) for command in ("part", "resume")]


def unreadable(room: Room) -> None:
    """A save that may not be read."""
    not_root()
    room.lay({**LAID, "locked": b"", **with_source("away")})
    (room.folder / "locked").chmod(0)
    room.answers("resume other.toml locked report 9", 11, "shelf fault locked\n")


def full_disk(room: Room) -> None:
    """A piece that cannot be saved on a full disk leaves the save before it."""
    disk = room.folder / "disk"
    files: Files = {**REPORT, "at9": at(9)}
    room.lay({**files, "disk": FOLDER})
    mount = ["mount", "-t", "tmpfs", "-o", "size=1m", "none", str(disk)]
    try:
        if subprocess.run(mount, capture_output=True, check=False).returncode:
            raise LeftOut
    except FileNotFoundError:
        raise LeftOut from None
    try:
        room.lay({"disk/save": at(9)})
        subprocess.run(["bash", "-c", "cat /dev/zero >disk/other"], cwd=room.folder,
                       capture_output=True, check=False)
        fills = (disk / "other").read_bytes()
        full: Files = {**files, "disk/save": at(9), "disk/other": fills}
        path = str(disk)
        room.answers(["resume", "a.toml", f"{path}/save", "none", "9"], 11,
                     f"shelf fault {path}/save\n")
        room.holds(full)
        room.answers(["part", "a.toml", f"{path}/new", "none", "9"], 11,
                     f"shelf fault {path}/new\n")
        room.holds(full)
        room.answers(["resume", "a.toml", f"{path}/save", f"{path}/report", "64"], 11,
                     f"shelf fault {path}/report\n")
        room.holds(full)
        (disk / "other").unlink()
        room.answers(["resume", "a.toml", f"{path}/save", "none", "9"], 8, "paused one 18\n")
        room.holds({**files, "disk/save": at(18)})
        room.answers(["resume", "a.toml", f"{path}/save", "report", "64"], 0, "equal two bin 3\n")
        room.holds({**files, "disk/save": at(18), "report": REPORT["a.report"]})
    finally:
        subprocess.run(["umount", str(disk)], check=True)


LARGE: Files = {"large": Zeros(MOST_INPUT + 1), **with_source("large")}
LARGEST: Files = {"large": Zeros(MOST_INPUT), **with_source("large")}
CASES: list[AnyCase] = [
    *table("part words", LAID, *(case for name, words in WORDS for case in both(name, words))),
    *table(
        "part loads", LAID,
        *fault("a recipe that is not there", 10, "file refused away absent", "away save none"),
        *fault("a recipe that is not there, before a folder as the save", 10,
               "file refused away absent", "away folder folder/none"),
        *fault("a recipe of one byte too many", 10, "file refused long.toml too long",
               "long.toml save none", {"long.toml": Zeros(MOST_TEXT + 1)}),
        *fault("a folder as the recipe", 11, "shelf fault folder", "folder save none"),
        *fault("a path through a file to the recipe", 11, "shelf fault copy.elf/a",
               "copy.elf/a save none"),
        *fault("a file that is no recipe", 4, "recipe refused 1", "copy.elf save none"),
        *fault("a recipe that cannot be read", 11, "shelf fault /proc/self/mem",
               "/proc/self/mem save none"),
        *fault("an input that is not there, before the save is judged", 10,
               "file refused away absent", "other.toml save none", with_source("away")),
        *fault("a folder as an input", 11, "shelf fault folder", "other.toml save none",
               with_source("folder")),
        *fault("a path through a file to an input", 11, "shelf fault copy.elf/a",
               "other.toml save none", with_source("copy.elf/a")),
        *fault("an input of one byte too many, which is not kept", 10,
               "file refused large too long", "other.toml save none", LARGE, SMALL),
        *fault("an input as large as may be, for which there is no memory", 13, "",
               "other.toml save none", LARGEST, SMALL),
    ),
    # The save is loaded after the recipe and before the inputs.
    *table(
        "resume loads", {**LAID, **with_source("away")},
        Case("a save that is not there", "resume other.toml none report 9", 10,
             "file refused none absent\n"),
        Case("a save below a folder that is not there", "resume other.toml none/a report 9", 10,
             "file refused none/a absent\n"),
        Case("a folder as the save", "resume other.toml folder report 9", 11,
             "shelf fault folder\n"),
        Case("a path through a file to the save", "resume other.toml copy.elf/a report 9", 11,
             "shelf fault copy.elf/a\n"),
        Case("a save that cannot be read", "resume other.toml /proc/self/mem report 9", 11,
             "shelf fault /proc/self/mem\n"),
        Case("a save of one byte too many, which is not kept", "resume other.toml large report 9",
             10, "file refused large too long\n", setting=SMALL,
             files={"large": Zeros(MOST_SAVE + 1)}),
        Case("a save as large as may be, for which there is no memory",
             "resume other.toml large report 9", 13, setting=SMALL,
             files={"large": Zeros(MOST_SAVE)}),
    ),
    *specials("part", unreadable, full_disk),
]
