"""Cases of `kaem-verify` over altered reports, and of `kaem-left`."""

from ddc_tests.cases import AnyCase, Case, Room, specials, table
from ddc_tests.contents import mark
from ddc_tests.folders import FOLDER, Files
from tables.fixtures import A_REPORT, FAILS, REPORT, NotThere
from tables.scripts import WORKED, WORKED_FILES, WORKED_REPORT
from tables.settings import CLOSED

LINES = WORKED_REPORT.splitlines(keepends=True)


def with_line(number: int, old: str, new: str) -> str:
    """The worked report with another text at its first place in a line."""
    if old not in LINES[number - 1]:
        raise NotThere(old)
    line = LINES[number - 1].replace(old, new, 1)
    return "".join([*LINES[: number - 1], line, *LINES[number:]])


def without(first: int, last: int | None = None) -> str:
    """The worked report without a line, or without lines up to one."""
    return "".join([*LINES[: first - 1], *LINES[last or first :]])


def two_edits() -> str:
    """The worked report with another digest of a stream, and another number of steps."""
    lines = with_line(7, "b855", "b856").splitlines(keepends=True)
    if "32" not in lines[7]:
        raise NotThere("32")
    return "".join([*lines[:7], lines[7].replace("32", "31", 1), *lines[8:]])


ONE_MORE = f"command 1\nstream 1 {mark(b'')}\nstream 2 {mark(b'')}\n"
# An edit's name, the edited report, the status and the text.
EDITS: list[tuple[str, str, int, str]] = [
    ("digest of the script", with_line(2, "5b54", "5b55"), 1, "refuted header 0"),
    ("length of a file", with_line(3, "232", "231"), 1, "refuted file 1"),
    ("digest of a file", with_line(3, "0b026", "0b027"), 1, "refuted file 1"),
    ("name of a file", with_line(3, "636f", "646f"), 1, "refuted file 1"),
    ("name of the other file", with_line(4, "696e", "696f"), 1, "refuted file 2"),
    ("a file left out", without(4), 1, "refuted file 2"),
    ("a file twice", "".join([*LINES[:4], *LINES[3:]]), 1, "refuted file 3"),
    ("a step too few", with_line(5, "32", "31"), 1, "refuted run 1"),
    ("a step too many", with_line(5, "32", "33"), 1, "refuted run 1"),
    ("as many steps as may be", with_line(8, "32", "281474976710656"), 1, "refuted run 2"),
    ("length of a stream", with_line(6, " 0 ", " 1 "), 1, "refuted streams 1"),
    ("digest of a stream, and the steps after it", two_edits(), 1, "refuted streams 1"),
    ("length of the last stream", with_line(10, " 0 ", " 1 "), 1, "refuted streams 2"),
    ("a command left out", without(8, 10), 1, "refuted run 2"),
    ("a command too many", "".join([*LINES[:10], ONE_MORE, *LINES[10:]]), 1, "refuted run 3"),
    ("length of a file that is left", with_line(11, "232", "233"), 1, "refuted left 0"),
    ("a file that is left, left out", without(13), 1, "refuted left 0"),
    ("name of a file that is left", with_line(13, "6f7574", "6f7575"), 1, "refuted left 0"),
    ("a leading zero", with_line(5, "32", "032"), 5, "report line 5"),
    ("no line of a command", without(5), 5, "report line 5"),
    ("CR LF", WORKED_REPORT.replace("\n", "\r\n"), 5, "report line 1"),
    ("no last line", without(14), 5, "report line 14"),
    ("an empty line more", WORKED_REPORT + "\n", 5, "report line 15"),
    ("nothing", WORKED_REPORT, 0, "yes 2"),
]
# fails.elf writes three bytes of its own to its standard error, and exits with 12.
SCRIPT, LIST = "./copy.elf\nfails.elf\nout\n", "copy.elf\nin\nfails.elf\n"
FAILED: Files = {
    "copy.elf": REPORT["copy.elf"], "in": REPORT["copy.elf"], "fails.elf": FAILS, "empty": b"",
    "s": SCRIPT, "l": LIST, "quote": '"', "folder": FOLDER,
}
STATUS_12 = "status 12 step 9\n"
WRONG = (
    "", "s l 99 2 2", "s l 99 2 2 none none", "s l 99 0 2 none", "s l 99 02 2 none",
    "s l 99 4 2 none", "s l 99 4097 2 none", "s l 0 2 2 none", "s l 99 2 ./ none", "s l 99 2 2 l",
    "s l 99 2 2 ./s", "s s 99 2 2 none", "s l 99 2 2 fails.elf", "s l 99 2 2 ././in",
    "s none 99 4 2 none",
)


def left(name: str, words: str, text: str, content: bytes | str, status: int = 0) -> Case:
    """What a command left, and the bytes that are saved of it."""
    kept = (REPORT[content] if content == "copy.elf" else content)
    return Case(name, f"kaem-left s l {words} kept", status, f"left {text}", {"kept": kept})


def whole_paths(room: Room) -> None:
    """Paths from the root."""
    room.lay(WORKED_FILES)
    paths = [str(room.folder / it) for it in ("s", "l", "worked.report")]
    room.answers(["kaem-verify", *paths], 0, "yes 2\n")
    room.holds(WORKED_FILES)


CASES: list[AnyCase] = [
    *specials("kaem-verify", whole_paths),
    *table(
        "kaem-verify", WORKED_FILES,
        *(Case(f"an edit: {name}", "kaem-verify s l edited", status, f"{text}\n",
               files={"edited": report}) for name, report, status, text in EDITS),
        Case("a report of a recipe", "kaem-verify s l a.report", 5, "report line 1\n",
             files={"a.report": A_REPORT}),
        Case("a report of a script is none of a recipe", "show worked.report", 5,
             "report line 1\n"),
        Case("another order", "kaem-verify s l worked.report", 1, "refuted file 1\n",
             files={"l": "in\ncopy.elf\n"}),
        Case("a comment more", "kaem-verify s l worked.report", 1, "refuted header 0\n",
             files={"s": WORKED + "# more\n"}),
        Case("another file", "kaem-verify s l worked.report", 1, "refuted file 2\n",
             files={"in": b"abc"}),
    ),
    *table(
        "kaem-left", FAILED,
        Case("a script that fails", "kaem s l none 99", 6, f"run failed 2 {STATUS_12}"),
        left("what its command said", "99 2 2", f"2 2 3 {STATUS_12}", b"ELF"),
        left("its other stream is empty", "99 2 1", f"2 1 0 {STATUS_12}", b""),
        left("a file of the command before is the copy", "99 2 ./out", f"2 ./out 232 {STATUS_12}",
             "copy.elf"),
        left("what the command before said", "99 1 2", "1 2 0 status 0 step 32\n", b""),
        left("what stands at the limit of a command", "31 1 out", "1 out 232 spent step 31\n",
             "copy.elf", 6),
        Case("a file that a command did not leave", "kaem-left s l 99 2 made none", 10,
             f"not left 2 made {STATUS_12}"),
        Case("none before its limit", "kaem-left s l 10 1 out none", 6,
             "not left 1 out spent step 10\n"),
        Case("a command behind one that failed", "kaem-left s l 99 3 2 none", 6,
             f"run failed 2 {STATUS_12}"),
        Case("a command behind one without steps", "kaem-left s l 31 2 2 none", 6,
             "run failed 1 spent step 31\n"),
        Case("a command whose program is not listed", "kaem-left s empty 99 1 1 none", 6,
             "run failed 1 no-program step 0\n"),
        *(Case(f"kaem-left {it}", f"kaem-left {it}", 2, "usage\n") for it in WRONG),
        Case("a name whose line would be two",
             ["kaem-left", "s", "l", "99", "2", "out\nleft", "none"], 2, "usage\n"),
        Case("a script that is none", "kaem-left quote none 99 1 1 made", 15,
             "script refused 1 0\n"),
        Case("a list that is none", "kaem-left s in 99 1 1 none", 16, "list refused 1\n"),
        Case("a list that is not there", "kaem-left s none 99 1 1 made", 10,
             "file refused none absent\n"),
        Case("a folder for what a command left", "kaem-left s l 99 2 2 folder", 11,
             "shelf fault folder\n"),
        Case("the output is closed: what was left is saved", "kaem-left s l 99 2 2 none", 12,
             after={"none": b"ELF"}, setting=CLOSED),
    ),
]
