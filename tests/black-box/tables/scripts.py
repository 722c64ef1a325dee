"""Cases of `kaem`: scripts over listed files, those that are none, and those at their limits."""

import functools
import re
from collections.abc import Sequence

from ddc_tests.cases import PLAIN, TOP, AnyCase, Case, Room, Setting, specials, table
from ddc_tests.contents import digest, mark
from ddc_tests.folders import FOLDER, Files, Zeros
from tables.fixtures import (
    CALL, EXIT, ILLEGAL, LONG_NAME, LONGEST_NAME, MOST_INPUT, MOST_STEPS, MOST_TEXT, REPORT, SEVEN,
)
from tables.settings import CLOSED, FULL, SHORT, SMALL

PAGE = (TOP / "docs" / "reference" / "kaem-report.md").read_text()
FOUND = re.search("^    kaem-report 1\n(    .*\n)*?    end\n", PAGE, re.MULTILINE)
WORKED_REPORT = re.sub("^    ", "", FOUND[0] if FOUND else "", flags=re.MULTILINE)
WORKED = './copy.elf\n# made\n"out" x\n'
LISTED = "copy.elf\nin\nexit.elf\nseven.elf\nillegal.elf\ncall.elf\nempty\n"
TWO = "copy.elf\nin\n"
FILES: Files = {
    "copy.elf": REPORT["copy.elf"], "in": REPORT["copy.elf"], "exit.elf": EXIT,
    "seven.elf": SEVEN, "illegal.elf": ILLEGAL, "call.elf": CALL, "empty": b"",
    "sub/exit.elf": EXIT, "folder": FOLDER,
}
WORKED_FILES: Files = {**FILES, "s": WORKED, "l": TWO, "worked.report": WORKED_REPORT}


def refused(
    name: str, status: int, text: str, script: str, listed: str = LISTED, each: str = "100"
) -> Case:
    """A script that is not done: all files are as before."""
    return Case(name, f"kaem s l report {each}", status, f"{text}\n",
                files={"s": script, "l": listed})


def worked_script(room: Room) -> None:
    """A script that runs what it made: its report, which is true."""
    files: Files = {**FILES, "s": WORKED, "l": TWO}
    room.lay(files)
    room.answers("kaem s l report 100", 0, "done 2 steps 64\n")
    room.holds({**files, "report": WORKED_REPORT})
    room.answers("kaem-verify s l report", 0, "yes 2\n")
    room.holds({**files, "report": WORKED_REPORT})


def done(
    room: Room, script: str, listed: str, text: str, each: str = "100", true: str = ""
) -> None:
    """A script is done and leaves nothing but a report, which is true."""
    files: Files = {**FILES, "s": script, "l": listed}
    room.lay(files)
    room.answers(f"kaem s l report {each}", 0, f"{text}\n")
    report = (room.folder / "report").read_bytes()
    room.holds({**files, "report": report})
    commands = text.split()[1]
    room.equal("the first lines", report.decode().splitlines()[:2],
               ["kaem-report 1", f"script {digest(script.encode())}"])
    if true:
        room.answers("kaem-verify s l report", 0, f"yes {commands}\n")


def done_case(
    name: str, text: str, script: str, listed: str = LISTED, each: str = "100", true: str = "yes"
) -> list[AnyCase]:
    """A script that is done, as a case."""

    def doing(room: Room) -> None:
        """Runs the script."""
        done(room, script, listed, text, each, true)

    doing.__doc__ = name
    return specials("kaem", doing)


def empty_report(room: Room) -> None:
    """The report of nothing at all has three lines."""
    script = "# a\n\t \r\n"
    room.lay({"s": script, "l": ""})
    room.answers("kaem s l report 100", 0, "done 0 steps 0\n")
    wanted = f"kaem-report 1\nscript {digest(script.encode())}\nend\n"
    room.holds({"s": script, "l": "", "report": wanted})


def many_files(room: Room) -> None:
    """4,096 listed files, and one more, which is refused for a replay too."""
    names = [str(number) for number in range(1, 4098)]
    empty: Files = dict.fromkeys(names, b"")
    room.lay({**empty, "s": "", "l": "\n".join(names[:-1]) + "\n"})
    room.answers("kaem s l report 9", 0, "done 0 steps 0\n")
    room.answers("kaem-verify s l report", 0, "yes 0\n")
    report = (room.folder / "report").read_bytes()
    room.lay({"l": "\n".join(names) + "\n"})
    room.answers("kaem s l new 9", 16, "list refused 4097\n")
    room.answers("kaem-verify s l report", 16, "list refused 4097\n")
    room.holds({**empty, "s": "", "l": "\n".join(names) + "\n", "report": report})


LARGE: Files = {
    "more": Zeros(MOST_INPUT + 1), "one": Zeros(MOST_INPUT), "two": Zeros(MOST_INPUT), "none": b"",
    "byte": b"x", "s": "",
}


LARGEST: Files = {**LARGE, "l": "one\ntwo\nnone\n"}


@functools.cache
def largest_report() -> bytes:
    """The report of no command over LARGEST: what is listed, in its order, and is left by name."""
    marks = {it: mark(bytes(MOST_INPUT)) for it in ("one", "two")}
    marks["none"] = mark(b"")
    listed = [f"file {it.encode().hex()} {marks[it]}\n" for it in marks]
    left = [f"left {it.encode().hex()} {marks[it]}\n" for it in sorted(marks)]
    script = f"script {digest(b'')}\n"
    return "".join(["kaem-report 1\n", script, *listed, *left, "end\n"]).encode()


def largest(room: Room) -> None:
    """Two files as large as may be, as many as may be in all."""
    room.lay(LARGEST)
    room.answers("kaem s l report 9", 0, "done 0 steps 0\n")
    room.holds({**LARGEST, "report": largest_report})


def largest_is_true(room: Room) -> None:
    """The report of as many files as may be in all, which is true; and a byte more."""
    room.lay({**LARGEST, "longer": "one\ntwo\nnone\nbyte\n", "report": largest_report})
    room.answers("kaem-verify s l report", 0, "yes 0\n")
    room.answers("kaem-verify s longer report", 10, "file refused byte too long\n")


def too_large(name: str, file: str, listed: str) -> Case:
    """Files of which one is too long, alone or with those before it."""
    return Case(name, "kaem s l report 9", 10, f"file refused {file} too long\n",
                files={"l": listed})


def words(command: str, *texts: str) -> list[Case]:
    """Words that a command refuses."""
    return [Case(f"{command} {it}", f"{command} {it}", 2, "usage\n") for it in texts]


def report_case(
    name: str, call: str | Sequence[str | bytes], status: int, text: str = "",
    setting: Setting = PLAIN, after: Files | None = None, **changed: str,
) -> Case:
    """A call beside the worked script and list, of which some may be changed."""
    return Case(name, call, status, f"{text}\n" if text else "", after or {}, setting, changed)


CASES: list[AnyCase] = [
    *specials("kaem", worked_script, empty_report, many_files),
    *specials("kaem", largest, largest_is_true, is_long=True),
    *done_case("as many steps as may be", "done 2 steps 64", WORKED, each=MOST_STEPS),
    *done_case("so many steps for each command", "done 2 steps 64", WORKED, each="32"),
    *done_case("a program below a folder", "done 2 steps 6", 'sub/exit.elf\n./sub/exit.elf ""',
               "./sub/exit.elf\n"),
    *done_case("no command: its report is true", "done 0 steps 0", ""),
    *done_case("a script and a list that are listed", "done 1 steps 3", "exit.elf",
               "s\nl\nexit.elf\n"),
    *done_case("a command of 64 words", "done 1 steps 3", "exit.elf " * 64 + "# more"),
    *done_case("4,096 commands: their report is true", "done 4096 steps 12288",
               "exit.elf\n" * 4096),
    *table(
        "kaem", FILES,
        refused("a step too few", 6, "run failed 1 spent step 31", WORKED, each="31"),
        refused("a command before that", 6, "run failed 2 spent step 100",
                "exit.elf\n./copy.elf", "exit.elf\ncopy.elf\n"),
        refused("a name that no file has", 6, "run failed 1 no-program step 0", "out\n"),
        refused("a name that no file has any more", 6, "run failed 3 no-program step 0",
                "copy.elf\nout\nouter\n"),
        refused("a program that is not listed", 6, "run failed 1 no-program step 0", "exit.elf",
                ""),
        refused("a file that is no program", 6, "run failed 1 start elf 1 step 0", "empty a"),
        refused("a command that exits with 7", 6, "run failed 2 status 7 step 3",
                "exit.elf\nseven.elf\nout\n"),
        refused("an illegal word in a command", 6, "run failed 1 trap illegal 00000000 step 1",
                "./illegal.elf"),
        refused("an unknown call of a command", 6, "run failed 1 call 0 step 3",
                '"call.elf" a b'),
        refused("a quote without its end", 15, "script refused 1 0", '"a\n'),
        refused("a variable", 15, "script refused 2 2", "a $b\n"),
        refused("a line that goes on", 15, "script refused 2 9", "exit.elf \\\na\n"),
        refused("a word after a quote", 15, "script refused 2 2", 'a "b"c\n'),
        refused("a zero byte", 15, "script refused 2 2", "a b\0\n"),
        refused("a program without a name", 15, "script refused 2 2", "a\n./\n"),
        refused("a word of 255 bytes", 6, "run failed 1 no-program step 0", LONGEST_NAME),
        refused("a word of 256 bytes", 15, "script refused 3 0", LONG_NAME),
        refused("a command of 65 words", 15, "script refused 4 576", "exit.elf " * 64 + "a"),
        refused("4,097 commands", 15, "script refused 5 36864", "exit.elf\n" * 4097),
        refused("a file that is listed twice", 16, "list refused 2", "exit.elf", "in\n./in\n"),
        refused("a line of the list that is not ended", 16, "list refused 2", "exit.elf",
                "exit.elf\nin"),
        refused("an empty line of the list", 16, "list refused 1", "exit.elf", "\nexit.elf\n"),
        refused("two words", 16, "list refused 1", "exit.elf", "exit.elf in\n"),
        refused("a carriage return", 16, "list refused 1", "exit.elf", "exit.elf\r\n"),
        refused("a byte above 7E", 16, "list refused 2", "exit.elf", "exit.elf\n\x7f\n"),
        refused("nothing but ./", 16, "list refused 2", "exit.elf", "in\n././\nexit.elf\n"),
        refused("a listed name of 255 bytes", 10, f"file refused {LONGEST_NAME} absent",
                "exit.elf", f"{LONGEST_NAME}\n"),
        refused("a listed name of 256 bytes", 16, "list refused 1", "exit.elf", f"{LONG_NAME}\n"),
        refused("a listed file that is not there", 10, "file refused none absent", "exit.elf",
                "exit.elf\nnone\nalso\n"),
        refused("a folder that is listed", 11, "shelf fault folder", "exit.elf",
                "exit.elf\nfolder\n"),
        refused("the report is listed", 2, "usage", "exit.elf", "exit.elf\nreport\n"),
        refused("the report is listed by another word", 2, "usage", "exit.elf",
                "exit.elf\n././report\nnone\n"),
    ),
    *table(
        "kaem limits", {**FILES, "s": "exit.elf", "l": LISTED, "long": Zeros(MOST_TEXT + 1)},
        Case("a script as long as may be", "kaem long l report 9", 15, "script refused 2 0\n",
             files={"long": Zeros(MOST_TEXT)}),
        Case("a list as long as may be", "kaem s long report 9", 16, "list refused 1\n",
             files={"long": Zeros(MOST_TEXT)}),
        Case("a script of one byte too many", "kaem long l report 9", 10,
             "file refused long too long\n"),
        Case("a list of one byte too many", "kaem s long report 9", 10,
             "file refused long too long\n"),
        Case("so for a replay", "kaem-verify s long report", 10, "file refused long too long\n"),
    ),
    *table(
        "kaem large", LARGE,
        too_large("a byte more in all", "byte", "one\ntwo\nnone\nbyte\n"),
        too_large("a byte more, in their order", "two", "byte\none\ntwo\n"),
        too_large("a byte more in one", "more", "none\nmore\n"),
        Case("files for which there is no memory", "kaem s l report 9", 13, setting=SMALL,
             files={"l": "one\ntwo\nnone\n"}),
    ),
    *table(
        "kaem words", WORKED_FILES,
        *words("kaem", "", "s", "s l", "s l report", "s l report 9 9", "s l report 0",
               "s l report 09", f"s l report {2**48 + 1}", "s s report 9", "s l ./s 9", "s l l 9",
               "./s ././s report 9"),
        *words("kaem-verify", "", "s l", "s l report 9", "s s report", "s l ./s", "s ./l l"),
        report_case("no word for the report", ["kaem", "s", "l", "", "9"], 2, "usage"),
        report_case("a word for a script that is too long", f"kaem {LONG_NAME} l report 9", 2,
                    "usage"),
        report_case("a script that is not there", "kaem none also report 9", 10,
                    "file refused none absent"),
        report_case("a folder as a script", "kaem folder none report 9", 11, "shelf fault folder"),
        report_case("the script is judged before the list", "kaem s none report 9", 15,
                    "script refused 1 0", s='"'),
        report_case("a script through a file", "kaem s/s none report 9", 11, "shelf fault s/s"),
        report_case("a list that is not there", "kaem s none report 9", 10,
                    "file refused none absent"),
        report_case("a folder as a list", "kaem s folder report 9", 11, "shelf fault folder"),
        report_case("a folder to save a report under", "kaem s l folder 99", 11,
                    "shelf fault folder"),
        report_case("a folder that is not there to save in", "kaem s l none/report 99", 11,
                    "shelf fault none/report"),
        report_case("a report that is longer than a file may be", "kaem s l report 99", 11,
                    "shelf fault report", SHORT, s="exit.elf\n" * 20, l="exit.elf\n",
                    report="kept"),
        report_case("the output is closed: its report is saved", "kaem s l report 99", 12, "",
                    CLOSED, {"report": WORKED_REPORT}),
        report_case("a full device to save a report to", "kaem s l /dev/full 99", 11,
                    "shelf fault /dev/full"),
        report_case("a save over a report", "kaem ./s ./l ./report 99", 0, "done 2 steps 64",
                    after={"report": WORKED_REPORT}, report="kept"),
        report_case("the list is judged before its words", "kaem-verify s l report", 16,
                    "list refused 2", l="report\n\n"),
        report_case("its words are judged before the report", "kaem-verify s l report", 2, "usage",
                    l="none\nreport\n"),
        report_case("the report is loaded before the files", "kaem-verify s l report", 10,
                    "file refused report absent", l="none\n"),
        report_case("and read", "kaem-verify s l in", 5, "report line 1", l="none\n"),
        report_case("a folder as a report to judge", "kaem-verify s l folder", 11,
                    "shelf fault folder", l="none\n"),
        report_case("the output fails after a replay", "kaem-verify s l worked.report", 12, "",
                    FULL),
    ),
]
