"""Cases of `show`, and the C programs of tests/programs under `run`."""

import functools
import os
import re

from ddc_tests.c_programs import PROGRAMS, program_cases
from ddc_tests.cases import AnyCase, Case, Room, specials, table
from ddc_tests.folders import FOLDER, Files, Zeros
from tables.fixtures import A_REPORT, LONG_NAME, MOST_REPORT, REPORT_FOLDER, WORKED, edited
from tables.settings import CLOSED, FULL, SMALL, not_root

SHOWN: Files = {"a.report": A_REPORT, "folder": FOLDER, "worked": WORKED, "empty": b""}
LINES = A_REPORT.splitlines(keepends=True)


def other_digest() -> str:
    """The report with an `a` in the place of the fifth digit of its twelfth line."""
    line = LINES[11]
    at = [found.start() for found in re.finditer("[0-9]", line)][4]
    return "".join([*LINES[:11], line[:at] + "a" + line[at + 1 :], *LINES[12:]])


def unreadable(room: Room) -> None:
    """A report that may not be read."""
    not_root()
    room.lay({"locked": b""})
    (room.folder / "locked").chmod(0)
    room.answers("show locked", 11, "shelf fault locked\n")


def by_path(room: Room) -> None:
    """A report is printed back by its whole path."""
    room.answers(["show", str(REPORT_FOLDER / "a.report")], 0, A_REPORT)


@functools.cache
def expected() -> dict[str, list[str]]:
    """The lines of each C program's case, as qemu-riscv64 gave them."""
    text = (PROGRAMS / "expected.txt").read_text()
    blocks: dict[str, list[str]] = {}
    for block in re.split("^== ", text, flags=re.MULTILINE)[1:]:
        name, *lines = block.splitlines()
        blocks[name] = [it for it in lines if it and not it.startswith("    ")]
    return blocks


def program(name: bytes, file: bytes, words: list[bytes]) -> Case:
    """A C program leaves what qemu-riscv64 left."""
    lines = expected()[name.decode()]
    path = os.fsencode(PROGRAMS / file.decode()) + b".elf"
    status = 0 if lines[0].startswith("exited 0 ") else 6
    out = "".join(f"{it}\n" for it in lines)
    return Case(name.decode(), ["run", path, "1000000000", *words], status, out)


def every_case(room: Room) -> None:
    """Every case of the table of C programs is called, and no other."""
    names = [it[0].decode() for it in program_cases()]
    room.equal("the names", sorted(names), sorted(expected()))


def step_too_few(room: Room) -> None:
    """A long run with a step too few."""
    first = expected()["sha256: pages"][0].split()
    assert first[:3] == ["exited", "0", "step"], first
    steps = int(first[3]) - 1
    room.answers(["run", str(PROGRAMS / "sha256.elf"), str(steps), *"fill a 3000 a".split()], 6,
                 f"failed spent step {steps}\n")


CASES: list[AnyCase] = [
    *table(
        "show", SHOWN,
        Case("a report is printed back", "show a.report", 0, A_REPORT),
        Case("a leading zero", "show b.report", 5, "report line 7\n",
             files={"b.report": edited(A_REPORT, "^stage one 32$", "stage one 032")}),
        Case("CR LF", "show b.report", 5, "report line 1\n",
             files={"b.report": A_REPORT.replace("\n", "\r\n")}),
        Case("no last line", "show b.report", 5, "report line 22\n",
             files={"b.report": "".join(LINES[:-1])}),
        Case("another digest", "show b.report", 0, other_digest(),
             files={"b.report": other_digest()}),
        Case("an empty line more", "show b.report", 5, "report line 23\n",
             files={"b.report": A_REPORT + "\n"}),
        Case("no last LF", "show b.report", 5, "report line 22\n",
             files={"b.report": A_REPORT[:-1]}),
        Case("an empty file", "show empty", 5, "report line 1\n"),
        Case("a report that is not there", "show none", 10, "file refused none absent\n"),
        Case("no report named", "show", 2, "usage\n"),
        Case("a word after the report", "show a.report more", 2, "usage\n"),
        Case("a folder", "show folder", 11, "shelf fault folder\n"),
        Case("a path through a file", "show worked/a", 11, "shelf fault worked/a\n"),
        Case("a name of 256 bytes", f"show {LONG_NAME}", 2, "usage\n"),
        Case("a report that cannot be read", "show /proc/self/mem", 11,
             "shelf fault /proc/self/mem\n"),
        Case("a report of one byte too many, which is not kept", "show large", 10,
             "file refused large too long\n", setting=SMALL,
             files={"large": Zeros(MOST_REPORT + 1)}),
        Case("a report as large as may be, for which there is no memory", "show large", 13,
             setting=SMALL, files={"large": Zeros(MOST_REPORT)}),
        Case("the output is closed", "show a.report", 12, setting=CLOSED),
        Case("the output is full", "show a.report", 12, setting=FULL),
    ),
    *specials("show", unreadable, by_path),
    *table("programs", {}, *(program(it[0], it[1], it[2:]) for it in program_cases())),
    *specials("programs", every_case, step_too_few),
]
