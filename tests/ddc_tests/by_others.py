"""What checks of an example by other programs than ddc share. The first that is wrong ends them."""

import os
import re
import resource
import subprocess
import sys
from collections.abc import Sequence
from pathlib import Path
from typing import NoReturn

from ddc_tests.checks import Done, Word, ran
from ddc_tests.program import BUILT, TOP
from ddc_tests.steps import Wrong, need

PASSWORDS = ("a long password", "open sesame", "another")
TRUE, TRUSTING = "welcome refused refused", "welcome welcome refused"
MAKE_REPORT = TOP / "tests/tinycc/make-report"


def fail(text: str) -> NoReturn:
    """Ends the test, which is wrong in this."""
    raise Wrong(text)


def tell(text: str) -> None:
    """Prints what was seen, at once."""
    print(text, flush=True)


def built() -> Path | None:
    """The program that DDC names, or the one that was built here, where there is one."""
    found = Path(os.environ.get("DDC", BUILT)).absolute()
    return found if os.access(found, os.X_OK) else None


def call(words: Sequence[Word], folder: Path) -> None:
    """Runs a command that has to end well, and shows what it prints."""
    sys.stdout.flush()
    status = subprocess.run(list(words), cwd=folder, check=False).returncode
    need(status == 0, f"{words[0]}: status {status}")


def printed(words: Sequence[Word], folder: Path) -> str:
    """What a command that has to end well prints."""
    done = ran(words, folder)
    need(done.status == 0, f"{words[0]}: status {done.status}, {done.text}")
    return done.out.decode().strip()


def said(words: Sequence[Word], status: int, text: str, folder: Path) -> str:
    """A call of a program that has to end so and print exactly this: the seconds of the processor
    that it takes."""
    before = resource.getrusage(resource.RUSAGE_CHILDREN).ru_utime
    done: Done = ran(words, folder)
    seconds = resource.getrusage(resource.RUSAGE_CHILDREN).ru_utime - before
    named = " ".join(map(str, words[1:]))
    need(done.status == status, f"{named}: status {done.status}, {done.text}")
    need(done.text.rstrip("\n") == text, f"{named}: {done.text}")
    return f"{seconds:.3f} s"


def report_without_ddc(recipe: Path, status: int) -> str:
    """The report of a recipe by qemu-riscv64 and sha256sum, whose comparison has to end so."""
    done = ran([MAKE_REPORT, recipe.name], recipe.parent)
    need(done.status == status, f"{recipe.name}: status {done.status}, {done.errors.decode()}")
    return done.out.decode()


def lines_of(report: str, *words: str) -> list[str]:
    """The lines of a report that begin with one of these words."""
    return [line for line in report.splitlines() if line.split(" ", 1)[0] in words]


def answer_of(report: str) -> str:
    """What `audit` prints of the comparisons that a report has."""
    rows = [line.split(" ") for line in lines_of(report, "compare")]
    return "\n".join(" ".join([word, stage, binary, *rest])
                     for _, stage, binary, word, *rest in rows)


def audited(
    program: Path, recipe: Path, report: str, wanted: tuple[int, str], room: Path
) -> tuple[str, str]:
    """ddc makes this report, and says that it is true, with the wanted status, and what is wanted
    to be assumed: the seconds of the processor that both calls take."""
    status, assumed = wanted
    answer, ours = answer_of(report), room / "audited.report"
    audit = said([program, "audit", recipe.name, ours], status, answer, recipe.parent)
    need(ours.read_text() == report, f"{recipe.name}: audit saves another report")
    yes = "" if status else "yes\n"
    whole = f"{yes}{answer}\n{assumed}"
    return audit, said([program, "verify", recipe.name, ours], status, whole, recipe.parent)


def login(words: Sequence[Word], folder: Path) -> str:
    """What a login program says to the password, to the second one and to a wrong one."""
    return " ".join(ran([*words, it], folder).out.decode().strip() for it in PASSWORDS)


def parts_of_cc() -> list[str]:
    """The parts that cc.c names, in its order."""
    text = (TOP / "examples/compiler/cc.c").read_text()
    return re.findall(r'^#include "(.*)"$', text, re.MULTILINE)
