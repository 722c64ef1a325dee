"""Cases of `chain`: k.toml shows that the copier is a program of its source, b.toml assumes it."""

import functools
from collections.abc import Callable

from ddc_tests.cases import AnyCase, Case, Room, made, specials, table
from ddc_tests.folders import FOLDER, Files, Zeros
from tables.fixtures import (
    A_TOML, LONG_NAME, LONGEST_NAME, MOST_INPUT, MOST_TEXT, REPORT, REPORT_FOLDER,
    replaced,
)
from tables.settings import CLOSED, FULL, SMALL

BEFORE, COMPARE = A_TOML.split("[compare]")
K_TOML = replaced(BEFORE, '"b.bin"', '"copy.elf"') + "[compare]" + replaced(
    COMPARE, 'stage = "two"', 'stage = "one"')
IMPLEMENTS = 'path = "copy.elf"\nimplements = "copy_src"'
B_TOML = replaced(replaced(A_TOML, 'path = "copy.elf"', IMPLEMENTS, 1), 'program = "one"',
                  'program = "prog"')
BASE_TOML = replaced(B_TOML, 'lang = "hex0"', 'lang = "hex0"\nbase = 0')
RECIPES: Files = {**REPORT, "k.toml": K_TOML, "b.toml": B_TOML, "base.toml": BASE_TOML}


@functools.cache
def report(name: str) -> Callable[[], bytes]:
    """The report of a recipe, which the program makes."""
    return made(RECIPES, f"audit {name}.toml report", "report")


AUDITED: Files = {
    **RECIPES, "folder": FOLDER, **{f"{it}.rep": report(it) for it in ("k", "b", "base")},
}
IN_ORDER = "k.toml k.rep\nb.toml b.rep\n"
SIXTY_FOUR = "b.toml b.rep\n" * 64
ASSUMED = "".join(f"assumes {at} implements prog copy_src\n" for at in range(1, 65))


def chained(name: str, status: int, text: str, lines: str, **changed: bytes) -> Case:
    """`chain` over a list of these lines."""
    return Case(name, "chain list", status, text, files={"list": lines, **changed})


MORE = '[[input]]\nname = "more"\npath = "most.bin"\n[[source]]'
MOST_TOML = replaced(A_TOML, "[[source]]", MORE, 1)
REST_TOML = replaced(MOST_TOML, '"most.bin"', '"rest.bin"')
INPUTS = ("copy.elf", "copy.hex0", "a.bin", "b.bin")
USED = 4 * sum((REPORT_FOLDER / name).stat().st_size for name in INPUTS)
THREE = "most.toml most.rep\n" * 3
WITH_REST = f"{THREE}rest.toml rest.rep\n"


LARGE: Files = {
    **REPORT, "most.toml": MOST_TOML, "rest.toml": REST_TOML, "most.bin": Zeros(MOST_INPUT),
    "rest.bin": Zeros(MOST_INPUT - USED), "list": WITH_REST, "three": THREE,
    "longer": f"{WITH_REST}a.toml a.report\n",
}


@functools.cache
def large_report(name: str) -> Callable[[], bytes]:
    """The report of a recipe with a large input, which the program makes."""
    return made(LARGE, f"audit {name}.toml report", "report")


def all_together(room: Room) -> None:
    """Inputs of 1 GiB in all audits together."""
    room.lay(LARGE)
    room.answers("audit most.toml most.rep", 0, "equal two bin 3\n")
    room.answers("audit rest.toml rest.rep", 0, "equal two bin 3\n")
    room.answers("chain list", 0, "chain 4 yes\n")
    room.answers("chain three", 13, setting=SMALL)


def one_audit_more(room: Room) -> None:
    """Inputs of 1 GiB in all audits together, and an audit more."""
    room.lay({**LARGE, "most.rep": large_report("most"), "rest.rep": large_report("rest")})
    room.answers("chain longer", 10, "file refused copy.elf too long\n")


def one_byte_more(room: Room) -> None:
    """Inputs of 1 GiB in all audits together, and a byte more in the last one."""
    room.lay({**LARGE, "most.rep": large_report("most"),
              "rest.bin": Zeros(MOST_INPUT - USED + 1)})
    room.answers("audit rest.toml rest.rep", 0, "equal two bin 3\n")
    room.answers("chain list", 10, "file refused rest.bin too long\n")


def difference(room: Room) -> None:
    """A true report of a difference ends a chain with it."""
    files: Files = {**AUDITED, "b.bin": b"abd", "list": IN_ORDER}
    room.lay(files)
    room.answers("audit b.toml b.rep", 3, "differs two bin 2 3 3\n")
    after: Files = {**files, "b.rep": (room.folder / "b.rep").read_bytes()}
    room.answers("chain list", 3, "audit 2\ndiffers two bin 2 3 3\n")
    room.holds(after)


CASES: list[AnyCase] = [
    *table(
        "chain", AUDITED,
        chained("two audits, of which the first shows what the second assumes", 0,
                "chain 2 yes\n", IN_ORDER),
        chained("in the other order", 0, "chain 2 yes\nassumes 1 implements prog copy_src\n",
                "b.toml b.rep\nk.toml k.rep\n"),
        chained("another base", 0, "chain 2 yes\nassumes 2 implements prog copy_src\n",
                "k.toml k.rep\nbase.toml base.rep\n"),
        chained("one audit", 0, "chain 1 yes\nassumes 1 implements prog copy_src\n",
                "b.toml ./b.rep\n"),
        chained("no line", 16, "list refused 1\n", ""),
        chained("a line that is not ended", 16, "list refused 2\n", "k.toml k.rep\nb.toml b.rep"),
        chained("two blanks", 16, "list refused 1\n", "k.toml  k.rep\n"),
        chained("a word too many", 16, "list refused 2\n", "k.toml k.rep\nb.toml b.rep b\n"),
        chained("a byte that no word has", 16, "list refused 1\n", "k.toml\tk.rep\n"),
        chained("a name of 255 bytes", 10, f"file refused {LONGEST_NAME} absent\n",
                f"{LONGEST_NAME} k.rep\n"),
        chained("a name of 256 bytes", 16, "list refused 1\n", f"{LONG_NAME} k.rep\n"),
        chained("one file twice", 2, "usage\n", "k.toml ././k.toml\n"),
        chained("a report that is an input", 2, "usage\n", "k.toml k.rep\nb.toml ./a.bin\n"),
        chained("the other report", 1, "audit 2\nrefuted header 0\n",
                "k.toml k.rep\nb.toml k.rep\n"),
        chained("no recipe", 4, "audit 2\nrecipe refused 1\n", "k.toml k.rep\nk.rep b.rep\n"),
        chained("no report", 5, "audit 2\nreport line 1\n", "k.toml k.rep\nb.toml k.toml\n"),
        chained("a report that is not there", 10, "file refused none absent\n",
                "k.toml k.rep\nb.toml none\n"),
        chained("a folder as a report", 11, "shelf fault folder\n",
                "k.toml k.rep\nb.toml folder\n"),
        chained("sixty-four audits", 0, f"chain 64 yes\n{ASSUMED}", SIXTY_FOUR),
        chained("sixty-five audits", 16, "list refused 65\n", f"{SIXTY_FOUR}b.toml b.rep\n"),
        Case("the output is closed", "chain list", 12, setting=CLOSED, files={"list": IN_ORDER}),
        Case("the output is full", "chain list", 12, setting=FULL, files={"list": IN_ORDER}),
        Case("no list", "chain", 2, "usage\n"),
        Case("two lists", "chain list list", 2, "usage\n", files={"list": IN_ORDER}),
        Case("a list that is not there", "chain none", 10, "file refused none absent\n"),
        Case("a folder as a list", "chain folder", 11, "shelf fault folder\n"),
        Case("a list of one byte too many", "chain long.list", 10,
             "file refused long.list too long\n", files={"long.list": Zeros(MOST_TEXT + 1)}),
        Case("a list as long as may be", "chain long.list", 16, "list refused 1\n",
             files={"long.list": Zeros(MOST_TEXT)}),
        chained("an input altered", 1, "audit 2\nrefuted input 4\n", IN_ORDER, **{"b.bin": b"abd"}),
    ),
    *specials("chain", difference),
    *specials("chain", all_together, one_audit_more, one_byte_more, is_long=True),
]
