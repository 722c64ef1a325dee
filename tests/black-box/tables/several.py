"""Cases of recipes of format 2, which compare several stages: audits, routes, altered reports.

f.toml is a.toml with a last stage that runs the input copy.elf; its report is a.report with that
stage's block, which is that of stage two under another name. In g.toml that stage copies another
file; h.toml compares one stage, and i.toml has the order of g.toml the other way round.
"""

from ddc_tests.cases import AnyCase, Case, Room, specials, table
from ddc_tests.contents import digest, mark
from ddc_tests.folders import Files
from tables.fixtures import A_REPORT, A_TOML, REPORT, REPORT_FOLDER, block_of, edited, replaced
from tables.settings import THROUGH_PIPE

THIRD = """[[stage]]
name = "three"
program = "prog"
args = ["copy"]
files = [{ path = "in", from = "src" }]
output = "out"
steps = 100000
"""


def of_format_2() -> str:
    """The recipe f.toml."""
    text = edited(A_TOML, "^format = 1", "format = 2")
    text = edited(text, '^path = "copy.elf"', '\\g<0>\nimplements = "copy_src"')
    text = edited(text, '^stage = "two"', 'stages = ["two", "three"]')
    return edited(text, r"^\[compare\]", THIRD + "\\g<0>")


def in_third(text: str) -> str:
    """The recipe g.toml: the last stage copies another file."""
    before, stage = text.split('name = "three"')
    return before + 'name = "three"' + replaced(stage, 'from = "src"', 'from = "text"')


F_TOML = of_format_2()
G_TOML = in_third(F_TOML)
H_TOML = replaced(F_TOML, '"two", "three"', '"two"')
I_TOML = edited(G_TOML, "^stages = .*", 'stages = ["three", "two"]')


def report_of(recipe: str, copied: str, *lines: str) -> str:
    """The report of a recipe whose last stage copies this file, with these compare lines."""
    body = A_REPORT.splitlines(keepends=True)[2:]
    body = body[: body.index("unchecked\n") + 1]
    third = replaced(block_of(A_REPORT, "two"), "stage two", "stage three", 1)
    marks = [mark((REPORT_FOLDER / name).read_bytes()) for name in ("a.bin", copied)]
    third = replaced(third, *marks)
    head = f"ddc-report 2\nrecipe {digest(recipe.encode())}\n"
    return head + "".join(body) + third + "".join(f"compare {it}\n" for it in lines) + "end\n"


F_REPORT = report_of(F_TOML, "a.bin", "two bin equal 3", "three bin equal 3")
G_REPORT = report_of(
    G_TOML, "copy.hex0", "two bin equal 3", "three bin differs 0 465 3"
)
I_REPORT = report_of(
    I_TOML, "copy.hex0", "three bin differs 0 465 3", "two bin equal 3"
)
H_REPORT = report_of(H_TOML, "a.bin", "two bin equal 3")
ROUTES = "route two\nroute three\nassumes implements prog copy_src\n"
ROUTES_BACK = "route three\nassumes implements prog copy_src\nroute two\n"
BOTH = "equal two bin 3\nequal three bin 3\n"
ONE_DIFFERS = "equal two bin 3\ndiffers three bin 0 465 3\n"
OTHER_DIFFERS = "differs three bin 0 465 3\nequal two bin 3\n"
RECIPES: Files = {
    **REPORT, "f.toml": F_TOML, "g.toml": G_TOML, "h.toml": H_TOML, "i.toml": I_TOML,
    "f.report": F_REPORT, "h.report": H_REPORT,
}


def compared(stages: str) -> str:
    """The recipe f.toml with these compared stages."""
    return edited(F_TOML, "^stages = .*", f"stages = {stages}")


def altered(recipe: str, name: str, report: str, text: str) -> Case:
    """What `verify` says of an altered report."""
    return Case(name, f"verify {recipe} edited", 1, f"{text}\n", files={"edited": report})


def other_order() -> str:
    """The report of f.toml with its compare lines the other way round, by their names."""
    two, three = "compare two bin equal 3\n", "compare three bin equal 3\n"
    return replaced(F_REPORT, two + three, three + two)


def pause(room: Room) -> None:
    """A pause in the last of two compared stages: the end compares both."""
    room.lay(RECIPES)
    room.answers("part f.toml save none 95", 8, "paused three 31\n")
    save = (room.folder / "save").read_bytes()
    room.holds({**RECIPES, "save": save})
    room.answers("resume f.toml save report 1", 0, BOTH)
    room.holds({**RECIPES, "save": save, "report": F_REPORT})


OTHER_STEP = edited(F_REPORT, "^(stage three) .*", r"\1 7")
CASES: list[AnyCase] = [
    *table(
        "several", RECIPES,
        Case("two compared stages", "audit f.toml report", 0, BOTH, {"report": F_REPORT}),
        Case("its replay prints both routes", "verify f.toml f.report", 0,
             f"yes\n{BOTH}{ROUTES}"),
        Case("its report is printed back", "show f.report", 0, F_REPORT),
        Case("one compared stage in format 2", "audit h.toml report", 0, "equal two bin 3\n",
             {"report": H_REPORT}),
        Case("its replay prints one route", "verify h.toml h.report", 0,
             "yes\nequal two bin 3\nroute two\n"),
        Case("one of two stages differs", "audit g.toml g.report", 3, ONE_DIFFERS,
             {"g.report": G_REPORT}),
        Case("its replay has no yes", "verify g.toml g.report", 3, ONE_DIFFERS + ROUTES,
             files={"g.report": G_REPORT}),
        Case("the other one differs", "audit i.toml report", 3, OTHER_DIFFERS,
             {"report": I_REPORT}),
        Case("its routes have the order of the recipe", "verify i.toml report", 3,
             OTHER_DIFFERS + ROUTES_BACK, files={"report": I_REPORT}),
        Case("a refused stage", "audit j.toml report", 4, "recipe refused 6 compare 0 stages\n",
             setting=THROUGH_PIPE, files={"j.toml": compared('["two", "bin"]')}),
        Case("a stage twice", "audit j.toml report", 4, "recipe refused 5 compare 0 stages\n",
             setting=THROUGH_PIPE, files={"j.toml": compared('["two", "two"]')}),
        altered("g.toml", "a second comparison that is not so",
                edited(G_REPORT, "^compare three .*", "compare three bin equal 3"),
                "refuted compare 2"),
        altered("g.toml", "a first comparison that is not so",
                edited(G_REPORT, "^compare two .*", "compare two bin equal 4"),
                "refuted compare 1"),
        altered("g.toml", "two comparisons that are not so",
                edited(G_REPORT, "^compare (two|three) .*", r"compare \1 bin equal 4"),
                "refuted compare 1"),
        altered("g.toml", "lengths the other way round",
                edited(G_REPORT, "^compare three .*", "compare three bin differs 0 3 465"),
                "refuted compare 2"),
        altered("f.toml", "comparisons in another order", other_order(), "refuted header 0"),
        altered("f.toml", "a comparison left out", edited(F_REPORT, "^compare three .*\n", ""),
                "refuted header 0"),
        altered("f.toml", "a comparison too many",
                edited(F_REPORT, "^compare three .*", "\\g<0>\n\\g<0>"), "refuted header 0"),
        altered("f.toml", "another binary",
                edited(F_REPORT, "^compare three bin", "compare three src"), "refuted header 0"),
        altered("f.toml", "a step and a comparison",
                edited(OTHER_STEP, "^compare two .*", "compare two bin equal 4"),
                "refuted run 3"),
        altered("h.toml", "form 1 for a recipe of format 2",
                replaced(H_REPORT, "report 2", "report 1"), "refuted header 0"),
        altered("a.toml", "form 2 for a recipe of format 1",
                replaced(A_REPORT, "report 1", "report 2"), "refuted header 0"),
        Case("a report of form 1 is still true", "verify a.toml a.report", 0,
             "yes\nequal two bin 3\n"),
        Case("two comparisons in form 1", "verify f.toml edited", 5,
             f"report line {F_REPORT.count(chr(10)) - 1}\n",
             files={"edited": replaced(F_REPORT, "report 2", "report 1")}),
        Case("a form 3", "verify f.toml edited", 5, "report line 1\n",
             files={"edited": replaced(F_REPORT, "report 2", "report 3")}),
    ),
    *specials("several", pause),
]
