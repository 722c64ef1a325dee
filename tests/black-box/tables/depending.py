"""Cases of `rests` and `provenance`, by recipes of examples/report and examples/chain.

Lengths and digests are those of the contents, computed without the program.
"""

import functools
import re
from collections.abc import Callable

from ddc_tests.cases import AnyCase, Case, Room, made, specials, table
from ddc_tests.contents import digest, mark
from ddc_tests.folders import FOLDER, Files, files_of
from tables.fixtures import A_REPORT, A_TOML, REPORT, REPORT_FOLDER, edited, example, replaced
from tables.settings import CLOSED

MADE_TEXT = (REPORT_FOLDER / "made-text.toml").read_text()
ON_THE_WAY = replaced(MADE_TEXT, 'files = ["text"]', 'files = ["one"]', 1)
THIRD = """[[stage]]
name = "three"
program = "prog"
args = ["copy"]
files = [{ path = "in", from = "text" }]
output = "out"
steps = 100000
[compare]"""
OFF_THE_WAY = replaced(replaced(MADE_TEXT, 'files = ["text"]', 'files = ["three"]', 1),
                       "[compare]", THIRD)


def of_format_2(stages: str) -> str:
    """The recipe made-text.toml in format 2, with these compared stages."""
    return edited(edited(MADE_TEXT, "^format = 1", "format = 2"), '^stage = "two"',
                  f"stages = {stages}")


CHAIN: Files = {it.name: it for it in sorted(example("chain").glob("*.toml"))}
CHAIN_TOML = example("chain", "chain.toml").read_text()
RESTED: Files = {
    **REPORT, **CHAIN, "folder": FOLDER, "routes.toml": of_format_2('["two"]'),
    "on-the-way.toml": ON_THE_WAY, "off-the-way.toml": OFF_THE_WAY,
    "laid-out.toml": edited(CHAIN_TOML, '^check = "m1_linked"\n', ""),
}
ASSUMES = "text text\nrun one\nassumes implements prog copy_src\n"


def rests(name: str, text: str, words: str) -> Case:
    """What `rests` prints."""
    return Case(name, f"rests {words}", 0, text)


def texts_alone(stage: str) -> Callable[[Room], None]:
    """A stage of the chain that rests on texts alone."""

    def looking(room: Room) -> None:
        """Looks at each line."""
        room.lay(CHAIN)
        lines = room.prints(f"rests chain.toml {stage}")
        room.equal("lines that are no texts", [it for it in lines if it[:5] != "text "], [])

    looking.__doc__ = f"The chain's {stage} rests on texts alone"
    return looking


def file_mark(name: str) -> str:
    """The mark of a file of examples/report."""
    return mark((REPORT_FOLDER / name).read_bytes())


BOTH = of_format_2('["two", "one"]')
A_BLOCK = (f"recipe {digest(A_TOML.encode())}\nequal two bin {file_mark('b.bin')}\n"
           f"text text {file_mark('copy.hex0')}\ntext src {file_mark('a.bin')}\n"
           "run two\naudited read src\n")
SETTLED = "holds implements prog copy_src\n"
COPIER = f"text text {file_mark('copy.hex0')}\nprogram prog {file_mark('copy.elf')}\n"
SOURCE = f"source copy_src text {file_mark('copy.hex0')}\n"
RUN = f"run one {file_mark('copy.hex0')}\n{SETTLED}"
MADE = f"equal two bin {file_mark('copy.elf')}\n{COPIER}{RUN}"
SPOKEN = f"{replaced(MADE, 'holds', 'assumes')}speaks copy_src one {file_mark('copy.hex0')}\n"
LENGTHS = [(REPORT_FOLDER / name).stat().st_size for name in ("copy.hex0", "copy.elf")]
DIFFERS = f"differs one bin 0 {LENGTHS[0]} {LENGTHS[1]}\n{COPIER}run one\n{SETTLED}{SOURCE}"
PROVED: Files = {**REPORT, "speaks.toml": ON_THE_WAY, "both.toml": BOTH}
FALSE = edited(A_REPORT, "^made .*", f"made {mark(b'abc')}", 1)


def of_recipe(text: str) -> str:
    """The line of a recipe."""
    return f"recipe {digest(text.encode())}\n"


@functools.cache
def report(recipe: str) -> Callable[[], bytes]:
    """The report of a recipe, which the program makes."""
    return made(PROVED, f"audit {recipe} report", "report")


def provenance(name: str, status: int, text: str, recipe: str) -> list[Case]:
    """The text of `provenance`, and the status of `verify`, which is the same."""
    laid: Files = {"true.rep": report(recipe)}
    return [Case(name, f"provenance {recipe} true.rep", status, text, files=laid)]


def as_verify(room: Room) -> None:
    """The status of `provenance` is that of `verify`."""
    room.lay(PROVED)
    for recipe, status in (("a.toml", 0), ("made-text.toml", 0), ("speaks.toml", 0),
                           ("both.toml", 3)):
        room.lay({f"{recipe}.rep": report(recipe)})
        room.prints(f"verify {recipe} {recipe}.rep", status)


def chain_lines(room: Room, recipe: str, status: int = 0) -> list[str]:
    """The lines of `provenance` of a recipe of examples/chain, whose report is made."""
    for folder in ("audit", "chain"):
        room.lay({f"{folder}/{name}": it for name, it in files_of(example(folder)).items()})
    expanded = edited(CHAIN_TOML, '^stage = "m1_again"', 'stage = "m1_expanded"')
    room.lay({"chain/expanded.toml": expanded})
    room.prints(f"audit {recipe} made.rep", status, "chain")
    return room.prints(f"provenance {recipe} made.rep", status, "chain")


def on_one_text(room: Room) -> None:
    """A chain that rests on one text."""
    lines = [re.sub(" [0-9]+ [0-9a-f]{64}$", "", it) for it in chain_lines(room, "chain.toml")]
    lines = [re.sub("^recipe .*", "recipe", it) for it in lines]
    room.equal("its lines", lines, ["yes", "recipe", "equal m1_again binary", "text m1_text"])


def of_wheeler(room: Room) -> None:
    """An audit by Wheeler's method: the sources to be read, and what was run."""
    lines = chain_lines(room, "wheeler.toml")
    found = [it for it in lines if it.startswith(("same", "audited"))]
    room.equal("an earlier artefact that is the audited binary", found, ["same run first"])
    found = [it for it in lines if it.startswith(("assumes", "holds"))]
    room.equal("an assumption that bytes settle", found, ["holds compiles hex2 first m1"])
    sources = [it.split()[:3] for it in lines if it.startswith("source")]
    room.equal("the sources to be read", sources,
               [["source", "hex2", "hex2_text"], ["source", "m1", "m1_text"]])
    found = [it for it in lines if it == "run second"]
    room.equal("a run of the compared stage has no digest of its own", found, ["run second"])


def layout_left_free(room: Room) -> None:
    """A compared stage whose layout a check in M1 leaves free."""
    lines = [it for it in chain_lines(room, "expanded.toml", 3) if it.startswith("layout")]
    room.equal("its layout", lines, ["layout m1_expanded"])


CASES: list[AnyCase] = [
    *table(
        "rests", RESTED,
        rests("a checked stage rests on its text", "text text\n", "a.toml one"),
        rests("an unchecked stage rests on its program, and on what it reads",
              "text text\ntext src\nrun two\n", "a.toml two"),
        rests("a checked stage whose text another stage made", ASSUMES, "made-text.toml two"),
        rests("that text", ASSUMES, "made-text.toml one"),
        rests("the same in format 2", ASSUMES, "routes.toml two"),
        rests("a line whose source a stage on the way made", f"{ASSUMES}speaks one\n",
              "on-the-way.toml two"),
        rests("a line whose source a stage off the way made", f"{ASSUMES}speaks three\n",
              "off-the-way.toml two"),
        rests("a layout that a check in M1 leaves free",
              "text hex2_text\ntext m1_text\nlayout m1_expanded\nrun m1_again\n",
              "laid-out.toml m1_again"),
        rests("the layout of the stage itself", "text m1_text\nlayout m1_expanded\n",
              "chain.toml m1_expanded"),
        rests("where a check in hex2 takes its items, it does not matter", "text m1_text\n",
              "chain.toml m1_again"),
        rests("four runs and a line",
              "text hex2_text\ntext m1_text_in_hex2\ntext m1_text\nrun first_expanded\nrun first\n"
              "run second_expanded\nrun second\nassumes compiles hex2 first m1\n",
              "wheeler.toml second"),
        Case("a stage that is none", "rests a.toml three", 2, "usage\n"),
        Case("an input is no stage", "rests a.toml prog", 2, "usage\n"),
        Case("an empty name", ["rests", "a.toml", ""], 2, "usage\n"),
        Case("no stage", "rests a.toml", 2, "usage\n"),
        Case("a word more", "rests a.toml one two", 2, "usage\n"),
        Case("a file word that is none", ["rests", "", "one"], 2, "usage\n"),
        Case("a recipe that is not there", "rests none one", 10, "file refused none absent\n"),
        Case("no recipe", "rests copy.hex0 one", 4, "recipe refused 1\n"),
        Case("a folder as a recipe", "rests folder one", 11, "shelf fault folder\n"),
        Case("the output is closed", "rests a.toml one", 12, setting=CLOSED),
        Case("no input is loaded", "rests a.toml one", 0, "text text\n",
             files=dict.fromkeys(("copy.elf", "copy.hex0", "a.bin", "b.bin"))),
    ),
    *specials("rests", *map(texts_alone, ("made_hex0", "made_hex1", "made_hex2"))),
    *table(
        "provenance", PROVED,
        *provenance("the audited binary is read", 0, f"yes\n{A_BLOCK}", "a.toml"),
        Case("the report of the worked examples", "provenance a.toml a.report", 0,
             f"yes\n{A_BLOCK}"),
        *provenance("the audited binary is run", 0,
                    f"yes\n{of_recipe(MADE_TEXT)}{MADE}{SOURCE}audited run prog\n",
                    "made-text.toml"),
        *provenance("a source that its own program wrote", 0,
                    f"yes\n{of_recipe(ON_THE_WAY)}{SPOKEN}audited run prog\n", "speaks.toml"),
        *provenance("a block for each compared stage", 3,
                    f"{of_recipe(BOTH)}{MADE}{SOURCE}audited run prog\n{DIFFERS}audited run prog\n",
                    "both.toml"),
        Case("a report that is not true", "provenance a.toml false.rep", 1, "refuted files 1\n",
             files={"false.rep": FALSE}),
        Case("a report of another recipe", "provenance made-text.toml a.report", 1,
             "refuted header 0\n"),
        Case("a recipe that is none", "provenance copy.hex0 a.report", 4, "recipe refused 1\n"),
        Case("a report that is none", "provenance a.toml README.md", 5, "report line 1\n"),
        Case("a report that is an input", "provenance a.toml ./copy.hex0", 2, "usage\n"),
        Case("no report", "provenance a.toml", 2, "usage\n"),
        Case("a word more", "provenance a.toml a.report two", 2, "usage\n"),
        Case("a recipe that is not there", "provenance none a.report", 10,
             "file refused none absent\n"),
        Case("the output is closed", "provenance a.toml a.report", 12, setting=CLOSED),
    ),
    *specials("provenance", as_verify, on_one_text, of_wheeler, layout_left_free),
]
