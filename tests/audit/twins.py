"""Recipes that get a yes and whose artefact was not made as it seems, each beside an honest one:
what `verify`, `rests` and `provenance` print of both.

Called by run. Lengths and digests are those of wc and sha256sum, or of Python's hashlib.
"""

import re
import shutil
from pathlib import Path

from ddc_tests.checks import Checks, ran
from ddc_tests.contents import digest, mark
from ddc_tests.program import TOP, program
from ddc_tests.recipes import compare, given, recipe, source, stage, with_routes

ASSEMBLES = ("hex0", "text", "out")
SEED = "assumes implements seed assembler\n"
COPIER = "assumes implements copier assembler\n"
EXITS = "assumes implements exits assembler\n"
BECOMES = "assumes compiles assembler first assembler\n"
NEVER = "assumes compiles assembler first never\n"


def beginning(name: str, path: str) -> str:
    """The inputs of most recipes: the program, its text and the audited binary."""
    return (given(name, path, "assembler") + given("text", "hex0.hex0")
            + given("binary", "hex0.elf"))


def assembles(name: str = "made", by: str = "seed", text: str = "text", more: str = "") -> str:
    """A stage that assembles a text."""
    return stage(name, by, ASSEMBLES, [("text", text)], more)


def copies(name: str, content: str, more: str = "") -> str:
    """A stage that copies a content."""
    return stage(name, "copier", ["copy"], [("in", content)], more)


class Twins:
    """A folder of recipes, and the checks of what is printed of them."""

    def __init__(self, checks: Checks, folder: Path) -> None:
        """Lays the programs, the texts and the binaries."""
        self.checks, self.folder = checks, folder
        folder.mkdir()
        examples = TOP / "examples"
        for path in [*(examples / "report").glob("copy.*"), *(examples / "audit").glob("*.elf"),
                     examples / "audit/hex0.hex0"]:
            shutil.copy(path, folder)

    def mark(self, name: str) -> str:
        """The length and the digest of a file."""
        return mark((self.folder / name).read_bytes())

    def lay(self, name: str, text: str) -> None:
        """Lays a text."""
        (self.folder / name).write_text(text)

    def twin(
        self, name: str, text: str, assumed: str, rests: str, block: str,
        binary: str = "hex0.elf",
    ) -> None:
        """The recipe gets a yes with these assumptions, and these are the lines of the compared
        stage, which is `made`."""
        file, report = f"{name}.toml", f"{name}.rep"
        self.lay(file, text)
        ran([program(), "audit", file, report], self.folder)
        size = (self.folder / binary).stat().st_size
        self.checks.answers(f"{name}: verify", 0, f"yes\nequal made binary {size}\n{assumed}",
                            ["verify", file, report], self.folder)
        self.checks.answers(f"{name}: rests", 0, rests, ["rests", file, "made"], self.folder)
        whole = digest(text.encode())
        self.checks.answers(
            f"{name}: provenance", 0,
            f"yes\nrecipe {whole}\nequal made binary {self.mark(binary)}\n{block}",
            ["provenance", file, report], self.folder)

    @property
    def text(self) -> str:
        """The line of the text that hex0.elf is assembled from."""
        return f"text text {self.mark('hex0.hex0')}\n"

    @property
    def source(self) -> str:
        """The line of the source that this text is."""
        return f"source assembler text {self.mark('hex0.hex0')}\n"

    @property
    def seed(self) -> str:
        """The line of the program that assembles."""
        return f"program seed {self.mark('seed.elf')}\n"


def honest() -> str:
    """The seed assembles the text."""
    return recipe(beginning("seed", "seed.elf"), source("assembler", "text"), assembles(),
                  compare("made"))


def seed_assembles(twins: Twins) -> None:
    """The honest twin of most others."""
    twins.twin("honest", honest(), SEED, f"text text\nrun made\n{SEED}",
               f"{twins.text}{twins.seed}run made\n{SEED}{twins.source}")


def copied(twins: Twins) -> None:
    """A program copies the audited binary from the audited input itself, from a second input of
    its path, or finds it in its files and only exits."""
    begin, of_text = beginning("copier", "copy.elf"), source("assembler", "text")
    elf = twins.mark("hex0.elf")
    rest = f"program copier {twins.mark('copy.elf')}\nrun made\n{COPIER}{twins.source}"
    twins.twin("copied", recipe(begin, of_text, copies("made", "binary"), compare("made")),
               COPIER, f"text binary\nrun made\n{COPIER}",
               f"text binary {elf}\n{rest}audited read binary\n")
    twins.twin("again", recipe(begin, given("second", "hex0.elf"), of_text,
                               copies("made", "second"), compare("made")),
               COPIER, f"text second\nrun made\n{COPIER}",
               f"text second {elf}\n{rest}audited read second\n")
    ends = (TOP / "examples/hex0/exit42.hex0").read_text()
    twins.lay("exit.hex0", re.sub("^13 05 A0 02", "13 05 00 00", ends, flags=re.MULTILINE))
    ran([program(), "asm", "hex0", "0", "exit.hex0", "exit.elf"], twins.folder)
    leaves = stage("made", "exits", ["exits"], [("out", "binary")])
    twins.twin("left", recipe(beginning("exits", "exit.elf"), of_text, leaves, compare("made")),
               EXITS, f"text binary\nrun made\n{EXITS}",
               f"text binary {elf}\nprogram exits {twins.mark('exit.elf')}\nrun made\n{EXITS}"
               f"{twins.source}audited read binary\n")


def layouts(twins: Twins) -> None:
    """A check in M1 leaves the layout free: another layout of the same items is no fault, and
    `layout` says so of the compared stage itself."""
    twins.lay("items.m1", "DEFINE A 41\nDEFINE B 42\nA B\n")
    twins.lay("items.hex2", "41\n42\n")
    twins.lay("laid.hex2", "41 42 # laid out by hand\n")
    for name in ("items", "laid"):
        binary = f"{name}.hex2"
        text = recipe(given("copier", "copy.elf"), given("text", "items.m1"),
                      given("given", binary), given("binary", binary),
                      source("items", "text", "m1"),
                      copies("made", "given", 'check = "items"\n'), compare("made"))
        twins.twin(name, text, "", "text text\nlayout made\n",
                   f"text text {twins.mark('items.m1')}\nlayout made\n", binary)


def written_by_its_program(twins: Twins) -> None:
    """The source that a line names was written by the program that the line is about, or is the
    compared artefact itself."""
    text = recipe(beginning("copier", "copy.elf"), source("assembler", "wrote"),
                  copies("wrote", "text"), copies("made", "binary"), compare("made"))
    twins.twin("wrote", text, COPIER, f"text binary\nrun made\n{COPIER}speaks wrote\n",
               f"text binary {twins.mark('hex0.elf')}\nprogram copier {twins.mark('copy.elf')}\n"
               f"run made\n{COPIER}speaks assembler wrote {twins.mark('hex0.hex0')}\n"
               "audited read binary\n")
    text = recipe(beginning("seed", "seed.elf"), source("assembler", "made"), assembles(),
                  compare("made"))
    twins.twin("itself", text, SEED, f"text text\nrun made\n{SEED}speaks made\n",
               f"{twins.text}{twins.seed}run made\n{SEED}"
               f"speaks assembler made {twins.mark('hex0.elf')}\n")


def never_read(twins: Twins) -> None:
    """A stage is said to become a source whose text it never read."""
    twins.lay("other.hex0", "# not what was compiled\n")
    runs = f"{twins.text}{twins.seed}run first {twins.mark('hex0.elf')}\nrun made\n{SEED}"
    other = f"source never other {twins.mark('other.hex0')}\n"
    for name, becomes, line, more in (("becomes", "assembler", BECOMES, ""),
                                      ("never", "never", NEVER, other)):
        text = recipe(beginning("seed", "seed.elf"), given("other", "other.hex0"),
                      source("assembler", "text"), source("never", "other"),
                      assembles("first", more=f'becomes = "{becomes}"\n'),
                      assembles("made", "first"), compare("made"))
        twins.twin(name, text, f"{SEED}{line}", f"text text\nrun first\nrun made\n{SEED}{line}",
                   f"{runs}{line}{twins.source}{more}same run first\n")


def routes(twins: Twins) -> None:
    """A program made the text that both routes of format 2 read: no line of a route is about
    it."""
    twins.twin("direct", with_routes(honest()), f"route made\n{SEED}",
               f"text text\nrun made\n{SEED}",
               f"{twins.text}{twins.seed}run made\n{SEED}{twins.source}")
    text = recipe(beginning("seed", "seed.elf"), given("copier", "copy.elf", "assembler"),
                  source("assembler", "text"), copies("prepared", "text"),
                  assembles(text="prepared"), compare("made"))
    twins.twin("prepared", with_routes(text), f"route made\n{SEED}",
               f"text text\nrun prepared\nrun made\n{SEED}{COPIER}",
               f"{twins.text}{twins.seed}program copier {twins.mark('copy.elf')}\n"
               f"run prepared {twins.mark('hex0.hex0')}\nrun made\n{SEED}{COPIER}{twins.source}")


def dumped(twins: Twins) -> None:
    """A hex dump of the binary is a source like any other: its digest alone tells it from the
    text that people wrote."""
    dump = ran(["od", "-An", "-v", "-tx1", "hex0.elf"], twins.folder).out
    (twins.folder / "dump.hex0").write_bytes(dump)
    for name, path in (("written", "hex0.hex0"), ("dump", "dump.hex0")):
        text = recipe(given("copier", "copy.elf"), given("text", path),
                      given("binary", "hex0.elf"), source("assembler", "text"),
                      copies("made", "binary", 'check = "assembler"\n'), compare("made"))
        twins.twin(name, text, "", "text text\n", f"text text {twins.mark(path)}\n")


def replaced(twins: Twins) -> None:
    """Seed and binary are replaced under their names: the names stay, the digests do not."""
    for name, original in (("hex0.elf", "altered.elf"), ("seed.elf", "copy.elf")):
        shutil.copy(twins.folder / original, twins.folder / name)
    text = re.sub("^args = .*", 'args = ["copy"]', honest(), flags=re.MULTILINE)
    text = text.replace('path = "text", from = "text"', 'path = "in", from = "binary"')
    twins.twin("honest", text, SEED, f"text binary\nrun made\n{SEED}",
               f"text binary {twins.mark('altered.elf')}\nprogram seed {twins.mark('copy.elf')}\n"
               f"run made\n{SEED}{twins.source}audited read binary\n")


def try_all(checks: Checks, folder: Path) -> None:
    """Tries each recipe and its twin, those with replaced files in a folder of their own."""
    twins = Twins(checks, folder)
    for group in (seed_assembles, copied, layouts, written_by_its_program, never_read, routes,
                  dumped):
        group(twins)
    replaced(Twins(checks, folder / "replaced"))
