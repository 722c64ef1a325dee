"""Cases of `step`, whose input is a session, and of `demo` and `left`."""

from ddc_tests.cases import AnyCase, Case, Room, specials, table
from ddc_tests.folders import Files
from tables.fixtures import A_TOML, EXIT, FAILS, REPORT, replaced
from tables.settings import (
    NO_INPUT, closed_and_fed, fed, from_file, full_and_fed, rest,
)

STEPPED: Files = {
    **{name: it for name, it in REPORT.items() if name not in ("README.md", "made-text.toml")},
    "letters.hex0": b"61 62 63\n", "short.toml": replaced(A_TOML, "steps = 100000", "steps = 31"),
}
START = "at 0 0000000000010078 addi x10, x0, -100\n"
SESSION = "step 13\nwhere\nmem 100e0 3\nback 13\ngo\n"
AT_13 = "at 13 00000000000100ac addi x10, x0, 3\n"
REPLIES = f"{AT_13}{AT_13}696e00\n{START}end exited 0 step 32\n"
UNKNOWN = f"unknown\n{START}"


def step(name: str, given: str | bytes, out: str, words: str = "step a.toml two") -> Case:
    """A session over a pipe."""
    return Case(name, words, 0, out, setting=fed(given))


def demo(size: int, steps: int) -> Case:
    """A demonstration of so many bytes, which saves nothing."""
    out = f"demo {size} steps {steps} equal yes\n"
    return Case(f"a demonstration of {size} bytes", f"demo {size}", 0, out)


def left_refused(name: str, file: str) -> Case:
    """A file's name that no line of `left` can have."""
    return Case(name, ["left", "a.toml", "two", file, "none"], 2, "usage\n")


def failed(room: Room) -> None:
    """What a failed program said to its standard error."""
    files: Files = {**STEPPED, "fails.elf": FAILS,
                    "fails.toml": replaced(A_TOML, '"copy.elf"', '"fails.elf"')}
    room.lay(files)
    room.answers("left fails.toml one 2 said", 0, "left one 2 3 status 12 step 9\n")
    room.holds({**files, "said": b"ELF"})
    room.answers("left fails.toml two 2 none", 6, "run failed one status 12 step 9\n")
    room.holds({**files, "said": b"ELF"})


def folder_above(room: Room) -> None:
    """A folder for what a stage left."""
    room.lay({f"inner/{name}": it for name, it in STEPPED.items()})
    room.answers("left a.toml two out ..", 11, "shelf fault ..\n", where="inner")
    room.holds({f"inner/{name}": it for name, it in STEPPED.items()})


CASES: list[AnyCase] = [
    *table(
        "step", STEPPED,
        step("a session", SESSION, REPLIES),
        Case("a session without a line", "step a.toml two"),
        step("the input ends in mid-line", "where\nwhe", f"{START}unknown\n"),
        step("the last line has no end", "where\nwhere", START + START, "step a.toml one"),
        step("an empty line", "\n", "unknown\n"),
        step("a carriage return belongs to its line", "where\r\n", "unknown\n"),
        step("bytes that are no text", b"\xff\0\nwhere\n", UNKNOWN),
        step("a line of 256 bytes", "w" * 256 + "\nwhere\n", UNKNOWN),
        step("a line of 257 bytes", "w" * 257 + "\nwhere\n", UNKNOWN),
        step("a line of 65,535 bytes", "w" * 65535 + "\nwhere\n", UNKNOWN),
        step("a line of 65,536 bytes is followed by an empty one", "w" * 65536 + "\nwhere\n",
             f"unknown\n{UNKNOWN}"),
        step("what is left of a longer line is a line", "w" * 65536 + "where\n", UNKNOWN),
        Case("nothing after quit is read", "step a.toml two", 0, f"{START}where\n",
             setting=rest("where\nquit\nwhere\n")),
        Case("a session that begins reads its lines alone", "step a.toml two", 0, "rest",
             setting=rest("quit\nrest")),
        Case("no other command reads", "hex0 letters.hex0 a.bin", 0, "equal 3\nrest\n",
             setting=rest("rest\n")),
        Case("nor does a step that is refused", "step a.toml three", 2, "usage\n",
             setting=fed("where\n")),
        Case("the output is closed", "step a.toml two", 12, setting=closed_and_fed("where\n")),
        Case("the output is full", "step a.toml two", 12, setting=full_and_fed("where\n")),
        Case("a session without a reply needs no output", "step a.toml two",
             setting=closed_and_fed("quit\n")),
        Case("the input is closed", "step a.toml two", 12, setting=NO_INPUT),
        Case("the input is a folder", "step a.toml two", 12, setting=from_file(".")),
        Case("a session from a file", "step a.toml two", 0, REPLIES, setting=from_file("lines"),
             files={"lines": SESSION}),
        Case("a stage that is none", "step a.toml prog", 2, "usage\n"),
        Case("a recipe that is none", "step copy.elf two", 4, "recipe refused 1\n"),
        Case("a recipe that is not there", "step none two", 10, "file refused none absent\n"),
        Case("an earlier stage that is not done", "step short.toml two", 6,
             "run failed one spent step 31\n"),
        step("a stage by its own limit", "go\n", "end spent step 31\n", "step short.toml one"),
        demo(1, 64), demo(4096, 64), demo(4097, 75), demo(16777216, 45109),
        *(Case(f"a demonstration of '{word}' bytes", ["demo", word], 2, "usage\n")
          for word in ("0", "16777217", "01", "-1", "", "1x")),
        Case("a demonstration with another program", "demo 1", 6,
             "run failed one no-output step 3\n", files={"copy.elf": EXIT}),
        Case("a demonstration without its source", "demo 1", 10,
             "file refused copy.hex0 absent\n", files={"copy.elf": EXIT, "copy.hex0": None}),
    ),
    *table(
        "left", STEPPED,
        Case("what a stage left", "left a.toml two out kept", 0,
             "left two out 3 status 0 step 32\n", {"kept": REPORT["a.bin"]}),
        Case("a stream of a stage", "left a.toml two 1 kept", 0, "left two 1 0 status 0 step 32\n",
             {"kept": b""}),
        Case("a file that was not left", "left a.toml two ./1 none", 10,
             "not left two ./1 status 0 step 32\n"),
        Case("what stands at a limit is the whole artefact", "left short.toml one out kept", 6,
             "left one out 232 spent step 31\n", {"kept": REPORT["copy.elf"]}),
        Case("an earlier stage that is not done, and nothing is left of",
             "left short.toml two out none", 6, "run failed one spent step 31\n"),
        Case("an input for what a stage left", "left a.toml two out ./b.bin", 2, "usage\n"),
        Case("a file that no guest has", "left a.toml two ./ none", 2, "usage\n"),
        left_refused("a file whose line would be two", "out\nleft"),
        left_refused("a file with the byte 0x1f", "out\x1f"),
        left_refused("a file with the byte 0x7f", "\x7fout"),
        Case("a file with a blank and bytes above 0x7f", ["left", "a.toml", "two", "o ü", "none"],
             10, "not left two o ü status 0 step 32\n"),
        Case("a stage that is none", "left a.toml prog out none", 2, "usage\n"),
    ),
    *specials("left", failed, folder_above),
]
