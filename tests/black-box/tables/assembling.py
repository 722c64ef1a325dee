"""Cases of `asm`: sources in hex0, hex1, hex2 and M1, refusals, and what is saved."""

from ddc_tests.cases import AnyCase, Case, Room, specials, table
from ddc_tests.contents import mark
from ddc_tests.folders import FOLDER, Files, Zeros
from tables.fixtures import MOST_CHECKED, OTHER_HEX0, STREAMS, WORKED_HEX0, example
from tables.settings import FULL

DOUBLE = b":a 00 :a"
SOURCES: Files = {
    "pair.hex2": b"~x 97020000 !x 93820200 :x", "double.hex2": DOUBLE, "empty": b"",
    "loop.hex1": b":a 00 00 00 00 @a 63000000", "worked.hex0": WORKED_HEX0,
    "other.hex0": OTHER_HEX0, "folder": FOLDER, "made": b"kept",
}
PAIR = bytes.fromhex("97020000 93828200")
WORKED_M1 = b'DEFINE addi 13000000\nDEFINE rd_a0 .00050000\n:s rd_a0 !5 addi "hi"'
ITEMS = b":s\n13\n05\n50\n00\n68\n69\n00\n00\n"
IN_M1: Files = {"worked.m1": WORKED_M1, "items": ITEMS, "empty": b"", "made": b"kept"}
NO_ERROR = STREAMS.splitlines(keepends=True)[1]
MOST_BASE = 137_438_953_472

# M1 sources that are refused, with the number of the reason and the place.
REFUSED: list[tuple[str, int, int]] = [
    ("DEFINE x", 1, 0),
    ("DEFINE a 00 DEFINE a 0", 1, 12),
    ("DEFINE a 00 DEFINE a 11", 2, 12),
    ('"a', 3, 0),
    ('foo DEFINE a 0 "', 3, 15),
    ("foo", 4, 0),
    ("!x 13 @y", 4, 6),
    ("!2048", 5, 0),
    ("!1 00 !2048", 5, 6),
    ("DEFINE f .00000000 00 f", 6, 22),
]


def greets(room: Room, made: str, text: bytes) -> None:
    """A program that was made prints this text, and takes 28 steps."""
    out = f"exited 0 step 28\nstream 1 {mark(text)}\n{NO_ERROR}"
    room.answers(["run", made, "1000"], 0, out)


def labels(room: Room) -> None:
    """The program with labels is made, and greets three times."""
    room.answers(["asm", "hex2", "65536", str(example("asm", "greet.hex2")), "labels.elf"], 0,
                 "made 182\n")
    greets(room, "labels.elf", b"Hello, chain!\n" * 3)
    room.equal("names", [it.name for it in room.folder.iterdir()], ["labels.elf"])


def definitions(room: Room) -> None:
    """The program with definitions is expanded and assembled, and greets three times."""
    room.answers(["asm", "m1", "0", str(example("asm", "greet.m1")), "text"], 0, "made 581\n")
    room.answers("asm hex2 65536 text defined.elf", 0, "made 184\n")
    greets(room, "defined.elf", b"Hello, chains!\n" * 3)


def replaced(room: Room) -> None:
    """Each made file takes the place of the one before, of whatever length."""
    room.lay({**SOURCES, "made": None})
    room.answers("asm hex2 6291456 pair.hex2 made", 0, "made 8\n")
    room.holds({**SOURCES, "made": PAIR})
    room.answers("asm hex1 0 loop.hex1 made", 0, "made 8\n")
    room.holds({**SOURCES, "made": bytes.fromhex("00000000 e30e00fe")})
    room.answers("asm hex0 0 worked.hex0 made", 0, "made 2\n")
    room.holds({**SOURCES, "made": b"\x7f\x45"})
    room.answers(f"asm hex2 {MOST_BASE} empty made", 0, "made 0\n")
    room.holds({**SOURCES, "made": b""})


CASES: list[AnyCase] = [
    *specials("asm", replaced, labels, definitions),
    *table(
        "asm", SOURCES,
        Case("a hex2 source", "asm hex2 6291456 pair.hex2 new", 0, "made 8\n", {"new": PAIR}),
        Case("a hex1 source", "asm hex1 0 loop.hex1 made", 0, "made 8\n",
             {"made": bytes.fromhex("00000000 e30e00fe")}),
        Case("a hex0 source", "asm hex0 0 worked.hex0 made", 0, "made 2\n",
             {"made": b"\x7f\x45"}),
        Case("an empty source", f"asm hex2 {MOST_BASE} empty made", 0, "made 0\n", {"made": b""}),
        Case("a label that is defined twice", "asm hex2 0 double.hex2 made", 7, "refused 4 2\n"),
        Case("a source that is not there", "asm hex2 0 none made", 10,
             "file refused none absent\n"),
        Case("the source under its own name", "asm hex2 0 pair.hex2 pair.hex2", 2, "usage\n"),
        Case("the source after ./", "asm hex2 0 ./pair.hex2 ././pair.hex2", 2, "usage\n"),
        Case("nothing but ./ to save under", "asm hex2 0 pair.hex2 ./", 11, "shelf fault ./\n"),
        Case("no such language", "asm m2 0 pair.hex2 made", 2, "usage\n"),
        Case("a base past the greatest", f"asm hex2 {MOST_BASE + 1} pair.hex2 made", 2, "usage\n"),
        Case("a base with a leading zero", "asm hex2 00 pair.hex2 made", 2, "usage\n"),
        Case("a base for hex0 too", "asm hex0 x worked.hex0 made", 2, "usage\n"),
        Case("a word too few for asm", "asm hex2 0 pair.hex2", 2, "usage\n"),
        Case("a folder to save under", "asm hex2 0 pair.hex2 folder", 11, "shelf fault folder\n"),
        Case("a folder that is not there to save in", "asm hex2 0 pair.hex2 none/made", 11,
             "shelf fault none/made\n"),
        Case("a full device to save to", "asm hex2 0 pair.hex2 /dev/full", 11,
             "shelf fault /dev/full\n"),
        Case("the output fails after the save", "asm hex2 6291456 pair.hex2 made", 12,
             after={"made": PAIR}, setting=FULL),
    ),
    *table(
        "asm m1", IN_M1,
        Case("an M1 source", "asm m1 0 worked.m1 text", 0, "made 27\n", {"text": ITEMS}),
        Case("its items are hex2", "asm hex2 6291456 items made", 0, "made 8\n",
             {"made": bytes.fromhex("1305500068690000")}),
        Case("the base of M1 is no matter", f"asm m1 {MOST_BASE} worked.m1 made", 0, "made 27\n",
             {"made": ITEMS}),
        Case("an empty M1 source", "asm m1 0 empty made", 0, "made 0\n", {"made": b""}),
        Case("an M1 source of one byte too many", "asm m1 0 long.m1 made", 7, "refused 7 0\n",
             files={"long.m1": Zeros(MOST_CHECKED + 1)}),
        Case("a base for M1 too", "asm m1 x worked.m1 made", 2, "usage\n"),
        Case("an M1 source under its own name", "asm m1 0 worked.m1 worked.m1", 2, "usage\n"),
        *(Case(f"refused: {source}", "asm m1 0 refused.m1 made", 7, f"refused {number} {place}\n",
               files={"refused.m1": source}) for source, number, place in REFUSED),
    ),
]
