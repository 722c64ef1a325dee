"""Cases of `help` and `version`, and of `where`, which finds the place of a source's refusal."""

import re

from ddc_tests.cases import TOP, AnyCase, Case, Room, specials, table
from ddc_tests.folders import Files
from tables.settings import CLOSED

HEX2 = ":a\n0 1 !b\n13000000 # e\n"
BYTES = b"\033[2J\177\\x41\200\377\001\0end\tab"
WORD_64 = "a" * 64
SOURCES: Files = {
    "s.hex2": HEX2, "s.hex1": "&a 1", "bytes.m1": BYTES, "word64.m1": f"{WORD_64}\n",
    "word65.m1": f"{WORD_64}b\n", "word300.m1": b"\033" * 300,
}
ESCAPES = "\\x1b" * 64
FOUND = re.search("logic [0-9a-f]*$", (TOP / "README.md").read_text(), re.MULTILINE)
LOGIC = FOUND[0] if FOUND else "no line in README.md"
VERSION = f"ddc 1.0\nrattle {LOGIC}\n"


def forms(room: Room) -> None:
    """A line for each command; the help of each begins with it, and ends with its statuses."""
    lines = room.prints("help")
    room.equal("the first line", lines[:1], ["hex0 SOURCE BINARY"])
    room.equal("help as the first word with dashes", room.prints("--help"), lines)
    for line in lines:
        command = line.split()[0]
        page = room.prints(["help", command])
        room.equal(f"the words of {command}", [lines.count(it) for it in page[:1]], [1])
        room.equal(f"the lines of {command}", [bool(it) for it in page], [True] * 3)
        found = re.fullmatch("statuses [0-9 ]*", page[2])
        room.equal(f"the statuses of {command}", found is not None, True)
    room.holds({})


def where(name: str, words: str, line: int, column: int, word: str) -> Case:
    """The place and the word that `where` finds."""
    return Case(name, f"where {words}", 0, f"line {line} column {column} word {word}\n")


def no_place(name: str, words: str) -> Case:
    """Words for which there is no place."""
    return Case(name, f"where {words}", 1, "no place\n")


def wrong(name: str, words: str) -> Case:
    """Words that `where` refuses."""
    return Case(name, f"where {words}", 2, "usage\n")


CASES: list[AnyCase] = [
    *specials("help", forms),
    *table(
        "help", {},
        Case("help of hex0", "help hex0", 0,
             "hex0 SOURCE BINARY\n"
             "compares the hex0 value of SOURCE with BINARY, byte for byte\nstatuses 0 3\n"),
        Case("help of help", "--help help", 0,
             "help [COMMAND]\nlists the commands, or what COMMAND does and its statuses\n"
             "statuses 0\n"),
        Case("help of no command", "help none", 2, "usage\n"),
        Case("help of a word with dashes", "help --help", 2, "usage\n"),
        Case("help of two commands", "help hex0 asm", 2, "usage\n"),
        Case("the release and the logic", "version", 0, VERSION),
        Case("the same with dashes", "--version", 0, VERSION),
        Case("version has no words", "version 1", 2, "usage\n"),
        Case("no other word with dashes", "--usage", 2, "usage\n"),
        Case("the output is closed", "help", 12, setting=CLOSED),
    ),
    *table(
        "where", SOURCES,
        Case("a label that is nowhere", "asm hex2 0 s.hex2 out", 7, "refused 5 2\n"),
        where("the reference to it", "hex2 s.hex2 5 2", 2, 5, "!b"),
        where("the label before it", "hex2 s.hex2 4 0", 1, 1, ":a"),
        where("a byte whose digits stand apart", "hex2 s.hex2 6 1", 2, 1, "0"),
        no_place("an item that is none", "hex2 s.hex2 5 3"),
        where("an offset", "hex2 s.hex2 3 7", 2, 5, "!b"),
        where("the offset of the last byte", f"hex2 s.hex2 2 {len(HEX2) - 1}", 3, 13, ""),
        no_place("the offset of the end", f"hex2 s.hex2 2 {len(HEX2)}"),
        where("in M1 every place is an offset", "m1 s.hex2 5 3", 2, 1, "0"),
        where("in hex0 too", "hex0 s.hex2 6 2", 1, 3, ""),
        where("hex1 has names of one byte", "hex1 s.hex1 1 3", 1, 4, "1"),
        no_place("a source that is refused before the item", "hex1 s.hex1 5 1"),
        no_place("a source that is too long is refused at no place", "hex2 s.hex2 7 0"),
        no_place("in M1 too", "m1 s.hex2 7 0"),
        wrong("the number 8", "hex2 s.hex2 8 0"),
        no_place("the greatest place", "hex2 s.hex2 1 18446744073709551615"),
        no_place("the greatest number of an item", "hex2 s.hex2 5 18446744073709551615"),
        wrong("a place of more than 64 bits", "hex2 s.hex2 1 18446744073709551616"),
        wrong("a place with a zero before it", "hex2 s.hex2 1 01"),
        wrong("a number with a zero before it", "hex2 s.hex2 01 1"),
        wrong("a place with a sign", "hex2 s.hex2 1 +1"),
        wrong("the number 0", "hex2 s.hex2 0 0"),
        wrong("another language", "hex3 s.hex2 1 0"),
        wrong("no place given", "hex2 s.hex2 1"),
        # A word is shown in bytes that a line and a terminal bear, and 64 bytes of it at most.
        where("an escape, a backslash and bytes beyond ASCII", "m1 bytes.m1 4 0", 1, 1,
              "\\x1b[2J\\x7f\\x5cx41\\x80\\xff\\x01\\x00end"),
        where("a tab ends the word, and is none", "m1 bytes.m1 4 16", 1, 17, ""),
        where("the word after it", "m1 bytes.m1 4 17", 1, 18, "ab"),
        where("a word of 64 bytes", "m1 word64.m1 4 0", 1, 1, WORD_64),
        where("a word of 65 bytes", "m1 word65.m1 4 0", 1, 1, f"{WORD_64}.."),
        where("a word of 300 escapes", "m1 word300.m1 4 0", 1, 1, f"{ESCAPES}.."),
        where("the last 64 of them", "m1 word300.m1 4 236", 1, 237, ESCAPES),
        Case("a source that is not there", "where hex2 none 1 0", 10,
             "file refused none absent\n"),
    ),
]
