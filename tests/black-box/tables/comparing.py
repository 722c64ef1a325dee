"""Cases of `hex0`, `run` and `list`, and of words that no command has."""

from ddc_tests.cases import AnyCase, Case, Room, specials, table
from ddc_tests.contents import mark
from ddc_tests.folders import FOLDER, Files, Zeros
from tables.fixtures import (
    CALL, EXIT, ILLEGAL, LONG_NAME, LONGEST_NAME, MOST_INPUT, MOST_LISTING, MOST_STEPS, OTHER_HEX0,
    SEVEN, STREAMS, WORKED, WORKED_HEX0, example,
)
from tables.settings import CLOSED, FULL, SMALL, not_root

COMPARED: Files = {
    "worked.hex0": WORKED_HEX0, "worked": WORKED, "empty": b"", "zero": b"\0", "three": b"abc",
    "other.hex0": OTHER_HEX0, "longer.hex0": b"61 62 63 64", LONGEST_NAME: WORKED_HEX0,
    "folder": FOLDER,
}
PROGRAMS: Files = {
    "exit.elf": EXIT, "seven.elf": SEVEN, "illegal.elf": ILLEGAL, "call.elf": CALL, "empty": b"",
}
LISTED: Files = {
    "exits": EXIT[-12:], "word": b"\xff\xff\xff\xff\x01", "empty": b"",
    "atomics": bytes.fromhex("2fa50510 2fa6d518 2fb5c506"),
}
LARGER: Files = {"large": Zeros(MOST_INPUT + 1)}
LARGEST: Files = {"large": Zeros(MOST_INPUT)}
GREETING = mark(b"Hello, chain!\n")
NO_STREAM, NO_ERROR = STREAMS.splitlines(keepends=True)


def unreadable(room: Room) -> None:
    """A file that may not be read."""
    not_root()
    room.lay({**COMPARED, "locked": b""})
    (room.folder / "locked").chmod(0)
    room.answers("hex0 locked worked", 11, "shelf fault locked\n")


def caller(room: Room) -> None:
    """Paths begin in the caller's folder."""
    room.lay(COMPARED)
    room.answers("hex0 ../worked.hex0 ../worked", 0, "equal 2\n", where="folder")
    room.holds(COMPARED)


def by_path(room: Room) -> None:
    """The examples, by whole paths."""
    hex0 = [str(example("hex0", it)) for it in ("exit42.hex0", "exit42.elf", "exit43.elf")]
    room.answers(["hex0", hex0[0], hex0[1]], 0, "equal 132\n")
    room.answers(["hex0", hex0[0], hex0[2]], 3, "differs 122 132 132\n")
    greet = [str(example("run", it)) for it in ("greet.hex0", "greet.elf")]
    room.answers(["hex0", *greet], 0, "equal 255\n")
    left = f"left {b'greeting'.hex()} {GREETING}\n"
    room.answers(["run", greet[1], "1000"], 0,
                 f"exited 0 step 27\nstream 1 {GREETING}\n{NO_ERROR}{left}")
    room.answers(["run", greet[1], "26"], 6, "failed spent step 26\n")
    room.holds({})


CASES: list[AnyCase] = [
    *table(
        "hex0", COMPARED,
        Case("a commented source", "hex0 worked.hex0 worked", 0, "equal 2\n"),
        Case("nothing is the value of nothing", "hex0 empty empty", 0, "equal 0\n"),
        Case("one byte more", "hex0 empty zero", 3, "differs 0 0 1\n"),
        Case("another byte", "hex0 other.hex0 three", 3, "differs 2 3 3\n"),
        Case("one byte less", "hex0 longer.hex0 three", 3, "differs 3 4 3\n"),
        Case("no source", "hex0 none worked", 10, "file refused none absent\n"),
        Case("no binary", "hex0 worked.hex0 none", 10, "file refused none absent\n"),
        Case("the source is loaded first", "hex0 none folder", 10, "file refused none absent\n"),
        Case("a path below a folder that is not there", "hex0 none/a worked", 10,
             "file refused none/a absent\n"),
        Case("a name of 255 bytes", f"hex0 {LONGEST_NAME} worked", 0, "equal 2\n"),
        Case("a path with a blank", ["hex0", "a b", "worked"], 10, "file refused a b absent\n"),
        Case("a name of 256 bytes", f"hex0 {LONG_NAME} worked", 2, "usage\n"),
        Case("an empty word", ["hex0", "", "worked"], 2, "usage\n"),
        Case("a second empty word", ["hex0", "worked.hex0", ""], 2, "usage\n"),
        Case("a word that is not UTF-8", ["hex0", b"\xff", "worked"], 2, "usage\n"),
        Case("no word", "", 2, "usage\n"),
        Case("a command without its words", "hex0", 2, "usage\n"),
        Case("one word too few", "hex0 worked.hex0", 2, "usage\n"),
        Case("one word too many", "hex0 worked.hex0 worked more", 2, "usage\n"),
        Case("an unknown command", "hex9 worked.hex0 worked", 2, "usage\n"),
        Case("a command in capitals", "HEX0 worked.hex0 worked", 2, "usage\n"),
        Case("a folder as the source", "hex0 folder worked", 11, "shelf fault folder\n"),
        Case("a folder as the binary", "hex0 worked.hex0 folder", 11, "shelf fault folder\n"),
        Case("a path through a file", "hex0 worked/a worked", 11, "shelf fault worked/a\n"),
        Case("a file that cannot be read", "hex0 /proc/self/mem worked", 11,
             "shelf fault /proc/self/mem\n"),
        Case("a source of one byte too many, which is not kept", "hex0 large worked", 10,
             "file refused large too long\n", setting=SMALL, files=LARGER),
        Case("a binary of one byte too many", "hex0 worked.hex0 large", 10,
             "file refused large too long\n", setting=SMALL, files=LARGER),
        Case("a source as large as may be, for which there is no memory", "hex0 large worked", 13,
             setting=SMALL, files=LARGEST),
        Case("standard output is closed", "hex0 worked.hex0 worked", 12, setting=CLOSED),
        Case("standard output is full", "hex0 worked.hex0 worked", 12, setting=FULL),
    ),
    *table(
        "run", PROGRAMS,
        Case("a program that exits with 0", "run exit.elf 3", 0, f"exited 0 step 3\n{STREAMS}"),
        Case("a program that exits with 7", f"run seven.elf {MOST_STEPS} a b", 6,
             f"exited 7 step 3\n{STREAMS}"),
        Case("a program out of steps", "run exit.elf 2", 6, "failed spent step 2\n"),
        Case("no steps", "run exit.elf 0", 2, "usage\n"),
        Case("too many steps", f"run exit.elf {2**48 + 1}", 2, "usage\n"),
        Case("steps with a leading zero", "run exit.elf 03", 2, "usage\n"),
        Case("no word for the steps", "run exit.elf", 2, "usage\n"),
        Case("an illegal word", "run illegal.elf 9", 6, "failed trap illegal 00000000 step 1\n"),
        Case("an unknown call", "run call.elf 9", 6, "failed call 0 step 3\n"),
        Case("no program", "run empty 9", 6, "failed start elf 1 step 0\n"),
        Case("arguments that are too long", ["run", "exit.elf", "9", "a" * 131000, "aaaa"], 6,
             "failed start args step 0\n"),
        Case("a program that is not there", "run none 9", 10, "file refused none absent\n"),
    ),
    *table(
        "list", LISTED,
        Case("a listing", "list exits", 0, "00000000 00000513 addi x10, x0, 0\n"
             "00000004 05d00893 addi x17, x0, 93\n00000008 00000073 ecall\n"),
        Case("a listing of atomic rows", "list atomics", 0,
             "00000000 1005a52f lr.w x10, (x11)\n00000004 18d5a62f sc.w x12, x13, (x11)\n"
             "00000008 06c5b52f amoadd.d.aqrl x10, x12, (x11)\n"),
        Case("a listing of no instruction", "list word", 0,
             "00000000 ffffffff ?\n00000004 rest 01\n"),
        Case("a listing of nothing", "list empty"),
        Case("a listing of a word too many", "list exits more", 2, "usage\n"),
        Case("a listing of one byte too many", "list large", 10, "file refused large too long\n",
             setting=SMALL, files={"large": Zeros(MOST_LISTING + 1)}),
    ),
    *specials("hex0", unreadable, caller, by_path),
]
