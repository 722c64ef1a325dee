"""Files that cases of several tables lay, and what is computed of them without the program."""

import re
from pathlib import Path

from ddc_tests.cases import TOP
from ddc_tests.contents import mark
from ddc_tests.folders import Files

EXAMPLES = TOP / "examples"
LONGEST_NAME = "a" * 255
LONG_NAME = "a" * 256
MOST_STEPS = str(2**48)

# The most bytes of a source, a binary or an input; a listing; a report; a recipe, a list or a
# script; and a save or a patch.
MOST_INPUT = 268_435_456
MOST_LISTING = 16_777_216
MOST_REPORT = 1_073_741_824
MOST_TEXT = 1_048_576
MOST_SAVE = 4_294_967_296
# The most bytes of a source or an artefact in a checked stage, and of a source in M1.
MOST_CHECKED = 67_108_864


def elf(code: bytes) -> bytes:
    """A program of these instructions, loaded at 0x10000 and entered at 0x10078."""
    size = 0x78 + len(code)
    header = b"\x7fELF\2\1\1" + bytes(9) + b"\2\0\xf3\0\1\0\0\0"
    header += b"".join(it.to_bytes(8, "little") for it in (0x10078, 0x40, 0))
    header += bytes(4) + b"\x40\0\x38\0\1\0\0\0\0\0\0\0"
    segment = b"\1\0\0\0\7\0\0\0"
    lines = (0, 0x10000, 0x10000, size, size, 0x1000)
    return header + segment + b"".join(it.to_bytes(8, "little") for it in lines) + code


EXIT_CALL = bytes.fromhex("9308d005 73000000")
EXIT = elf(bytes.fromhex("13050000") + EXIT_CALL)
SEVEN = elf(bytes.fromhex("13057000") + EXIT_CALL)
ILLEGAL = elf(bytes(4) + EXIT_CALL)
CALL = elf(bytes.fromhex("13050000 93080000 73000000"))
# Writes three bytes of its own to its standard error, and exits with 12.
FAILS = elf(bytes.fromhex("13052000 b7050100 93851500 13063000 93080004 73000000 1305c000")
            + EXIT_CALL)
# One instruction that jumps to itself.
ENDLESS = elf(bytes.fromhex("6f000000") + bytes(8))

STREAMS = f"stream 1 {mark(b'')}\nstream 2 {mark(b'')}\n"
WORKED_HEX0 = b"# a\n7F 4\n5;x"
WORKED = b"\x7f\x45"
OTHER_HEX0 = b"61 62\n64 # d\n"

REPORT_FOLDER = EXAMPLES / "report"
AUDIT_FOLDER = EXAMPLES / "audit"
REPORT: Files = {
    name: REPORT_FOLDER / name
    for name in ("README.md", "a.bin", "a.report", "a.toml", "b.bin", "copy.elf", "copy.hex0",
                 "made-text.toml")
}
AUDIT: Files = {
    name: AUDIT_FOLDER / name
    for name in ("altered.elf", "altered.toml", "audit.toml", "bad-seed.toml", "hex0.elf",
                 "hex0.hex0", "seed.elf", "seed.hex0")
}
AUDIT_REPORT = TOP / "tests" / "audit" / "audit.report"
ALTERED_REPORT = TOP / "tests" / "audit" / "altered.report"
A_TOML = (REPORT_FOLDER / "a.toml").read_text()
A_REPORT = (REPORT_FOLDER / "a.report").read_text()
AUDIT_TOML = (AUDIT_FOLDER / "audit.toml").read_text()


class NotThere(Exception):
    """A text that a case alters is not in the file any more."""


def replaced(text: str, old: str, new: str, times: int = -1) -> str:
    """A text with another in the place of one that has to be there: at each place, or the first."""
    if old not in text:
        raise NotThere(f"{old!r} in {text!r}")
    return text.replace(old, new, times)


def edited(text: str, pattern: str, new: str, times: int = 0) -> str:
    """A text edited by a regular expression that has to match: at each place, or the first.

    `^` and `$` stand at the ends of each line.
    """
    done, count = re.subn(pattern, new, text, count=times, flags=re.MULTILINE)
    if not count:
        raise NotThere(f"{pattern!r} in {text!r}")
    return done


def block_of(report: str, stage: str) -> str:
    """The lines of a stage in a report, from its first to `unchecked`."""
    found = re.search(rf"^stage {stage} .*?^unchecked\n", report, re.MULTILINE | re.DOTALL)
    if found is None:
        raise NotThere(stage)
    return found[0]


def example(*parts: str) -> Path:
    """A file of examples/."""
    return EXAMPLES.joinpath(*parts)
