"""Why a program did not exit with 0, or why what it made is not what its source says."""

import re
from collections.abc import Callable, Iterator
from pathlib import Path
from typing import Any

from ddc_tools.asked import (Asked, content_of, left_by, line_at, ordinal, output_word, scratch,
                             shown)
from ddc_tools.kaem import BUILT_IN, Command, ScriptFault, commands_of
from ddc_tools.program import call
from ddc_tools.usage_reasons import near

ELF = {1: "the file has fewer than 64 bytes", 2: "the file is no ELF file",
       3: "it is not a 64-bit little-endian file", 4: "it is for another machine than RISC-V",
       5: "it is no executable at fixed addresses (e_type is not 2): link it with -no-pie, and an "
          "object file has to be linked", 6: "its program headers are of another size or pass the "
       "file's end", 7: "it is dynamically linked (it asks for an interpreter): link with -static",
       8: "it has no segment to load", 9: "it has more than 16 segments",
       10: "a segment passes the file's end, has more bytes in the file than in memory, or lies "
           "too high", 11: "two segments share a page: link with -Wl,-z,separate-code or another "
       "linker script", 12: "its entry is not in a segment, or is not a multiple of 4"}
CALLS = {17: "getcwd", 19: "eventfd2", 23: "dup", 24: "dup3", 25: "fcntl", 29: "ioctl",
         34: "mkdirat", 36: "symlinkat", 37: "linkat", 38: "renameat", 46: "ftruncate",
         49: "chdir", 59: "pipe2", 61: "getdents64", 65: "readv", 66: "writev", 78: "readlinkat",
         79: "newfstatat", 80: "fstat", 96: "set_tid_address", 98: "futex", 101: "nanosleep",
         113: "clock_gettime", 129: "kill", 131: "tgkill", 134: "rt_sigaction",
         135: "rt_sigprocmask", 160: "uname", 169: "gettimeofday", 172: "getpid", 215: "munmap",
         220: "clone", 221: "execve", 222: "mmap", 226: "mprotect", 260: "wait4",
         261: "prlimit64", 276: "renameat2", 278: "getrandom", 291: "statx"}
HEX = {1: "a hexadecimal digit has no second one", 2: "no token begins here, or a word has a "
       "second reference", 3: "a word of four bytes is not complete", 4: "this label is defined "
       "twice", 5: "this label is nowhere defined", 6: "the distance or the address does not fit",
       7: "the source is too long"}
M1 = {1: "after DEFINE come a name and a value", 2: "this name has a definition already",
      3: "this quote is not closed", 4: "this word is neither a definition, nor digits, a number, "
      "a text or a reference, or is a second reference in a word of four bytes",
      5: "this number is out of its range", 6: "a word of four bytes is not complete",
      7: "the source is too long"}
MOST_SHOWN = 300
TEXT_OF = re.compile(r"(.*) step (\d+)")


def cause_reasons(cause: str, program: bytes) -> Iterator[str]:
    """The cause of an end in plain words."""
    words = cause.split(" ")
    if words[0] == "start":
        number = int(words[2]) if words[1] == "elf" else 0
        yield f"the program does not start: {ELF[number]}" if number else \
            "the program does not start: its arguments, environment or files are too long"
    elif cause.startswith("trap illegal"):
        yield from illegal(words[2])
    elif words[0] == "trap":
        yield from trap(words)
    elif words[0] == "call":
        number = int(words[1])
        name = f", {CALLS[number]} of Linux," if number in CALLS else ""
        yield f"the program made the call {number}{name} which is not among the eleven calls " \
              "(docs/reference/calls.md)"
    elif words[0] in ("status", "exited"):
        yield f"the program itself refused: it exited with the status {words[1]}"
    elif words[0] == "spent":
        yield "the steps did not suffice, or the program never ends: give ten times as many, and " \
              "then look with `ddc step`"
    if words[0] in ("trap", "start") and is_compressed(program):
        yield "the program's header says RVC: it has compressed instructions; build it and all " \
              "its libraries with -march=rv64ima -mabi=lp64"


def is_compressed(program: bytes) -> bool:
    """Whether an ELF file's header says that it has compressed instructions."""
    return program[:4] == b"\x7fELF" and len(program) > 48 and bool(program[48] & 1)


def illegal(word: str) -> Iterator[str]:
    """A word that is no instruction of this machine."""
    if word[-1] in "37bf":
        yield f"{word} is no instruction of RV64IMA: one of F, D or another extension, or data"
    else:
        yield f"{word} is no instruction of 32 bits (its last digit is not 3, 7, b or f): a " \
              "compressed instruction, or data; build with -march=rv64ima -mabi=lp64"


def trap(words: list[str]) -> Iterator[str]:
    """A trap at an address."""
    where = {"fetch-unmapped": "jumped to", "fetch-misaligned": "jumped to",
             "load-unmapped": "read at", "store-unmapped": "wrote at"}.get(words[1])
    if where is None:
        yield "the program stopped at an ebreak instruction"
        return
    address = int(words[2], 16)
    yield f"the program {where} the address {words[2].lstrip('0') or '0'}, " + (
        "which is no multiple of 4: compressed code" if words[1] == "fetch-misaligned" else
        "which is not mapped" + (": most often a null pointer" if address < 4096 else
                                 ": most often the stack has passed its 8 MiB"
                                 if 0x3FFF000000 < address < 0x3FFF800000 else
                                 ": gp or a pointer that was never set, where it is near 0 or "
                                 "near 2^64" if address < 1 << 16 or address >> 63 else ""))
    yield "`ddc step` goes to the step before and shows the registers"


def step_note(cause: str, step: str) -> str:
    """At which step."""
    return f"({cause} at step {int(step):,})" if step.isdigit() else f"({cause})"


def stage_failed(asked: Asked, found: re.Match[str]) -> Iterator[str]:
    """A stage, or a command of a script, whose run did not end well."""
    name, cause, step = found[1], found[2], found[3]
    if asked.command.startswith("kaem"):
        yield from command_failed(asked, int(name), cause, step)
        return
    stage = asked.item("stage", name)
    yield f"stage {name} of {asked.word('RECIPE')} runs {stage.get('program')} " \
          f"{step_note(cause, step)}"
    path = asked.item("input", str(stage.get("program"))).get("path", "")
    yield from cause_reasons(cause, content_of(path))
    if cause == "no-output":
        yield from no_output(asked, name, stage)
    if cause == "crowded":
        yield "all artefacts together have more than 1,073,741,824 bytes"
    if cause.split(" ")[0] in ("status", "trap", "call", "spent"):
        yield from said_before(left_by(asked, name, "2"), left_by(asked, name, "1"))


def no_output(asked: Asked, name: str, stage: dict[str, Any]) -> Iterator[str]:
    """A stage that ended well and left no output."""
    yield f"it exited with 0 and left no file {stage.get('output')}, which its key output names"
    words = [str(it) for it in stage.get("args", [])[1:]]
    there = [it for it in words if it and left_by(asked, name, f"./{it}") is not None]
    given = {str(it.get("path")) for it in stage.get("files", [])}
    made = [it for it in there if it not in given]
    if made:
        yield f"it left {', '.join(made)}: is that the output?"
    yield from said_before(left_by(asked, name, "2"), left_by(asked, name, "1"))


def said_before(errors: bytes | None, output: bytes | None) -> Iterator[str]:
    """The first bytes of what a program wrote."""
    for what, text in (("standard error", errors), ("standard output", output)):
        if text:
            yield f"it wrote to {what}: {shown(text, MOST_SHOWN)}"
            return
    if errors is not None:
        yield "it wrote nothing to standard error and standard output"


def command_failed(asked: Asked, number: int, cause: str, step: str) -> Iterator[str]:
    """A command of a script that did not end well."""
    name = asked.word("SCRIPT")
    try:
        command = commands_of(asked.content("SCRIPT"))[number - 1]
    except (ScriptFault, IndexError):
        return
    text = " ".join(command.words)
    yield f"{name}:{command.line}: the {ordinal(number)} command, {shown(text.encode())} " \
          f"{step_note(cause, step)}"
    if cause == "no-program":
        yield from no_program(asked, command)
        return
    yield from cause_reasons(cause, content_of(command.program))
    steps = asked.word("STEPS")
    if not steps or cause.startswith("start"):
        return
    texts = []
    for stream in ("2", "1"):
        with scratch() as folder:
            call(["kaem-left", name, asked.word("LIST"), steps, str(number), stream,
                  folder / "out"])
            texts.append(content_of(str(folder / "out")))
    yield from said_before(*texts)


def no_program(asked: Asked, command: Command) -> Iterator[str]:
    """A command whose program is not there."""
    program = command.program
    if program in BUILT_IN:
        yield f"{program} is built into shells, and ddc has no such program: {BUILT_IN[program]}"
        return
    if "=" in program:
        yield f"{program} sets a variable, and there are none: write the value where it is used"
        return
    listed = asked.content("LIST").decode(errors="replace").split("\n")
    on_disk = Path(program).exists()
    yield f"no file {program}: neither {asked.word('LIST')} nor a command before has made it" + (
        f"; it is on disk: add the line {program} to {asked.word('LIST')}" if on_disk else
        near(program, listed))


def ran(asked: Asked, found: re.Match[str]) -> Iterator[str]:
    """A program of `run` that did not end well."""
    cause, step = found[1], found[2]
    yield f"{asked.word('PROGRAM')} {step_note(cause, step)}"
    yield from cause_reasons(cause, asked.content("PROGRAM"))
    if cause.startswith("exited"):
        yield "run gives a program its own name as the first argument, and no files"


def left(asked: Asked, found: re.Match[str]) -> Iterator[str]:
    """What `left` and `kaem-left` say of a file."""
    who, file, cause, step = found[1], found[2], found[3], found[4]
    not_there = asked.answer.text.startswith("not left")
    yield f"{who} ended {step_note(cause, step)}" + (
        f", and nothing stands at {file}; nothing is saved" if not_there else
        f"; what stood at {file} then is saved")
    yield from cause_reasons(cause, b"")
    args = asked.item("stage", who).get("args", [])
    names = [str(it) for it in args[1:] if "RECIPE" in asked.named
             and left_by(asked, who, f"./{it}") is not None]
    if not_there and names:
        yield f"files of its arguments that are there: {', '.join(names)}"


# ---- checks


def source_text(asked: Asked, source: dict[str, Any]) -> tuple[bytes, list[tuple[str, int]]]:
    """The joined text of a source, and each of its files with the offset where it begins."""
    parts, starts, at = [], [], 0
    for name in source.get("files", []):
        path = asked.item("input", name).get("path")
        stage = asked.item("stage", name)
        content = content_of(path) if path else left_by(asked, name, output_word(stage)) or b""
        starts.append((path or f"what stage {name} made", at))
        parts.append(content)
        at += len(content) + 1
    return b"\n".join(parts), starts


def in_file(starts: list[tuple[str, int]], text: bytes, offset: int) -> str:
    """FILE:LINE:COLUMN of an offset in a joined text, and the word there."""
    path, start = next((it for it in reversed(starts) if it[1] <= offset), ("the source", 0))
    line, column = line_at(text[start:], offset - start)
    word = re.split(rb"[ \t\r\n]", text[offset:offset + 80])[0]
    return f"{path}:{line}:{column}: {shown(word)}"


def place_of(language: str, text: bytes, number: int, place: int) -> int | None:
    """The offset of a refusal's place, by `ddc where`."""
    with scratch() as folder:
        path = folder / "source"
        path.write_bytes(text)
        said = call(["where", language, path, str(number), str(place)]).text
    found = re.match(r"line (\d+) column (\d+) ", said)
    if not found:
        return None
    before = text.split(b"\n")[:int(found[1]) - 1]
    return sum(len(it) + 1 for it in before) + int(found[2]) - 1


def check_failed(asked: Asked, found: re.Match[str]) -> Iterator[str]:
    """A stage whose artefact is not what its source says."""
    name, cause = found[1], found[2].split(" ")
    stage = asked.item("stage", name)
    source = asked.item("source", stage.get("check", ""))
    language = str(source.get("lang"))
    text, starts = source_text(asked, source)
    yield f"stage {name} of {asked.word('RECIPE')} is checked against the source " \
          f"{source.get('name')} in {language}"
    if cause[0] in ("hex", "m1"):
        number, place = int(cause[1]), int(cause[2])
        offset = place_of(language, text, number, place)
        why = (HEX if cause[0] == "hex" else M1).get(number, "a fault")
        yield f"{in_file(starts, text, offset)}: {why}" if offset is not None else why
    elif cause[0] == "items":
        made = left_by(asked, name, output_word(stage)) or b""
        offset = place_of("hex2", made, int(cause[1]), int(cause[2]))
        yield "the artefact is no text of hex2: " + HEX.get(int(cause[1]), "a fault") + (
            f", {in_file([('the artefact', 0)], made, offset)}" if offset is not None else "")
    elif language == "m1":
        yield from items_differ(asked, name, stage, text, int(cause[1]))
    else:
        yield from value_differs(asked, name, stage, source, text, int(cause[1]))
    yield from other_files(stage, source)


def value_differs(asked: Asked, name: str, stage: dict[str, Any], source: dict[str, Any],
                  text: bytes, place: int) -> Iterator[str]:
    """Both bytes at which an artefact and its source's value differ."""
    with scratch() as folder:
        (folder / "text").write_bytes(text)
        base = source.get("base", 6291456)
        call(["asm", source.get("lang", ""), str(base), folder / "text", folder / "value"])
        value = content_of(str(folder / "value"))
    made = left_by(asked, name, output_word(stage)) or b""
    yield bytes_differ(place, "the artefact", made, "the source's value", value)
    if source.get("lang") in ("hex1", "hex2"):
        yield f"the source's base is {base}: every absolute address moves with it"


def bytes_differ(place: int, one: str, first: bytes, other: str, second: bytes) -> str:
    """Both bytes at an offset, or which of two contents has ended there."""
    def at(content: bytes) -> str:
        """What a content has there."""
        return f"the byte {content[place]:02x}" if place < len(content) else \
            f"ended ({len(content):,} bytes)"
    return f"at the offset {place:,} {one} has {at(first)} and {other} has {at(second)}"


def items_differ(asked: Asked, name: str, stage: dict[str, Any], text: bytes,
                 place: int) -> Iterator[str]:
    """Both items at which an artefact and a source in M1 differ."""
    with scratch() as folder:
        (folder / "text").write_bytes(text)
        call(["asm", "m1", "0", folder / "text", folder / "items"])
        items = content_of(str(folder / "items"))
    made = left_by(asked, name, output_word(stage)) or b""
    for what, content in (("the artefact", made), ("the source", items)):
        offset = place_of("hex2", content, 4, place)
        item = in_file([(what, 0)], content, offset) if offset is not None else f"{what} has ended"
        yield f"item {place:,} (from 0): {item}"


def other_files(stage: dict[str, Any], source: dict[str, Any]) -> Iterator[str]:
    """A note where a stage is not given the files of the source that it is checked against."""
    given = {it.get("from") for it in stage.get("files", [])}
    strange = [it for it in source.get("files", []) if it not in given]
    if strange:
        yield f"note: the stage is not given {', '.join(strange)}, of which its source is made: " \
              f"its files are {', '.join(sorted(map(str, given))) or 'none'}"


def asm_refused(asked: Asked, found: re.Match[str]) -> Iterator[str]:
    """A source that its language refuses."""
    language, text = asked.word("LANG"), asked.content("SOURCE")
    number, place = int(found[1]), int(found[2])
    offset = place_of(language, text, number, place)
    why = (M1 if language == "m1" else HEX).get(number, "a fault")
    starts = [(asked.word("SOURCE"), 0)]
    yield f"{in_file(starts, text, offset)}: {why}" if offset is not None else \
        f"{asked.word('SOURCE')}: {why}"


Reason = Callable[[Asked, re.Match[str]], Iterator[str]]
