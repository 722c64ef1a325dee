"""Why a report, a piece or a comparison was found false: the name, and what the replay gave."""

import re
from collections.abc import Iterator

from ddc_tools.asked import Asked, content_of, left_by, ordinal, output_word, scratch, shown
from ddc_tools.pieces import sha256
from ddc_tools.program import call
from ddc_tools.run_reasons import bytes_differ

STATES = {"1": "it has not the form of a state's text", "2": "a count or a range in it is wrong",
          "3": "a reference in it is wrong"}
X1, REGISTERS_END = 24, 272


def refuted(asked: Asked, found: re.Match[str]) -> Iterator[str]:
    """The first part of a report that is not true."""
    part, place = found[1], int(found[2])
    report = asked.content("REPORT").decode(errors="replace").splitlines()
    if asked.command == "kaem-verify":
        yield from script_refuted(asked, part, place, report)
    elif part == "header":
        yield from header(asked, report)
    elif part == "input":
        yield from input_line(asked, place, report)
    else:
        yield from replayed(asked, part, place, report)


def header(asked: Asked, report: list[str]) -> Iterator[str]:
    """A report of another recipe."""
    digest = sha256(asked.content("RECIPE")).hex()
    said = report[1].split(" ")[-1] if len(report) > 1 else ""
    recipe, name = asked.word("RECIPE"), asked.word("REPORT")
    if digest != said:
        yield f"{name}:2: the report is of a recipe with the digest {said}, and {recipe} has " \
              f"{digest}: the recipe was changed since, if only in a comment, or the report is " \
              "of another one"
        return
    form = str(asked.tables().get("format"))
    if report[0].split(" ")[-1] != form:
        yield f"{name}:1: the form is {report[0].split(' ')[-1]}, and the recipe's format {form}"
        return
    for kind in ("input", "stage"):
        names = [str(it.get("name")) for it in asked.items(kind)]
        lines = [line.split(" ")[1] for line in report if line.startswith(kind + " ")]
        if names != lines:
            yield f"{name}: its {kind}s are {', '.join(lines)}, and the recipe's " \
                  f"{', '.join(names)}"
            return
    yield f"{name}: its lines checked, unchecked or compare are not those that {recipe} asks for"


def input_line(asked: Asked, place: int, report: list[str]) -> Iterator[str]:
    """An input that is another file than the audit read."""
    table = asked.items("input")[place - 1]
    line = next((it for it in report if it.startswith(f"input {table.get('name')} ")), "")
    content = content_of(str(table.get("path")))
    yield f"the {ordinal(place)} input, {table.get('name')}, is the file {table.get('path')} of " \
          f"{len(content):,} bytes with the digest {sha256(content).hex()}"
    yield f"the report has: {line}"


def block(lines: list[str], kind: str, place: int) -> list[str]:
    """The lines of the N-th stage or command of a report."""
    starts = [at for at, line in enumerate(lines) if line.split(" ")[0] == kind]
    if not 0 < place <= len(starts):
        return []
    end = starts[place] if place < len(starts) else len(lines)
    ends = ("compare ", "end") if kind == "stage" else ("left ", "end")
    return [it for it in lines[starts[place - 1]:end] if not it.startswith(ends) or
            (kind == "stage" and it.startswith("left "))]


def replayed(asked: Asked, part: str, place: int, report: list[str]) -> Iterator[str]:
    """A stage or a comparison that is otherwise in an audit that is made here and now."""
    stages = [str(it.get("name")) for it in asked.items("stage")]
    name = stages[place - 1] if part != "compare" and 0 < place <= len(stages) else ""
    which = f"the {ordinal(place)} stage, {name}," if name else "a comparison"
    with scratch() as folder:
        answer = call(["audit", asked.word("RECIPE"), folder / "report"])
        made = content_of(str(folder / "report")).decode(errors="replace").splitlines()
    if answer.status not in (0, 3):
        yield f"{which} does not end as the report says; an audit made now says: {answer.said}"
        return
    if part == "compare":
        ours = [it for it in made if it.startswith("compare ")]
        theirs = [it for it in report if it.startswith("compare ")]
    else:
        ours, theirs = block(made, "stage", place), block(report, "stage", place)
    yield f"{which} is otherwise than in {asked.word('REPORT')}"
    yield from lines_differ(ours, theirs)


def lines_differ(ours: list[str], theirs: list[str]) -> Iterator[str]:
    """The lines that only one of two texts has."""
    for line in (it for it in theirs if it not in ours):
        yield f"the report has:  {readable(line)}"
    for line in (it for it in ours if it not in theirs):
        yield f"the replay gave: {readable(line)}"


def readable(line: str) -> str:
    """A line of a report, with the name of a left file beside it."""
    words = line.split(" ")
    if words[0] in ("left", "file"):
        return f"{line} (the file {bytes.fromhex(words[1]).decode(errors='replace')})"
    return line


def script_refuted(asked: Asked, part: str, place: int, report: list[str]) -> Iterator[str]:
    """The first part of a script's report that is not true."""
    if part == "header":
        yield f"{asked.word('REPORT')}:2: the report is of another script: " \
              f"{asked.word('SCRIPT')} has the digest {sha256(asked.content('SCRIPT')).hex()}"
        return
    with scratch() as folder:
        answer = call(["kaem", asked.word("SCRIPT"), asked.word("LIST"), folder / "report",
                       str(1 << 40)])
        made = content_of(str(folder / "report")).decode(errors="replace").splitlines()
    what = {"file": f"the {ordinal(place)} file of {asked.word('LIST')}",
            "run": f"the run of the {ordinal(place)} command",
            "streams": f"the output of the {ordinal(place)} command"}.get(
                part, "the files that are left")
    if answer.status != 0:
        yield f"{what}: the script run now says: {answer.said}"
        return
    yield f"{what}: otherwise than in {asked.word('REPORT')}"
    if part in ("run", "streams"):
        yield from lines_differ(block(made, "command", place), block(report, "command", place))
    else:
        yield from lines_differ([it for it in made if it.startswith(part + " ")],
                                [it for it in report if it.startswith(part + " ")])


def of_chain(asked: Asked, found: re.Match[str]) -> Iterator[str]:
    """The audit of a list that was not yes."""
    line = asked.content("LIST").decode(errors="replace").split("\n")[int(found[1]) - 1]
    yield f"{asked.word('LIST')}:{found[1]}: the audit {line}"
    recipe, _, report = line.partition(" ")
    asked.named.update(RECIPE=recipe, REPORT=report)


def segment_refuted(asked: Asked, found: re.Match[str]) -> Iterator[str]:
    """Two states that are no piece."""
    words = found[1].split(" ")
    first, second = asked.word("FROM"), asked.word("TO")
    if words[0] in ("from", "to"):
        yield f"{first if words[0] == 'from' else second} is no state: {STATES[words[1]]}"
    elif words[0] == "later":
        yield f"{second} has taken no more steps than {first}: are the two in this order?"
    elif words[0] == "far":
        yield f"{second} is more than 2^48 steps after {first}"
    elif words[0] == "ends":
        yield f"the run from {first} ends at step {int(words[1]):,}, before the state of {second}"
    else:
        yield f"the run from {first} reaches another state than {second} at its step: " \
              f"{field_at(int(words[1]))} differs"


def field_at(offset: int) -> str:
    """The field of a state's text at an offset."""
    if X1 <= offset < REGISTERS_END:
        return f"the register x{(offset - X1) // 8 + 1}"
    named = {0: "the magic", 1: "the count of steps", 2: "the pc"}
    return named.get(offset // 8, f"the byte at the offset {offset:,} (memory, files or streams)")


def end_refuted(asked: Asked, found: re.Match[str]) -> Iterator[str]:
    """A first or last state that is not the stage's."""
    prefix, words = asked.word("PREFIX"), found[2].split(" ")
    if found[1] == "last":
        last = f"{prefix}.{int(asked.word('COUNT')) - 1}"
        yield f"{last} is no state: {STATES[words[0]]}"
    elif words[0] == "differs":
        yield f"{prefix}.0 is not the state in which stage {asked.word('STAGE')} starts: " \
              f"{field_at(int(words[1]))} differs"
    else:
        yield f"{prefix}.0 is no state: {STATES[words[0]]}"


def differs(asked: Asked, found: re.Match[str]) -> Iterator[str]:
    """A compared stage whose artefact is not the audited binary."""
    name, binary, place = found[1], found[2], int(found[3])
    made = left_by(asked, name, output_word(asked.item("stage", name))) or b""
    path = str(asked.item("input", binary).get("path"))
    yield f"what stage {name} made ({int(found[4]):,} bytes) is not {path} ({int(found[5]):,} " \
          "bytes); the audit is made and its report is true"
    yield bytes_differ(place, "the artefact", made, path, content_of(path))


def value_differs(asked: Asked, found: re.Match[str]) -> Iterator[str]:
    """A hex0 source whose value is not the binary."""
    with scratch() as folder:
        call(["asm", "hex0", "0", asked.word("SOURCE"), folder / "value"])
        value = content_of(str(folder / "value"))
    yield bytes_differ(int(found[1]), "the value of " + asked.word("SOURCE"), value,
                       asked.word("BINARY"), asked.content("BINARY"))


def no_place(asked: Asked, found: re.Match[str]) -> Iterator[str]:
    """A place that a source does not have."""
    source = asked.word("SOURCE")
    if asked.word("NUMBER") == "7":
        yield "the refusal 7 says that the source is too long: a source that is too long has no " \
              "place"
        return
    item = asked.word("LANG") in ("hex1", "hex2") and asked.word("NUMBER") in ("4", "5", "6")
    what = "item" if item else "byte at the offset"
    yield f"{source} ({len(asked.content('SOURCE')):,} bytes) has no {what} " \
          f"{asked.word('PLACE')}: are LANG and NUMBER those of the refusal?"


def paused(asked: Asked, found: re.Match[str]) -> Iterator[str]:
    """An audit that is not over."""
    yield f"no refusal: stage {found[1]} has taken {int(found[2]):,} steps and the audit is not " \
          "over; go on with `ddc resume`, or by tools/in-pieces"


def too_many_segments(asked: Asked, found: re.Match[str]) -> Iterator[str]:
    """An EVERY that makes more than 1,000 states."""
    stage = asked.item("stage", asked.word("STAGE"))
    limit = int(stage.get("steps", 0))
    yield f"1,000 states every {asked.word('EVERY')} steps did not reach the end of stage " \
          f"{stage.get('name')}; EVERY {limit // 999 + 1} is enough up to its limit of {limit:,} " \
          f"steps. The states {shown(asked.word('PREFIX').encode())}.0 to .999 stay"
