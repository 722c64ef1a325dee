"""Audits and the replay of their reports (docs/reference/audit.md, docs/reference/verify.md)."""

from __future__ import annotations

from typing import Any, Optional

import languages
import recipe as recipes
import report as reports
import start
from outside import (REPORT_LIMIT, TEXT_LIMIT, USAGE, Answer, clash, judge_words, load, load_all,
                     save)
from recipe import Recipe, Stage

MOST_INPUTS = MOST_ARTEFACTS = 1_073_741_824
Contents = dict[str, bytes]


def load_recipe(words: list[str]) -> tuple[bytes, Recipe]:
    """The recipe of a command line of RECIPE and REPORT, which clashes with no input's path."""
    judge_words(words, 2)
    if clash(*words):
        raise USAGE
    content = load(words[0], TEXT_LIMIT)
    recipe = recipes.read(content)
    if any(clash(words[1], one.path) for one in recipe.inputs):
        raise USAGE
    return content, recipe


def load_inputs(recipe: Recipe) -> Contents:
    """What the inputs hold, by their names."""
    return load_all([(one.name, one.path) for one in recipe.inputs], MOST_INPUTS)


def run_stage(stage: Stage, contents: Contents, most: int) -> start.Ending:
    """Runs a stage's program in its box for so many steps at most."""
    files = {path.encode(): contents[name] for path, name in stage.files}
    box = start.Box(stage.args, stage.env, files, stage.heap)
    return start.run(contents[stage.program], box, most, stage.name)


def artefact_of(stage: Stage, ending: start.Ending) -> Optional[bytes]:
    """What stands at a stage's output after its exit; none where nothing does."""
    assert ending.world is not None
    if not stage.output:
        return bytes(ending.world.streams[1])
    file = ending.world.names.get(stage.output.encode())
    return None if file is None else bytes(file.content)


def failed_check(recipe: Recipe, stage: Stage, contents: Contents) -> Optional[str]:
    """Why a stage's artefact is not what its source stands for; none where it is, or may be."""
    if stage.check is None:
        return None
    source, artefact = recipe.sources[stage.check], contents[stage.name]
    text = b"\n".join(contents[name] for name in source.files)
    word = "m1" if source.lang == "m1" else "hex"
    wanted: Any
    found: Any = artefact
    try:
        if source.lang == "m1":
            wanted, word = languages.m1_items(text), "items"
            found = languages.items("hex2", artefact)
        else:
            wanted = languages.value(source.lang, text, source.base)
    except languages.Refused as refused:
        return "{} {} {}".format(word, *refused.args)
    return None if wanted == found else f"differs {reports.first_difference(wanted, found)}"


def streams_of(ending: start.Ending) -> list[str]:
    """The lines on what a run wrote to both streams."""
    assert ending.world is not None
    return [f"stream {one} {reports.mark(bytes(ending.world.streams[one]))}" for one in (1, 2)]


def stage_lines(ending: start.Ending, artefact: bytes) -> list[str]:
    """The lines of a stage's block on what it left."""
    assert ending.world is not None
    left = reports.marks("left", ending.world.left())
    return [*streams_of(ending), *left, f"made {reports.mark(artefact)}"]


def checked_line(recipe: Recipe, stage: Stage) -> str:
    """The line on a stage's check."""
    return f"checked {recipe.sources[stage.check].lang}" if stage.check else "unchecked"


def comparisons(recipe: Recipe, contents: Contents) -> tuple[list[str], list[str], bool]:
    """The report's lines on the comparisons, the printed ones, and whether all are equal."""
    recorded, printed = [], []
    for name in recipe.compared:
        word, numbers = reports.compared(contents[name], contents[recipe.binary])
        recorded.append(f"compare {name} {recipe.binary} {word} {numbers}")
        printed.append(f"{word} {name} {recipe.binary} {numbers}")
    return recorded, printed, all(line.startswith("equal") for line in printed)


def audit(words: list[str]) -> Answer:
    """`audit RECIPE REPORT`: makes the audit, and saves its report."""
    content, recipe = load_recipe(words)
    contents = load_inputs(recipe)
    lines = [f"ddc-report {recipe.format}", f"recipe {reports.digest(content)}"]
    lines += [f"input {name} {reports.mark(holds)}" for name, holds in contents.items()]
    total = 0
    for stage in recipe.stages:
        ending = run_stage(stage, contents, stage.steps)
        artefact = artefact_of(stage, ending) if ending.cause == "status 0" else None
        total += len(artefact or b"")
        if artefact is None or total > MOST_ARTEFACTS:
            cause = "crowded" if artefact is not None else "no-output"
            cause = cause if ending.cause == "status 0" else ending.cause
            return Answer(6, f"run failed {stage.name} {cause} step {ending.step}")
        contents[stage.name] = artefact
        failed = failed_check(recipe, stage, contents)
        if failed:
            return Answer(7, f"check failed {stage.name} {failed}")
        lines += [f"stage {stage.name} {ending.step}", *stage_lines(ending, artefact)]
        lines.append(checked_line(recipe, stage))
    compares, printed, equal = comparisons(recipe, contents)
    save(words[1], "".join(line + "\n" for line in [*lines, *compares, "end"]).encode())
    return Answer(0 if equal else 3, *printed)


def judge_header(recipe: Recipe, content: bytes, lines: list[reports.Line]) -> None:
    """Judges all that the report has of the recipe's own words."""
    found = [[line.kind, *line.fields] for line in lines]
    heads = [["header", str(recipe.format)], ["recipe", reports.digest(content)]]
    names = [line[1] for line in found if line[0] in ("input", "stage")]
    checks = [line.text for line in lines if line.kind == "checked"]
    compares = [line[1:3] for line in found if line[0] in ("equal", "differs")]
    need(
        found[:2] == heads
        and sum(line[0] == "input" for line in found) == len(recipe.inputs)
        and names == [one.name for one in [*recipe.inputs, *recipe.stages]]
        and checks == [checked_line(recipe, stage) for stage in recipe.stages]
        and compares == [[name, recipe.binary] for name in recipe.compared],
        "header", 0,
    )


def need(holds: object, part: str, place: int) -> None:
    """Refutes the report, where a part of it is not true."""
    if not holds:
        raise Answer(1, f"refuted {part} {place}")


def judge_stages(recipe: Recipe, contents: Contents, lines: list[reports.Line]) -> None:
    """Replays each stage, and judges its block."""
    total, at = 0, next(at for at, line in enumerate(lines) if line.kind == "stage")
    for number, stage in enumerate(recipe.stages, 1):
        end = next(after for after in range(at, len(lines)) if lines[after].kind == "checked")
        steps = int(lines[at].fields[1])
        need(1 <= steps <= stage.steps, "run", number)
        ending = run_stage(stage, contents, steps)
        need((ending.cause, ending.step) == ("status 0", steps), "run", number)
        artefact = artefact_of(stage, ending)
        recorded = [line.text for line in lines[at + 1 : end]]
        need(artefact is not None and recorded == stage_lines(ending, artefact), "files", number)
        total += len(artefact or b"")
        need(total <= MOST_ARTEFACTS, "files", number)
        contents[stage.name] = artefact or b""
        need(failed_check(recipe, stage, contents) is None, "assembled", number)
        at = end + 1


def judge(words: list[str]) -> tuple[bytes, Recipe, Contents]:
    """The recipe's file, the recipe, and what its names stand for, where the report is true."""
    content, recipe = load_recipe(words)
    lines = reports.read(reports.AUDIT, load(words[1], REPORT_LIMIT))
    contents = load_inputs(recipe)
    judge_header(recipe, content, lines)
    recorded = [line.text for line in lines if line.kind == "input"]
    for number, (line, one) in enumerate(zip(recorded, recipe.inputs), 1):
        need(line == f"input {one.name} {reports.mark(contents[one.name])}", "input", number)
    judge_stages(recipe, contents, lines)
    recorded = [line.text for line in lines if line.kind in ("equal", "differs")]
    for number, (line, says) in enumerate(zip(recorded, comparisons(recipe, contents)[0]), 1):
        need(line == says, "compare", number if recipe.format == 2 else 0)
    return content, recipe, contents


def verify(words: list[str]) -> Answer:
    """`verify RECIPE REPORT`: replays the stages, and says whether every word is true."""
    _, recipe, contents = judge(words)
    _, printed, equal = comparisons(recipe, contents)
    printed += recipes.believed(recipe)
    return Answer(0, "yes", *printed) if equal else Answer(3, *printed)
