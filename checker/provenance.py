"""What a compared artefact depends on (docs/reference/provenance.md, docs/reference/rests.md)."""

from __future__ import annotations

import languages
import recipe as recipes
import report as reports
from outside import Answer
from recipe import Recipe, Stage
from verify import Contents, comparisons, judge


class Way:
    """The way back from a stage: the stages on it, and what these read and run."""

    def __init__(self, recipe: Recipe, name: str) -> None:
        """The way back from the stage of a name."""
        on_way, self.read, self.run = {name}, set(), set()
        self.stages: list[Stage] = []
        self.matters: set[str] = set()
        for stage in reversed(recipe.stages):
            if stage.name not in on_way:
                continue
            self.stages.insert(0, stage)
            if stage.check is None:
                files = [maker for _, maker in stage.files]
                self.run.add(stage.program)
                on_way.add(stage.program)
                self.matters |= {stage.program, *files}
            else:
                source = recipe.sources[stage.check]
                files = source.files
                if source.lang != "hex2" or len(files) > 1:
                    self.matters |= set(files)
            self.read |= set(files)
            on_way |= set(files)


def is_own(recipe: Recipe, contents: Contents, name: str, source: str) -> bool:
    """Whether a name stands for the program of a source, and all files of that are inputs."""
    said = recipe.sources[source]
    if said.lang == "other" or not set(said.files) <= {one.name for one in recipe.inputs}:
        return False
    text = b"\n".join(contents[one] for one in said.files)
    try:
        if said.lang == "m1":
            program = languages.link(languages.m1_items(text), said.base)
        else:
            program = languages.value(said.lang, text, said.base)
    except languages.Refused:
        return False
    return program == contents[name]


def judged(recipe: Recipe, contents: Contents, line: str) -> str:
    """The line of an assumption, which holds where its programs are those of its sources."""
    _, kind, *names = line.split()
    pairs = [(names[0], names[1])]
    if kind == "compiles":
        source, stage, becomes = names
        pairs = [(recipe.made[stage].program, source), (stage, becomes)]
    if all(is_own(recipe, contents, *pair) for pair in pairs):
        return line.replace("assumes", "holds", 1)
    return line


def block(recipe: Recipe, contents: Contents, name: str) -> list[str]:
    """The lines on a compared stage's artefact, but for the first."""
    way = Way(recipe, name)
    marks = {one: reports.mark(content) for one, content in contents.items()}
    inputs = [one.name for one in recipe.inputs]
    lines = [f"text {one} {marks[one]}" for one in inputs if one in way.read]
    lines += [f"program {one} {marks[one]}" for one in inputs if one in way.run]
    ends = {one: f" {mark}" for one, mark in marks.items() if one != name}
    lines += [f"layout {one.name}{ends.get(one.name, '')}" for one in way.stages
              if one.check is not None and not recipe.is_settled(one)
              and one.name in way.matters | {name}]
    lines += [f"run {one.name}{ends.get(one.name, '')}" for one in way.stages if one.check is None]
    assumed = recipes.assumptions(recipe, [*way.run])
    named = {word for line in assumed for word in line.split()[2:]}
    lines += [judged(recipe, contents, line) for line in assumed]
    lines += [f"{'source' if one in inputs else 'speaks'} {source.name} {one} {marks[one]}"
              for source in recipe.sources.values() if source.name in named for one in source.files]
    alike = [one for one in recipe.made if marks[one] == marks[recipe.binary] and one != name]
    for word, is_input in (("audited", True), ("same", False)):
        for act, names in (("read", way.read), ("run", way.run)):
            lines += [f"{word} {act} {one}" for one in alike
                      if one in names and (one in inputs) == is_input]
    return lines


def provenance(words: list[str]) -> Answer:
    """`provenance RECIPE REPORT`: judges as `verify`, and says what each artefact depends on."""
    content, recipe, contents = judge(words)
    _, printed, equal = comparisons(recipe, contents)
    lines = [f"recipe {reports.digest(content)}"]
    for name, compared in zip(recipe.compared, printed):
        digest = f" {reports.digest(contents[name])}" if compared.startswith("equal") else ""
        lines += [compared + digest, *block(recipe, contents, name)]
    return Answer(0, "yes", *lines) if equal else Answer(3, *lines)
