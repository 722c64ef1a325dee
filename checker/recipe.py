"""Recipes: what stands at each key, and the first refusal (docs/reference/recipe.md)."""

from __future__ import annotations

import re
from dataclasses import dataclass, field
from typing import Any, Callable, List, NamedTuple, Optional

import toml
from outside import Answer, stripped

DEFAULT_BASE = 6_291_456
DEFAULT_HEAP = 536_870_912
Form = Callable[["Walk", str, str], Any]
MISSING, UNKNOWN, BAD_NAME, DOUBLE_NAME, NOT_MADE_YET, BAD_PATH, BAD_NUMBER, TOO_MANY = range(2, 10)
Text = Optional[str]
Input = NamedTuple("Input", [("name", str), ("path", str), ("implements", Text)])
Source = NamedTuple("Source", [("name", str), ("lang", str), ("base", int), ("files", List[str])])


class Stage(NamedTuple):
    """A run of a program. `files` has guest paths and names; the output "" is standard output."""

    name: str
    program: str
    args: list[bytes]
    env: list[bytes]
    files: list[tuple[str, str]]
    output: str
    steps: int
    heap: int
    check: Text
    becomes: Text


@dataclass
class Recipe:
    """A whole recipe, with what its names stand for."""

    format: int
    inputs: list[Input]
    sources: dict[str, Source]
    stages: list[Stage]
    compared: list[str]
    binary: str
    made: dict[str, Any] = field(default_factory=dict)

    def is_settled(self, stage: Stage) -> bool:
        """Whether a stage is checked in a language whose value is the artefact."""
        return stage.check is not None and self.sources[stage.check].lang != "m1"

    def source_of(self, name: str) -> str | None:
        """The source of the program of a name, if it has one."""
        maker = self.made[name]
        if isinstance(maker, Input):
            return maker.implements
        return maker.becomes or (maker.check if self.is_settled(maker) else None)


class Walk:
    """The first walk over one table: each key in order, then the keys that it may not have."""

    def __init__(self, table: dict[str, Any], word: str, number: int) -> None:
        """The walk at a table's beginning."""
        self.table, self.word, self.number, self.seen = table, word, number, set()

    def refuse(self, number: int, key: str = "") -> Answer:
        """The refusal of a number at a key of this table."""
        words = f"recipe refused {number} {self.word} {self.number} {key}"
        return Answer(4, words.rstrip())

    def value(self, key: str, kind: type, default: Any = None) -> Any:
        """The value at a key, of the right type, or the default of an absent key that has one."""
        self.seen.add(key)
        value = self.table.get(key, default)
        if not isinstance(value, kind) or isinstance(value, bool):
            raise self.refuse(MISSING, key)
        return value

    def integer(self, key: str, least: int, most: int, default: int | None = None) -> Any:
        """The integer at a key."""
        number = self.value(key, int, default)
        if not least <= number <= most:
            raise self.refuse(BAD_NUMBER, key)
        return number

    def string(self, key: str, form: Form, optional: bool = False) -> Any:
        """The string at a key, of a form."""
        self.seen.add(key)
        if optional and key not in self.table:
            return None
        return form(self, self.value(key, str), key)

    def array(self, key: str, least: int, most: int) -> list[Any]:
        """The array at a key, of so many elements; one of none may be absent."""
        items = self.value(key, list, None if least else [])
        if len(items) > most:
            raise self.refuse(TOO_MANY, key)
        if len(items) < least:
            raise self.refuse(MISSING, key)
        return items

    def strings(self, key: str, least: int, most: int, form: Form) -> list[Any]:
        """The array of strings at a key, each of a form."""
        found: list[Any] = []
        for item in self.array(key, least, most):
            if not isinstance(item, str):
                raise self.refuse(MISSING, key)
            found.append(form(self, item, key))
            if key == "stages" and found[-1] in found[:-1]:
                raise self.refuse(DOUBLE_NAME, key)
        return found

    def end(self) -> None:
        """Refuses a key that was not asked for."""
        if set(self.table) - self.seen:
            raise self.refuse(UNKNOWN)


def matched(form: re.Pattern[str], refusal: int) -> Form:
    """The texts of a form, of which others have a refusal."""

    def read_text(walk: Walk, text: str, key: str) -> str:
        """The text at a key."""
        if not form.fullmatch(text):
            raise walk.refuse(refusal, key)
        return text

    return read_text


a_name = matched(re.compile(r"[a-z0-9_]{1,32}"), BAD_NAME)
a_language = matched(re.compile("hex0|hex1|hex2|m1|other"), BAD_NAME)
a_path = matched(re.compile(r"[\x20-\x7e]{1,255}"), BAD_PATH)


def a_guest_path(walk: Walk, text: str, key: str) -> str:
    """A guest path, without the `./` that it begins with."""
    return a_path(walk, stripped(text), key)


def an_output(walk: Walk, text: str, key: str) -> str:
    """An output; the empty text stands for standard output."""
    return "" if text == "-" else a_guest_path(walk, text, key)


def a_word(walk: Walk, text: str, key: str) -> bytes:
    """An argument or a text of the environment."""
    content = text.encode()
    if len(content) > 255 or 0 in content:
        raise walk.refuse(BAD_PATH, key)
    return content


def entries(walk: Walk) -> list[tuple[str, str]]:
    """The `files` of a stage."""
    found: list[tuple[str, str]] = []
    for item in walk.array("files", 0, 256):
        if not isinstance(item, dict):
            raise walk.refuse(MISSING, "files")
        path, maker = item.get("path"), item.get("from")
        if not isinstance(path, str) or not isinstance(maker, str):
            raise walk.refuse(MISSING, "files")
        if set(item) - {"path", "from"}:
            raise walk.refuse(UNKNOWN)
        a_name(walk, maker, "files")
        path = a_guest_path(walk, path, "files")
        if path in (earlier for earlier, _ in found):
            raise walk.refuse(DOUBLE_NAME, "files")
        found.append((path, maker))
    return found


def read_input(walk: Walk, name: Form) -> Input:
    """An input's table."""
    return Input(
        walk.string("name", name), walk.string("path", a_path),
        walk.string("implements", a_name, True),
    )


def read_source(walk: Walk, name: Form) -> Source:
    """A source's table."""
    return Source(
        walk.string("name", name), walk.string("lang", a_language),
        walk.integer("base", 0, 1 << 37, DEFAULT_BASE), walk.strings("files", 1, 64, a_name),
    )


def read_stage(walk: Walk, name: Form) -> Stage:
    """A stage's table."""
    return Stage(
        walk.string("name", name), walk.string("program", a_name),
        walk.strings("args", 1, 64, a_word), walk.strings("env", 0, 64, a_word),
        entries(walk), walk.string("output", an_output),
        walk.integer("steps", 1, 1 << 48), walk.integer("heap", 0, 1 << 30, DEFAULT_HEAP),
        walk.string("check", a_name, True), walk.string("becomes", a_name, True),
    )


def first_walk(top: dict[str, Any]) -> Recipe:
    """The recipe of a table, of which names are not yet looked up."""
    walk = Walk(top, "top", 0)
    form = walk.integer("format", 1, 2)
    tables = {}
    for key, least in (("input", 1), ("source", 0), ("stage", 1)):
        tables[key] = walk.array(key, least, 256)
        if not all(isinstance(table, dict) for table in tables[key]):
            raise walk.refuse(MISSING, key)
    compare = walk.value("compare", dict)
    walk.end()
    names: set[str] = set()

    def new_name(walk: Walk, text: str, key: str) -> str:
        """A name that no earlier input, source or stage has."""
        if a_name(walk, text, key) in names:
            raise walk.refuse(DOUBLE_NAME, key)
        names.add(text)
        return text

    found: dict[str, list[Any]] = {}
    for key, read_table in (("input", read_input), ("source", read_source), ("stage", read_stage)):
        found[key] = []
        for number, table in enumerate(tables[key], 1):
            walk = Walk(table, key, number)
            found[key].append(read_table(walk, new_name))
            walk.end()
    walk = Walk(compare, "compare", 0)
    if form == 1:
        compared = [walk.string("stage", a_name)]
    else:
        compared = walk.strings("stages", 1, 16, a_name)
    binary = walk.string("binary", a_name)
    walk.end()
    sources = {source.name: source for source in found["source"]}
    return Recipe(form, found["input"], sources, found["stage"], compared, binary)


def second_walk(recipe: Recipe) -> None:
    """Looks up what the names stand for, and fills `made`."""
    sources, inputs = recipe.sources, {one.name: one for one in recipe.inputs}
    stages = {stage.name: stage for stage in recipe.stages}

    def need(holds: Any, word: str, number: int, key: str, refusal: int = NOT_MADE_YET) -> None:
        """Refuses what does not hold."""
        if not holds:
            raise Walk({}, word, number).refuse(refusal, key)

    for number, one in enumerate(recipe.inputs, 1):
        need(one.implements is None or one.implements in sources, "input", number, "implements")
    for number, source in enumerate(sources.values(), 1):
        need(all(name in {**inputs, **stages} for name in source.files), "source", number, "files")
    made: dict[str, Any] = dict(inputs)
    for number, stage in enumerate(recipe.stages, 1):
        need(stage.program in made, "stage", number, "program")
        need(all(name in made for _, name in stage.files), "stage", number, "files")
        if stage.check is not None:
            need(stage.check in sources, "stage", number, "check")
            source = sources[stage.check]
            need(all(name in made for name in source.files), "stage", number, "check")
            need(source.lang != "other", "stage", number, "check", BAD_NAME)
        need(stage.becomes is None or stage.becomes in sources, "stage", number, "becomes")
        made[stage.name] = stage
    key = "stage" if recipe.format == 1 else "stages"
    need(all(name in stages for name in recipe.compared), "compare", 0, key)
    need(recipe.binary in inputs, "compare", 0, "binary")
    recipe.made = made
    for stage in recipe.stages:
        if stage.check is None and recipe.source_of(stage.program) is None:
            maker = made[stage.program]
            row: list[Any] = recipe.inputs if isinstance(maker, Input) else recipe.stages
            word, key = ("input", "implements") if row is recipe.inputs else ("stage", "becomes")
            need(False, word, row.index(maker) + 1, key, MISSING)


def read(content: bytes) -> Recipe:
    """The recipe that the bytes say; Answer with the first refusal where they say none."""
    try:
        top = toml.read(content.decode())
    except (toml.NotToml, UnicodeDecodeError):
        raise Answer(4, "recipe refused 1") from None
    recipe = first_walk(top)
    second_walk(recipe)
    return recipe


def assumptions(recipe: Recipe, programs: list[str]) -> list[str]:
    """The lines on these programs of unchecked stages (docs/reference/argument.md), in order."""
    lines: list[str] = []
    for name, maker in recipe.made.items():
        if name not in programs:
            continue
        source = recipe.source_of(name)
        if isinstance(maker, Stage) and maker.check is None:
            lines.append(f"assumes compiles {recipe.source_of(maker.program)} {name} {source}")
        elif isinstance(maker, Input) or not (recipe.is_settled(maker) and source == maker.check):
            lines.append(f"assumes implements {name} {source}")
    return lines


def route(recipe: Recipe, name: str) -> list[str]:
    """The programs that the conclusion on a compared stage rests on."""
    programs: list[str] = []
    maker = recipe.made[name]
    while isinstance(maker, Stage) and maker.check is None:
        programs.append(maker.program)
        maker = recipe.made[maker.program]
    return programs


def believed(recipe: Recipe) -> list[str]:
    """All lines that `verify` prints after the comparisons."""
    if recipe.format == 1:
        return assumptions(recipe, [one.program for one in recipe.stages if one.check is None])
    lines: list[str] = []
    for name in recipe.compared:
        lines += [f"route {name}", *assumptions(recipe, route(recipe, name))]
    return lines
