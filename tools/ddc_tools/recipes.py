"""A recipe's tables by their names, what they leave to assume, and recipes that are written."""

import hashlib
import tomllib
from typing import Any

from ddc_tools.program import Refusal

LANGUAGES = ("hex0", "hex1", "hex2")
BASE = 0x600000
HEAP = 536870912
Table = dict[str, Any]


class Recipe:
    """The tables of a recipe that ddc takes, by their names."""

    def __init__(self, content: bytes, name: str = "RECIPE") -> None:
        self.digest = hashlib.sha256(content).hexdigest()
        try:
            tables = tomllib.loads(content.decode())
            self.format: int = tables["format"]
            self.inputs: dict[str, Table] = {it["name"]: it for it in tables["input"]}
            self.sources: dict[str, Table] = {it["name"]: it for it in tables.get("source", [])}
            self.stages: dict[str, Table] = {it["name"]: it for it in tables["stage"]}
            compare = tables["compare"]
            self.compared: list[str] = compare.get("stages") or [compare["stage"]]
            self.binary: str = compare["binary"]
        except (ValueError, KeyError, TypeError, AttributeError) as error:
            raise Refusal(f"{name} is no recipe that this tool can read ({error}); "
                          f"`explain rests {name} STAGE` says what ddc says of it", 4) from None

    def stage(self, name: str) -> Table:
        """The table of a stage, or a refusal that lists the stages."""
        if name not in self.stages:
            raise Refusal(f"no stage {name}: {', '.join(self.stages)}", 2)
        return self.stages[name]

    def given(self, stage: Table) -> set[str]:
        """The names of all that a stage is given as files."""
        return {it["from"] for it in stage.get("files", [])}

    def texts(self, stage: Table) -> set[str]:
        """The files of the source that a stage is checked against."""
        return set(self.sources[stage["check"]]["files"]) if "check" in stage else set()

    def is_value(self, stage: Table) -> bool:
        """Whether the stage's source is that of its check, in a language of bytes."""
        check = stage.get("check")
        return (check is not None and stage.get("becomes", check) == check
                and self.sources[check]["lang"] in LANGUAGES)

    def source_of(self, name: str) -> str | None:
        """The source that an input or a stage is said to be a program of, if any."""
        if name in self.inputs:
            return self.inputs[name].get("implements")
        stage = self.stages[name]
        return stage.get("becomes") or (stage["check"] if self.is_value(stage) else None)

    def assumed(self) -> dict[str, str]:
        """The assumption on each program that an unchecked stage runs, inputs first."""
        run = {it["program"] for it in self.stages.values() if "check" not in it}
        lines = {}
        for name in (it for it in (*self.inputs, *self.stages) if it in run):
            source = self.source_of(name)
            if name in self.inputs or "check" in self.stages[name]:
                if name in self.inputs or not self.is_value(self.stages[name]):
                    lines[name] = f"assumes implements {name} {source}"
            else:
                parent = self.source_of(self.stages[name]["program"])
                lines[name] = f"assumes compiles {parent} {name} {source}"
        return lines

    def route(self, stage: str) -> set[str]:
        """The programs that the conclusion on a compared stage depends on."""
        route: set[str] = set()
        while stage in self.stages and "check" not in self.stages[stage]:
            stage = self.stages[stage]["program"]
            route.add(stage)
        return route

    def left_to_assume(self) -> list[str]:
        """The lines that `verify` prints under the comparisons."""
        assumed = self.assumed()
        if self.format == 1:
            return list(assumed.values())
        lines = []
        for stage in self.compared:
            route = self.route(stage)
            lines += [f"route {stage}", *(assumed[it] for it in assumed if it in route)]
        return lines


def quoted(text: str) -> str:
    """A text as a basic string of TOML."""
    plain = {'"': '\\"', "\\": "\\\\", "\n": "\\n", "\t": "\\t"}
    return '"' + "".join(
        plain.get(it) or (it if it >= " " and it != "\x7f" else f"\\u{ord(it):04x}")
        for it in text) + '"'


def value(of: Any) -> str:
    """A value of a recipe as TOML."""
    if isinstance(of, str):
        return quoted(of)
    if isinstance(of, list):
        return "[" + ", ".join(map(value, of)) + "]"
    if isinstance(of, dict):
        return "{ " + ", ".join(f"{key} = {value(it)}" for key, it in of.items()) + " }"
    return str(of)


def table(head: str, keys: Table) -> str:
    """A table of a recipe as TOML, with a blank line after it."""
    rows = "".join(f"{key} = {value(it)}\n" for key, it in keys.items())
    return f"{head}\n{rows}\n"


def written(tables: dict[str, Any]) -> str:
    """A whole recipe as TOML."""
    text = f"format = {tables['format']}\n\n"
    for kind in ("input", "source", "stage"):
        text += "".join(table(f"[[{kind}]]", it) for it in tables.get(kind, []))
    return text + table("[compare]", tables["compare"])
