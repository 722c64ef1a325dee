"""Why ddc refused a recipe: the table, its line, the key, and what is allowed there."""

import re
import tomllib
from collections.abc import Iterator
from typing import Any

from ddc_tools.asked import Asked, header_line, key_line, line_at, ordinal
from ddc_tools.usage_reasons import near, stripped

NAME = "a name of 1 to 32 letters a to z, digits and _"
PATH = "a path of 1 to 255 bytes from space to ~"
WORD = "words of 0 to 255 bytes, none of them zero"
# What may stand at each key.
ALLOWED: dict[str, dict[str, str]] = {
    "top": {"format": "1 or 2", "input": "1 to 256 tables [[input]]",
            "source": "0 to 256 tables [[source]]", "stage": "1 to 256 tables [[stage]]",
            "compare": "one table [compare]"},
    "input": {"name": NAME, "path": PATH, "implements": "the name of a source"},
    "source": {"name": NAME, "lang": '"hex0", "hex1", "hex2", "m1" or "other"',
               "base": "an integer from 0 to 137438953472 (2^37)",
               "files": "a list of 1 to 64 names of inputs and stages"},
    "stage": {"name": NAME, "program": "the name of an input or of an earlier stage",
              "args": f"a list of 1 to 64 {WORD}, the program's own name first",
              "env": f"a list of 0 to 64 {WORD}",
              "files": 'a list of 0 to 256 entries { path = "..", from = ".." }, from being the '
                       "name of an input or of an earlier stage",
              "output": '"-" for standard output, or the path of a file that the program leaves',
              "steps": "an integer from 1 to 281474976710656 (2^48)",
              "heap": "an integer from 0 to 1073741824 (2^30)",
              "check": "the name of a source in hex0, hex1, hex2 or m1",
              "becomes": "the name of a source"},
    "compare": {"stage": "the name of a stage (format 1)",
                "stages": "a list of 1 to 16 names of stages, each once (format 2)",
                "binary": "the name of an input"}}
ENTRY = ("path", "from")
LINE = re.compile(r"recipe refused (\d+)(?: (\w+) (\d+))?(?: (\w+))?")


def recipe_reasons(asked: Asked, found: re.Match[str]) -> Iterator[str]:
    """Why the recipe was refused."""
    number, kind, item, key = int(found[1]), found[2], int(found[3] or 0), found[4]
    if number == 1:
        yield from toml_reasons(asked)
        return
    if not asked.tables():
        yield f"{asked.word('RECIPE')} is TOML 1.1, which Python does not read, so that its " \
              f"values are not shown; {key or 'an unknown key'} stands in {kind} {item}"
        if key:
            yield f"{key} is {ALLOWED[kind].get(key, 'a key of this table')}"
        return
    text = asked.content("RECIPE")
    header = 0 if kind == "top" else header_line(text, kind, item)
    table = table_of(asked, kind, item)
    line = key_line(text, header, key) if key and header is not None else None
    place = line or header or ""
    which = "the top of the recipe" if kind == "top" else "[compare]" if kind == "compare" else \
        f"the {ordinal(item)} [[{kind}]]" + (f" ({table['name']})" if "name" in table else "")
    say = f"{asked.word('RECIPE')}:{place}: {which}".replace("::", ":")
    if number == 3:
        yield from (f"{say} {it}" for it in unknown(asked, kind, table))
        return
    yield f"{say}, key {key}: {cause(asked, number, table, kind, key)}"
    yield f"{key} is {ALLOWED[kind].get(key, 'a key of this table')}"


def toml_reasons(asked: Asked) -> Iterator[str]:
    """Where a text is no TOML."""
    content, name = asked.content("RECIPE"), asked.word("RECIPE")
    try:
        tomllib.loads(content.decode())
    except UnicodeDecodeError as error:
        line, column = line_at(content, error.start)
        yield f"{name}:{line}:{column}: the byte {content[error.start]:02x} is no UTF-8 text"
    except tomllib.TOMLDecodeError as error:
        at = re.search(r"\(at line (\d+), column (\d+)\)", str(error))
        what = re.sub(r" \(at .*", "", str(error))
        yield f"{name}:{at[1]}:{at[2]}: no TOML: {what}" if at else f"{name}: no TOML: {error}"
    else:
        yield f"{name}: no TOML for ddc, which takes at most 80 levels of [ ] and {{ }} and " \
              "integers of 64 bits"


def table_of(asked: Asked, kind: str, item: int) -> dict[str, Any]:
    """The table that a refusal names."""
    tables = asked.tables()
    if kind == "top":
        return tables
    if kind == "compare":
        return tables.get("compare", {})
    found = asked.items(kind)
    return found[item - 1] if 0 < item <= len(found) else {}


def unknown(asked: Asked, kind: str, table: dict[str, Any]) -> Iterator[str]:
    """The keys that a table may not have."""
    allowed = dict(ALLOWED[kind])
    if kind == "compare":
        allowed.pop("stage" if asked.tables().get("format") == 2 else "stages")
    for key in (it for it in table if it not in allowed):
        yield f"may not have the key {key}{near(key, list(allowed))} It may have " \
              f"{', '.join(allowed)}".replace("? It", "? it")
    for entry in table.get("files", []) if kind == "stage" else []:
        for key in (it for it in entry if isinstance(entry, dict) and it not in ENTRY):
            yield f"has an entry of files with the key {key}; an entry has path and from alone"


def cause(asked: Asked, number: int, table: dict[str, Any], kind: str, key: str) -> str:
    """A refusal's number in words, with the value that stands at the key."""
    value = table.get(key)
    if number == 2:
        return missing(asked, table, kind, key)
    if number == 4:
        return f"{value!r} is no name that may stand here" if key != "check" else \
            f"the source {value} is in the language other, which nothing can be checked against"
    if number == 5:
        return twice(asked, kind, key, value)
    if number == 6:
        return not_made(asked, kind, key, value)
    if number == 7:
        return f"{value!r} has a path or a word that is none"
    if number == 8:
        return f"{value} is out of its range"
    count = len(value) if isinstance(value, list) else 0
    return f"{count} elements are too many"


def missing(asked: Asked, table: dict[str, Any], kind: str, key: str) -> str:
    """Why a key counts as missing."""
    if key in ("implements", "becomes") and key not in table:
        users = [it.get("name") for it in asked.items("stage")
                 if it.get("program") == table.get("name") and "check" not in it]
        return f"the unchecked stage {users[0] if users else ''} runs {table.get('name')}, and " \
               f"nothing says which source that is a program of: write {key} here, or give the " \
               "stage a check"
    if key not in table:
        return "this key is not there"
    value = table[key]
    if value == [] or isinstance(value, list):
        return f"{value!r} is too short, or has an element of another type or without a key"
    return f"{value!r} has the wrong type ({type(value).__name__})"


def twice(asked: Asked, kind: str, key: str, value: object) -> str:
    """A name that is there already."""
    if key == "files":
        paths = [stripped(str(it.get("path"))) for it in value] if isinstance(value, list) else []
        double = next((it for it in paths if paths.count(it) > 1), "")
        return f"two entries have the path {double}"
    if key == "stages":
        return f"{value} has a name twice"
    first = next((it for it in ("input", "source", "stage")
                  if any(at.get("name") == value for at in asked.items(it))), kind)
    return f"the name {value} has a table already: the first is an {first}; inputs, sources and " \
           "stages share one set of names".replace("an source", "a source").replace(
               "an stage", "a stage")


def not_made(asked: Asked, kind: str, key: str, value: object) -> str:
    """A name of nothing that may stand here."""
    names = {it: [str(at.get("name")) for at in asked.items(it)]
             for it in ("input", "source", "stage")}
    if key in ("implements", "becomes") or (key == "check" and value not in names["source"]):
        return f"no source {value}: {', '.join(names['source'])}{near(str(value), names['source'])}"
    if key == "check":
        files = asked.item("source", str(value)).get("files", [])
        return f"a file of the source {value} is made by no earlier stage: {', '.join(files)}"
    known = names["stage"] if kind == "compare" and key != "binary" else \
        names["input"] if kind == "compare" else names["input"] + names["stage"]
    given = [it.get("from") if isinstance(it, dict) else it for it in value] \
        if isinstance(value, list) else [value]
    strange = [str(it) for it in given if it not in known]
    if strange:
        return f"nothing has the name {strange[0]}: {', '.join(known)}{near(strange[0], known)}"
    return f"{', '.join(map(str, given))}: one of these is made by this stage or a later one, " \
           "and is not there yet"
