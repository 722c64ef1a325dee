"""TOML 1.1 (https://toml.io/en/v1.1.0), as far as a recipe can tell it.

Python's tomllib reads TOML 1.0 and is missing in older Pythons, so this is a reader of its own. Its
limits are those of docs/reference/recipe.md: 80 levels of nesting, integers of 64 bits.
"""

from __future__ import annotations

import calendar
import re
from typing import Any, Callable

DEPTH = 80
CONTROLS = r"\x00-\x08\x0a-\x1f\x7f"
LINES = r"\r?\n"
COMMENT = rf"#[^{CONTROLS}]*"
BARE = re.compile(r"[A-Za-z0-9_-]+")
BLANKS = re.compile(r"[ \t]*")
END = re.compile(rf"[ \t]*(?:{COMMENT})?(?:{LINES}|\Z)")
GAP = re.compile(rf"(?:[ \t\n]|\r\n|{COMMENT}(?={LINES}))*")
FOLD = rf"\\[ \t]*{LINES}(?:[ \t]|{LINES})*(?![ \t\n]|\r\n)"
ESCAPE = r'\\(?:[btnfre"\\]|x[0-9A-Fa-f]{2}|u[0-9A-Fa-f]{4}|U[0-9A-Fa-f]{8})'
PLAIN = rf'[^"\\{CONTROLS}]+(?![^"\\{CONTROLS}])|{ESCAPE}'
UNQUOTED = rf"[^'{CONTROLS}]+(?![^'{CONTROLS}])"
BASIC = re.compile(rf'"((?:{PLAIN})*)"')
LITERAL = re.compile(rf"'([^'{CONTROLS}]*)'")
LONG_BASIC = re.compile(
    rf'"""(?:{LINES})?((?:{PLAIN}|{LINES}|{FOLD}|"{{1,2}}(?!"))*"{{0,2}})"""'
)
LONG_LITERAL = re.compile(
    rf"'''(?:{LINES})?((?:{UNQUOTED}|{LINES}|'{{1,2}}(?!'))*'{{0,2}})'''"
)
ESCAPED = re.compile(f"{ESCAPE}|{FOLD}")
SIGNS = {"b": "\b", "t": "\t", "n": "\n", "f": "\f", "r": "\r", "e": "\x1b", '"': '"', "\\": "\\"}
DATE, TIME = r"(\d{4})-(\d\d)-(\d\d)", r"(\d\d):(\d\d)(?::(\d\d)(?:\.\d+)?)?"
SCALAR = re.compile(r"(?:\d{4}-\d\d-\d\d +(?=\d\d:))?[A-Za-z0-9_+:.-]+")
MOMENT = re.compile(rf"(?:{DATE}[Tt ]{TIME}(?:[Zz]|[+-](\d\d):(\d\d))?|{DATE}|{TIME})", re.ASCII)
WHOLE = r"(?:0|[1-9](?:_?\d)*)"
DECIMAL = re.compile(rf"[+-]?{WHOLE}", re.ASCII)
RADIX = re.compile(
    "0x[0-9A-Fa-f](?:_?[0-9A-Fa-f])*|0o[0-7](?:_?[0-7])*|0b[01](?:_?[01])*", re.ASCII
)
FLOAT = re.compile(
    rf"[+-]?(?:inf|nan|{WHOLE}(?:\.\d(?:_?\d)*)?(?:[eE][+-]?\d(?:_?\d)*)?)", re.ASCII
)


class NotToml(Exception):
    """The text is no TOML."""


class Table(dict):
    """A table, with the way in which it came about: `implicit`, `header`, `dotted` or `inline`."""

    def __init__(self, made: str) -> None:
        """An empty table."""
        super().__init__()
        self.made = made


class Tables(list):
    """An array that `[[headers]]` made."""


def need(holds: Any) -> Any:
    """What is given, where it counts as true; else the text is no TOML."""
    if not holds:
        raise NotToml
    return holds


def unescape(match: re.Match[str]) -> str:
    """What an escape stands for; a line's end after a backslash, with its blanks, for nothing."""
    sign, digits = match[0][1], match[0][2:]
    if sign in "xuU":
        number = int(digits, 16)
        need(number < 0xD800 or 0xE000 <= number <= 0x10FFFF)
        return chr(number)
    return SIGNS.get(sign, "")


def is_moment(word: str) -> bool:
    """Whether a word is a date, a time or both, each in its range."""
    match = MOMENT.fullmatch(word)
    if not match:
        return False
    fields = [int(field or 0) for field in match.groups()]
    for at in (at for at in (0, 8) if match[at + 1]):
        need(1 <= fields[at + 1] <= 12 and fields[at + 2] >= 1)
        need(fields[at + 2] <= calendar.monthrange(fields[at] or 2000, fields[at + 1])[1])
    for hour, minute, second in (fields[3:6], fields[11:14]):
        need(hour < 24 and minute < 60 and second <= 60)
    return bool(need(fields[6] < 24 and fields[7] < 60))


def scalar(word: str) -> Any:
    """The value of a word without quotes; none of a float, a date or a time."""
    if word in ("true", "false"):
        return word == "true"
    digits = word.replace("_", "")
    if DECIMAL.fullmatch(word) or RADIX.fullmatch(word):
        if DECIMAL.fullmatch(word):
            need(len(digits) <= 20)
            number = int(digits)
        else:
            number = int(digits, 0)
        need(-(1 << 63) <= number < 1 << 63)
        return number
    if FLOAT.fullmatch(word):
        return need("inf" in word or abs(float(digits)) != float("inf")) and None
    return need(is_moment(word)) and None


class Reader:
    """A text, and the offset up to which it is read."""

    def __init__(self, text: str) -> None:
        """The reader at the beginning of the text."""
        self.text, self.at = text, 0

    def take(self, form: re.Pattern[str]) -> re.Match[str] | None:
        """What matches here, which is then read; none where nothing does."""
        match = form.match(self.text, self.at)
        if match:
            self.at = match.end()
        return match

    def sign(self, sign: str) -> bool:
        """Whether this sign stands here; then it is read."""
        found = self.text.startswith(sign, self.at)
        self.at += len(sign) if found else 0
        return found

    def string(self) -> str | None:
        """The string of one line that begins here; none where none does."""
        literal = self.take(LITERAL)
        if literal:
            return literal[1]
        basic = self.take(BASIC)
        return ESCAPED.sub(unescape, basic[1]) if basic else None

    def key(self) -> list[str]:
        """A key, dotted or not, with the blanks round it."""
        parts: list[str] = []
        while not parts or self.sign("."):
            self.take(BLANKS)
            quoted = self.string()
            parts.append(quoted if quoted is not None else need(self.take(BARE))[0])
            self.take(BLANKS)
        need(len(parts) <= DEPTH)
        return parts

    def value(self, depth: int) -> Any:
        """A value."""
        if self.text[self.at : self.at + 1] in ("[", "{"):
            need(depth < DEPTH)
        if self.sign("["):
            return self.array(depth)
        if self.sign("{"):
            return self.inline(depth)
        if self.text.startswith('"""', self.at):
            text = ESCAPED.sub(unescape, need(self.take(LONG_BASIC))[1])
            return text.replace("\r\n", "\n")
        if self.text.startswith("'''", self.at):
            return need(self.take(LONG_LITERAL))[1].replace("\r\n", "\n")
        quoted = self.string()
        return quoted if quoted is not None else scalar(need(self.take(SCALAR))[0])

    def rows(self, end: str, read_row: Callable[[], None]) -> None:
        """The rows up to a closing sign, with a comma after each but perhaps the last."""
        while True:
            self.take(GAP)
            if self.sign(end):
                return
            read_row()
            self.take(GAP)
            if not self.sign(","):
                need(self.sign(end))
                return

    def array(self, depth: int) -> list[Any]:
        """The array behind its bracket."""
        items: list[Any] = []
        self.rows("]", lambda: items.append(self.value(depth + 1)))
        return items

    def inline(self, depth: int) -> Table:
        """The inline table behind its brace."""
        table = Table("inline")
        self.rows("}", lambda: self.pair(table, depth + 1))
        return close(table)

    def pair(self, table: Table, depth: int) -> None:
        """A key and its value, put into the table."""
        parts = self.key()
        need(self.sign("="))
        self.take(BLANKS)
        value = self.value(depth)
        for part in parts[:-1]:
            table = table.setdefault(part, Table("dotted"))
            need(isinstance(table, Table) and table.made in ("dotted", "implicit"))
            table.made = "dotted"
        need(parts[-1] not in table)
        table[parts[-1]] = value

    def header(self, top: Table) -> Table:
        """The table of the header behind its first bracket."""
        many = self.sign("[")
        parts = self.key()
        need(self.sign("]]" if many else "]"))
        table = top
        for part in parts[:-1]:
            below = table.setdefault(part, Table("implicit"))
            table = below[-1] if isinstance(below, Tables) else below
            need(isinstance(table, Table) and table.made != "inline")
        if many:
            row = table.setdefault(parts[-1], Tables())
            need(isinstance(row, Tables))
            row.append(Table("header"))
            return row[-1]
        table = table.setdefault(parts[-1], Table("implicit"))
        need(isinstance(table, Table) and table.made == "implicit")
        table.made = "header"
        return table


def close(table: Table) -> Table:
    """The inline table, to which and to whose dotted tables nothing can be added any more."""
    for below in table.values():
        if isinstance(below, Table) and below.made == "dotted":
            close(below)
    table.made = "inline"
    return table


def read(text: str) -> Table:
    """The table at the top of a text; NotToml where the text is none."""
    reader, top = Reader(text), Table("header")
    reader.sign("\ufeff")
    table = top
    while reader.at < len(text):
        reader.take(BLANKS)
        if not reader.take(END):
            if reader.sign("["):
                table = reader.header(top)
            else:
                reader.pair(table, 0)
            need(reader.take(END))
    return top
