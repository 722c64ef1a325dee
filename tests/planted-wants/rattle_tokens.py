"""The tokens of a Rattle source, without what only contracts say."""
from __future__ import annotations

import re
from typing import Iterator

Leaf = tuple[str, int]
TOKEN = re.compile(
    r"""(?P<space>\s+|//[^\n]*|/\*.*?\*/)
    |(?P<text>b?r(?P<hashes>\#*)".*?"(?P=hashes)|b?c?"(?:\\.|[^"\\])*"
      |b?'(?:\\(?:x[0-9a-fA-F]{2}|u\{[^}]*\}|.)|[^\\'])')
    |(?P<life>'[A-Za-z_]\w*)
    |(?P<word>(?:r\#)?[A-Za-z_]\w*)
    |(?P<number>\d[\w.]*)
    |(?P<sign>=>|->|==|!=|<=|>=|::|\.\.=|\.\.|&&|\|\||.)""",
    re.VERBOSE | re.DOTALL,
)
CLAUSE = re.compile(r"\b(?:requires|ensures|invariant|decreases)\*?(?:\s+\w+\*?)?\s*(\{)")
OPEN = {"(": ")", "[": "]", "{": "}"}


class Group:
    """What stands between a bracket and the one that closes it."""

    def __init__(self, sign: str, line: int) -> None:
        self.sign, self.line = sign, line
        self.inside: list[Token] = []


Token = Leaf | Group


def without_clauses(text: str) -> str:
    """The text with blanks for what only contracts say: clauses, ghost items and ghost fields."""
    out = list(text)

    def blank(start: int, end: int) -> None:
        """Puts blanks in the place of what stands there, but for the ends of lines."""
        for at in range(start, end):
            if out[at] != "\n":
                out[at] = " "

    def closing(at: int) -> int:
        """After the brace that closes the one at a place."""
        depth = 0
        while at < len(text):
            if text[at] == "{":
                depth += 1
            elif text[at] == "}":
                depth -= 1
                if depth == 0:
                    return at + 1
            at += 1
        return at

    for found in re.finditer(r"^[^\S\n]*(//[^\n]*)", text, re.MULTILINE):
        blank(found.start(1), found.end(1))
    clean = "".join(out)
    for found in CLAUSE.finditer(clean):
        blank(found.start(), closing(found.start(1)))
    clean = "".join(out)
    for found in re.finditer(r"\bghost\s+use\s[^;]*;", clean):
        blank(found.start(), found.end())
    clean = "".join(out)
    for found in re.finditer(r"\bghost\s+[^\s=:]+\s*(?::\s*(\{))?", clean):
        end = closing(found.start(1)) if found.group(1) else found.end()
        given = re.compile(r"\s*=\s*(\{)").match(text, end)
        blank(found.start(), closing(given.start(1)) if given else end)
    return "".join(out)


def tokens_of(text: str) -> list[Token]:
    """Tokens as (word, line), and groups."""
    whole = Group("", 1)
    held, line, at = [whole], 1, 0
    while at < len(text):
        found = TOKEN.match(text, at)
        word = found.group()
        at = found.end()
        if found.lastgroup != "space" and found.group("space") is None:
            if word in OPEN:
                group = Group(word, line)
                held[-1].inside.append(group)
                held.append(group)
            elif word in OPEN.values():
                if len(held) == 1 or OPEN[held[-1].sign] != word:
                    raise ValueError(f"line {line}: {word} closes nothing")
                held.pop()
            elif found.group("text") is not None:
                held[-1].inside.append(('""', line))
            else:
                held[-1].inside.append((word, line))
        line += word.count("\n")
    if len(held) != 1:
        raise ValueError(f"line {held[-1].line}: {held[-1].sign} is not closed")
    return whole.inside


def word_of(token: Token) -> str | None:
    """The text of a token, and nothing of a group."""
    return None if isinstance(token, Group) else token[0]


def line_of(token: Token) -> int:
    """The line in which a token begins."""
    return token.line if isinstance(token, Group) else token[1]


def is_group(token: Token, sign: str) -> bool:
    """Whether a token is a group that this bracket opens."""
    return isinstance(token, Group) and token.sign == sign


def flat(tokens: list[Token]) -> Iterator[Leaf]:
    """The tokens, those inside groups too."""
    for token in tokens:
        if isinstance(token, Group):
            yield from flat(token.inside)
        else:
            yield token


def parted(tokens: list[Token], sign: str) -> list[list[Token]]:
    """What stands between the signs, which may part nothing."""
    parts, here = [], []
    for token in tokens:
        if word_of(token) == sign:
            parts.append(here)
            here = []
        else:
            here.append(token)
    return [one for one in parts + [here] if one]
