"""The commands `hex0` and `asm` (docs/reference/command-line.md)."""

from __future__ import annotations

import re

import languages
from outside import FILE_LIMIT, USAGE, Answer, clash, judge_words, load, save
from report import first_difference

BASE = re.compile(r"0|[1-9][0-9]{0,11}")


def hex0(words: list[str]) -> Answer:
    """`hex0 SOURCE BINARY`: compares the value of SOURCE with BINARY."""
    judge_words(words, 2)
    value = languages.hex0(load(words[0], FILE_LIMIT))
    binary = load(words[1], FILE_LIMIT)
    if value == binary:
        return Answer(0, f"equal {len(value)}")
    return Answer(3, f"differs {first_difference(value, binary)} {len(value)} {len(binary)}")


def asm(words: list[str]) -> Answer:
    """`asm LANG BASE SOURCE OUT`: saves the value of SOURCE, or the text of its items."""
    if len(words) != 4 or words[0] not in ("hex0", "hex1", "hex2", "m1"):
        raise USAGE
    judge_words(words[2:], 2)
    if not BASE.fullmatch(words[1]) or int(words[1]) > 1 << 37 or clash(words[2], words[3]):
        raise USAGE
    source = load(words[2], FILE_LIMIT)
    try:
        if words[0] == "m1":
            made = b"".join(map(languages.item_text, languages.m1_items(source)))
        else:
            made = languages.value(words[0], source, int(words[1]))
    except languages.Refused as refused:
        return Answer(7, "refused {} {}".format(*refused.args))
    save(words[3], made)
    return Answer(0, f"made {len(made)}")
