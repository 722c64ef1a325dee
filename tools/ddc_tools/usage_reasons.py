"""Why ddc answered `usage`: each cause with the word that it is about."""

import difflib
import os
import re
from collections.abc import Iterator

from ddc_tools.asked import Asked, content_of
from ddc_tools.kaem import ScriptFault, commands_of

DECIMAL = re.compile(r"0|[1-9][0-9]*")
STEPS = (1, 1 << 48, "2^48")
NUMBERS = {"STEPS": STEPS, "EVERY": STEPS, "COUNT": (1, 1000, "1,000"),
           "N": (1, 1 << 24, "16,777,216"), "BASE of asm": (0, 1 << 37, "2^37"),
           "COMMAND of kaem-left": (1, 4096, "4,096"), "NUMBER": (1, 7, "7"),
           "PLACE": (0, (1 << 64) - 1, "2^64 - 1")}
FILES = ("RECIPE", "REPORT", "SAVE", "BASE", "PATCH", "SOURCE", "BINARY", "OUT", "PROGRAM", "LIST",
         "SCRIPT", "FROM", "TO")
WRITTEN = ("REPORT", "SAVE", "BASE", "PATCH", "OUT")
LANGUAGES = ("hex0", "hex1", "hex2", "m1")
MOST_FILE, MOST_PREFIX = 255, 250
# The words of which no two may be one file. RECIPE may be one of its own inputs.
APART = {"asm": ["SOURCE", "OUT"], "audit": ["RECIPE", "REPORT"], "verify": ["RECIPE", "REPORT"],
         "provenance": ["RECIPE", "REPORT"], "part": ["RECIPE", "SAVE", "REPORT"],
         "resume": ["RECIPE", "SAVE", "REPORT"], "left": ["RECIPE", "OUT"],
         "delta-start": ["RECIPE", "BASE", "PATCH", "REPORT"],
         "delta-resume": ["RECIPE", "BASE", "PATCH", "REPORT"], "segment": ["FROM", "TO"],
         "kaem": ["SCRIPT", "LIST", "REPORT"], "kaem-verify": ["SCRIPT", "LIST", "REPORT"],
         "kaem-left": ["SCRIPT", "LIST", "OUT"]}


def stripped(word: str) -> str:
    """A word without the `./` that it begins with, as two words are compared."""
    while word.startswith("./"):
        word = word[2:]
    return word


def near(word: str, known: list[str]) -> str:
    """A known word that is spelled like this one, as a question."""
    found = difflib.get_close_matches(word, known, 1)
    return f"; do you mean {found[0]}?" if found else ""


def usage_reasons(asked: Asked) -> Iterator[str]:
    """The first cause of `usage`, in the order in which ddc judges."""
    for causes in (of_command, of_count, of_words, of_clash, of_contents):
        found = list(causes(asked))
        if found:
            yield from found
            return
    yield "the words are of the right forms; a second look at each word is needed (see " \
          "docs/reference/command-line.md)"


def of_command(asked: Asked) -> Iterator[str]:
    """No command, or none that there is."""
    if not asked.words:
        yield "no command is given; `ddc help` lists the commands"
    elif asked.command not in {*asked.forms, "--help", "--version"}:
        option = " (ddc has no options)" if asked.command.startswith("-") else ""
        yield f"no command {asked.command}{option}{near(asked.command, list(asked.forms))}"


def of_count(asked: Asked) -> Iterator[str]:
    """Too few or too many words."""
    command = {"--help": "help", "--version": "version"}.get(asked.command, asked.command)
    names = asked.forms[command]
    given = len(asked.words) - 1
    most = None if names and names[-1].endswith("..") else len(names)
    least = sum(not it.startswith("[") and not it.endswith("..") for it in names)
    if given >= least and (most is None or given <= most):
        return
    missing = names[given:least]
    more = asked.words[1 + len(names):]
    yield f"{command} takes {' '.join(names) or 'no words'}; {given} given: " + (
        f"{', '.join(missing)} is missing" if missing else f"{' '.join(more)} is too much")


def of_words(asked: Asked) -> Iterator[str]:
    """A word that is none of its kind."""
    for name, word in asked.named.items():
        name = name.strip("[]")
        full = f"{name} of {asked.command}"
        if any("\udc80" <= it <= "\udcff" for it in word):
            yield f"{name} is no UTF-8 text: {os.fsencode(word)!r}"
        elif full in NUMBERS or name in NUMBERS:
            yield from of_number(name, word, *NUMBERS.get(full, NUMBERS.get(name, STEPS)))
        elif name == "LANG" and word not in LANGUAGES:
            yield f"LANG {word} is none of {', '.join(LANGUAGES)}{near(word, list(LANGUAGES))}"
        elif name == "COMMAND" and asked.command in ("help", "--help") and word not in asked.forms:
            yield f"no command {word}{near(word, list(asked.forms))}"
        elif name == "PREFIX" and not 1 <= len(os.fsencode(word)) <= MOST_PREFIX:
            yield f"PREFIX has {len(os.fsencode(word))} bytes, and may have 1 to {MOST_PREFIX}"
        elif name == "FILE":
            yield from of_guest_file(word)
        elif name in FILES and not 1 <= len(os.fsencode(word)) <= MOST_FILE:
            length = len(os.fsencode(word))
            yield f"{name} is a file word of 1 to {MOST_FILE} bytes, and this one has {length}"


def of_number(name: str, word: str, least: int, most: int, spelled: str) -> Iterator[str]:
    """A word that is no decimal number, or is out of its range."""
    if not DECIMAL.fullmatch(word):
        yield f"{name}: {word} is no decimal number (digits alone, without leading zeros)"
    elif not least <= int(word) <= most:
        yield f"{name}: {word} is not from {least} to {spelled}"


def of_guest_file(word: str) -> Iterator[str]:
    """A FILE that is no guest's file name, or does not fit one line."""
    name = os.fsencode(stripped(word))
    if not 1 <= len(name) <= MOST_FILE:
        yield f"FILE {word!r} is no guest's file name: {len(name)} bytes without leading ./"
    elif any(it < 0x20 or it == 0x7F for it in name):
        yield f"FILE {word!r} does not fit one line: it has a control character"


def of_clash(asked: Asked) -> Iterator[str]:
    """Two words that name the same file."""
    names = APART.get(asked.command, [])
    for at, second in enumerate(names):
        for first in names[:at]:
            if stripped(asked.word(first)) == stripped(asked.word(second)):
                yield f"{first} {asked.word(first)} and {second} {asked.word(second)} name the " \
                      "same file"
    if "PREFIX" in asked.named:
        yield from of_states(asked, [("RECIPE", asked.word("RECIPE"))])


def of_states(asked: Asked, others: list[tuple[str, str]]) -> Iterator[str]:
    """A file that is PREFIX.0 to PREFIX.999."""
    state = re.compile(re.escape(stripped(asked.word("PREFIX"))) + r"\.(0|[1-9][0-9]{0,2})")
    for what, path in others:
        if state.fullmatch(stripped(path)):
            yield f"{what} {path} is one of the states {asked.word('PREFIX')}.0 to .999"


def of_contents(asked: Asked) -> Iterator[str]:
    """A word that what is loaded rules out."""
    if asked.command == "chain":
        yield from of_chain(asked)
    if "SCRIPT" in asked.named:
        yield from of_script(asked)
    if "RECIPE" not in asked.named:
        return
    if not asked.tables():
        yield f"{asked.word('RECIPE')} is TOML 1.1, which Python does not read: STAGE is none " \
              "of it, or a word that is written is the path of an input"
        return
    stages = [it.get("name", "") for it in asked.items("stage")]
    if "STAGE" in asked.named and asked.word("STAGE") not in stages:
        stage = asked.word("STAGE")
        yield f"no stage {stage}: {', '.join(stages)}{near(stage, stages)}"
    inputs = [(f"the path of input {it.get('name')}", it.get("path", ""))
              for it in asked.items("input")]
    for name in (it for it in WRITTEN if it in asked.named):
        for what, path in inputs:
            if stripped(asked.word(name)) == stripped(path):
                yield f"{name} {asked.word(name)} is {what}"
    if "PREFIX" in asked.named:
        yield from of_states(asked, inputs)


def of_chain(asked: Asked) -> Iterator[str]:
    """A line of LIST whose two words clash, or whose report is an input of its recipe."""
    for number, line in enumerate(asked.content("LIST").decode(errors="replace").splitlines(), 1):
        recipe, _, report = line.partition(" ")
        verify = Asked(["verify", recipe, report], asked.forms, asked.answer)
        for reason in (*of_clash(verify), *of_contents(verify)):
            yield f"{asked.word('LIST')}:{number}: {reason}"


def of_script(asked: Asked) -> Iterator[str]:
    """A COMMAND beyond the script's, or an output that LIST has."""
    number = asked.word("COMMAND")
    if DECIMAL.fullmatch(number):
        try:
            count = len(commands_of(asked.content("SCRIPT")))
        except ScriptFault:
            return
        if int(number) > count:
            yield f"COMMAND {number}: {asked.word('SCRIPT')} has {count} commands"
            return
    listed = content_of(asked.word("LIST")).decode(errors="replace").splitlines()
    for name in (it for it in ("REPORT", "OUT") if it in asked.named):
        for at, line in enumerate(listed, 1):
            if stripped(line) == stripped(asked.word(name)):
                yield f"{name} {asked.word(name)} is listed: {asked.word('LIST')}:{at}"
