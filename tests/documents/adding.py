"""docs/ARCHITECTURE.md's table of the files that a new command touches, against the repository."""
import re

from architecture import rows, section

WORDS = "crates/ddc_app/src/command_word.rt"
# What these scripts print follows from the rest.
PRINTED = {"docs/PROMISES.md", "docs/limits.md", "docs/reading-order.md"}
PAGE = "docs/ARCHITECTURE.md"


def commands(root):
    """The variants of CommandWord with their words."""
    body = re.search(r"pub fn name\(self\).*?\n    \}\n", (root / WORDS).read_text(), re.S).group(0)
    return dict(re.findall(r'CommandWord::(\w+) => "([\w-]+)"', body))


def is_named(variant, word, text):
    """A command by its variant or its arm, by its plan or its ends, or by its row or entry of a
    page."""
    stem = word.replace("-", "_")
    entry = re.escape(word).replace(r"\-", r"\\?-")
    forms = (rf"\b(?:CommandWord::|command\.|returns-in-){variant}\b",
             rf"\b{stem}_(?:plan|ends)\b",
             rf"(?m)^(?:\| `|\\fB){entry}(?:\\f|[ `])")
    return any(re.search(form, text) for form in forms)


def tables(root):
    """The files of crates/ and docs/ that name at least three of four commands."""
    every = commands(root)
    for path in sorted([*root.glob("crates/*/*/**/*.*t"), *root.glob("docs/**/*.*")]):
        name = str(path.relative_to(root))
        if "/out/" in name or name in PRINTED or path.suffix == ".svg" or not path.is_file():
            continue
        text = path.read_text()
        if 4 * sum(is_named(*one, text) for one in every.items()) >= 3 * len(every):
            yield name


def plans(root):
    """How often each command's plan is defined in specs/ of a crate."""
    text = "".join(path.read_text() for path in root.glob("crates/*/specs/*.antt"))
    for word in commands(root).values():
        found = len(re.findall(rf"^abbrev pub {word.replace('-', '_')}_plan :", text, re.M))
        if found != 1:
            yield f"the plan of {word} is defined {found} times in specs/"


def faults(root):
    text = section((root / PAGE).read_text(), "### To add a command")
    cells = [row[0] for row in rows(text, "File")]
    listed = [name for cell in cells for name in re.findall(r"`([\w/.-]+\.\w+)`", cell)]
    found = list(tables(root))
    yield from (f"{PAGE}: {name} has all commands, and the list of a new one's files is without it"
                for name in found if name not in listed)
    yield from (f"{PAGE}: {name} is in the list of a new command's files and has not all commands"
                for name in listed if name not in found)
    count = re.search(r"(\d+) files have a line for each command", text)
    if not count or int(count.group(1)) != len(found):
        yield f"{PAGE}: {len(found)} files have a line for each command"
    yield from (f"{PAGE}: {fault}" for fault in plans(root))
