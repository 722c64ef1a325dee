"""How many parameters functions have, and how often the condition on a file's name is written.

The ceilings are what the code has: they fall with it and never rise.
"""
import re

# so many functions of src have more than five parameters, none has more than so many, and so many
# conditions ask for a file's name where a
# type could
WITH_SIX, MOST, NAMED = 3, 6, 8

FUNCTION = re.compile(r"^[ \t]*(?:pub(?:\(\w+\))? )?(?:const )?fn (\w+)", re.M)
CONDITION = re.compile(r"^\s*requires\b[^\n]*\bIsFileName\b", re.M)


def parameters(text, start):
    """How many parameters the function has whose name ends here."""
    start = text.index("(", start)
    depth, angle, count, filled = 0, 0, 0, False
    for at in range(start, len(text)):
        char, before = text[at], text[at - 1]
        if char in "([{":
            depth += 1
        elif char in ")]}":
            depth -= 1
            if depth == 0:
                return count + filled
        elif char == "<":
            angle += 1
        elif char == ">" and before != "-":
            angle -= 1
        elif char == "," and depth == 1 and angle == 0:
            count, filled = count + filled, False
            continue
        if depth >= 1 and at > start and not char.isspace():
            filled = True
    raise ValueError("a parameter list does not end")


def sources(root):
    """The files of src of all crates but those of tests."""
    for path in sorted((root / "crates").glob("*/src/**/*.rt")):
        if not path.relative_to(root / "crates").parts[0].endswith("_tests"):
            yield path


def functions(root):
    """Each function of src: how many parameters it has, and where it stands."""
    for path in sources(root):
        text = path.read_text()
        for found in FUNCTION.finditer(text):
            line = text.count("\n", 0, found.start(1)) + 1
            yield parameters(
                text, found.end()
            ), f"{path.relative_to(root)}:{line}: {found.group(1)}"


def conditions(root):
    """How many functions of src require that a text is a file's name."""
    return sum(len(CONDITION.findall(path.read_text())) for path in sources(root))


def faults(root):
    """What is past a ceiling."""
    counted = list(functions(root))
    wide = [place for count, place in counted if count > 5]
    if len(wide) > WITH_SIX:
        yield f"{len(wide)} functions of src have more than five parameters, and {WITH_SIX} may"
    yield from (f"{place} has {count} parameters" for count, place in counted if count > MOST)
    if conditions(root) > NAMED:
        yield f"{conditions(root)} functions of src require IsFileName, and {NAMED} may"
