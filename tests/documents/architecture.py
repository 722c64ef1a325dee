"""docs/ARCHITECTURE.md against crates.txt: the picture of the families, the table of families, and
the table of crates."""
import re

WIDEST = 110


def stands_on(root):
    """crates.txt: each crate with the crates of this repository that it stands on."""
    needs = {}
    for line in (root / "crates.txt").read_text().splitlines():
        name, colon, others = line.split("#")[0].partition(":")
        if colon:
            needs[name.split()[0]] = others.split()
    return {name: [other for other in others if other in needs] for name, others in needs.items()}


def section(text, heading):
    """The text under a heading, up to the next one of the same depth."""
    depth = heading.split()[0]
    found = re.search(rf"^{re.escape(heading)}\n(.*?)(?=^{depth} |\Z)", text, re.M | re.S)
    return found.group(1) if found else ""


def rows(text, head):
    """The rows of the table that begins with this cell, each a list of its cells."""
    lines = iter(text.splitlines())
    for line in lines:
        if line.startswith(f"| {head} |"):
            break
    next(lines, None)
    table = []
    for line in lines:
        if not line.startswith("|"):
            break
        table.append([cell.strip() for cell in line.strip("|").split("|")])
    return table


def names(cell):
    return re.findall(r"`(\w+)`", cell)


def families(text):
    """The table of families: each with its crates and the families that it stands on."""
    return {names(row[0])[0]: (names(row[2]), names(row[3])) for row in rows(text, "Family")}


def boxes(text):
    """The boxes of the drawing by name, each with its line, and the drawing's lines."""
    drawing = re.search(r"^```text\n(.*?)^```", text, re.M | re.S)
    lines = drawing.group(1).splitlines() if drawing else []
    return {
        name: at for at, line in enumerate(lines) for name in re.findall(r"┌─ (\w+) ─", line)
    }, lines


def check_members(table, needs):
    """Each crate is of exactly one family."""
    held = [crate for crates, _ in table.values() for crate in crates]
    for crate in sorted(set(held) | set(needs)):
        count = held.count(crate) if crate in needs else -1
        if count != 1:
            yield (f"{crate}: of {max(count, 0)} families" if count >= 0
                   else f"{crate}: no crate of crates.txt")


def check_families(table, needs):
    """Each family stands on exactly the families on which its crates stand."""
    family_of = {crate: family for family, (crates, _) in table.items() for crate in crates}
    for family, (crates, said) in table.items():
        below = {
            family_of.get(other) for crate in crates for other in needs.get(crate, [])
        } - {family}
        if set(said) != below:
            yield (f"family {family}: stands on {sorted(map(str, below))}, "
                   f"and the table says {sorted(said)}")


def check_drawing(table, placed, lines):
    """The drawing has a box for each family, below every family that stands on it."""
    for family in sorted(set(table) ^ set(placed)):
        yield f"{family}: not both a box of the drawing and a row of the table"
    for family, (_, below) in table.items():
        for other in below:
            if placed.get(other, -1) <= placed.get(family, -1):
                yield f"the drawing has {other} not below {family}, which stands on it"
    for at, line in enumerate(lines, 1):
        if len(line) > WIDEST:
            yield f"line {at} of the drawing has {len(line)} columns"


def check_crates(text, needs):
    """The table of crates has each crate once, after those that it stands on."""
    listed = [
        names(row[0])[0] for row in rows(section(text, "## The crates, lowest first"), "Crate")
    ]
    for crate in sorted(set(listed) ^ set(needs)):
        yield f"{crate}: not both in crates.txt and in the table of crates"
    for crate in sorted({crate for crate in listed if listed.count(crate) > 1}):
        yield f"{crate}: twice in the table of crates"
    for at, crate in enumerate(listed):
        for other in needs.get(crate, []):
            if other not in listed[:at]:
                yield f"the table of crates has {crate} before {other}, on which it stands"


def faults(root):
    text = (root / "docs/ARCHITECTURE.md").read_text()
    needs = stands_on(root)
    table = families(text)
    placed, lines = boxes(text)
    yield from check_members(table, needs)
    yield from check_families(table, needs)
    yield from check_drawing(table, placed, lines)
    yield from check_crates(text, needs)
