"""What every document keeps: its length, a page's question in its first line, a way to it from
README.md, and no day on any page."""
import re

MOST_WORDS = {
    "README.md": 1200,
    "docs/ARCHITECTURE.md": 4000,
    "docs/BENCHMARKS.md": 2000,
    "docs/DECISIONS.md": 2800,
    "docs/PROVING.md": 2800,
    "docs/TESTING.md": 2200,
    "docs/guide.md": 5400,
}


def words(text):
    """How many words a text has: what stands between blanks and holds a letter or a digit."""
    return sum(1 for word in text.split() if re.search(r"\w", word))


def asks(text):
    """Whether a question stands under the title."""
    return re.match(r"# .+\n\n\*.+\?\*\n", text) is not None


def linked(root):
    """The names of the pages to which links lead from README.md."""
    found, left = set(), [root / "README.md"]
    while left:
        page = left.pop()
        name = str(page.relative_to(root))
        if name in found:
            continue
        found.add(name)
        for target in re.findall(r"\]\(([^)#\s]+\.md)", page.read_text()):
            if "://" not in target and (page.parent / target).is_file():
                left.append((page.parent / target).resolve())
    return found


def axioms(root):
    """A fault where the last build of the program counted other axioms than README.md names; none
    where nothing was built here."""
    log = root / "crates/ddc/out/build.log"
    counted = re.findall(r"axioms=(\d+)", log.read_text(errors="replace")) if log.is_file() else []
    if counted and f"`axioms={counted[-1]}`" not in (root / "README.md").read_text():
        yield f"README.md: the prover's last line on the program has axioms={counted[-1]}"


def without_page(root):
    """A fault for each folder of tests/ and bench/ that has no README.md, but for packages."""
    for folder in sorted(root.glob("tests/*/")) + sorted(root.glob("bench/*/")):
        is_package = folder.name in ("__pycache__", "work") or (folder / "__init__.py").is_file()
        if not is_package and not (folder / "README.md").is_file():
            yield f"{folder.relative_to(root)}/README.md: no such page"


def faults(root):
    """Each fault, after the name of its document."""
    yield from axioms(root)
    yield from without_page(root)
    found = linked(root)
    for name, most in MOST_WORDS.items():
        count = words((root / name).read_text())
        if count > most:
            yield f"{name}: {count} words, more than {most}"
    at_top = [it for it in sorted(root.glob("*.md")) if it.name != "README.md"]
    pages = [
        *at_top, *sorted((root / "docs").rglob("*.md")), *sorted(root.glob("examples/*/*.md")),
        *sorted(root.glob("tests/**/*.md")), *sorted(root.glob("bench/**/*.md"))
    ]
    for page in pages:
        if not asks(page.read_text()):
            yield f"{page.relative_to(root)}: no question under the title"
    for page in [root / "README.md", *pages]:
        name = str(page.relative_to(root))
        if name not in found:
            yield f"{name}: no link leads to it from README.md"
        for day in re.findall(r"\b20\d\d-\d\d-\d\d\b", page.read_text()):
            yield f"{name}: has the day {day}"
