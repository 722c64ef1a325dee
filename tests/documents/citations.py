"""What the documents cite: paths, links with their headings, crates, names of definitions beside a
crate or a file, and clauses after their function."""
import re
from functools import cache

from architecture import stands_on

# What a benchmark makes and git ignores.
MADE = {"bench/work/"}
ROOTED = re.compile(
    r"(?<![\w./*-])((?:crates|docs|tests|tools|examples|bench|build|\.ci)/[\w./*-]*[\w*/])"
)
FILE = re.compile(r"`((?:specs|src|proofs)/[\w/]+\.\w+|\w+\.(?:antt|rt))`")
LINK = re.compile(r"\]\(([^)\s]+)\)")
QUOTED = r"`[\w-]+`"
OF_CRATE = re.compile(rf"((?:{QUOTED}(?:, and |, | and | or ))*`[\w/.-]+`) of `([\w:]+)`")
MEASURED = re.compile(r"^\|.*\| [\d.]+ \|")
DAY = re.compile(r"\b20\d\d-\d\d-\d\d\b")
CLAUSED = re.compile(r"`((?:\w+::)*\w+)` \(((?:`\w+`(?:, )?)+)\)")
IN_FILE = re.compile(rf"`(crates/[\w/]+\.(?:antt|rt))`((?:, {QUOTED}| and {QUOTED})+)")
DEFINED = [
    r"\b(?:fn|struct|enum|trait|const|static|mod|type|macro_rules!|record|data|ensures|requires"
    r"|ghost)\s+([\w-]+)",
    r"^\s*(?:(?:abbrev|unfoldable|pub)\s+)*([\w-]+)\s*:",
    r"^\s+([A-Z]\w*)(?:\(.*\)| \{.*)?,$",
]


def documents(root):
    found = [*sorted(root.glob("*.md")), *sorted((root / "docs").rglob("*.md"))]
    found += sorted((root / "examples").glob("*/README.md"))
    return found + [
        it for top in ("tests", "bench") for it in sorted((root / top).rglob("README.md"))
    ]


def sources(root, crate):
    return [
        path for folder in ("src", "specs", "proofs")
        for path in sorted((root / "crates" / crate / folder).rglob("*.*t"))
    ]


@cache
def defined(path):
    text = path.read_text()
    return {name for form in DEFINED for name in re.findall(form, text, re.M)}


@cache
def names_of(root, crate):
    """What can be cited of a crate: its definitions, its files by their names, and its folders."""
    held = {crate, "specs", "proofs", "src", "crate"}
    for path in sources(root, crate):
        held |= defined(path) | {path.stem, path.parent.name}
    return held


def slugs(path):
    """The anchors of a document's headings."""
    heads = re.findall(r"^#+ (.*)$", path.read_text(), re.M)
    return {re.sub(r"[^\w -]", "", head.lower()).replace(" ", "-") for head in heads}


def check_links(root, document, text):
    for target in LINK.findall(text):
        if re.match(r"\w+://", target):
            continue
        file, _, anchor = target.partition("#")
        path = document.parent / file if file else document
        if not path.exists():
            yield f"link to {target}: no such file"
        elif anchor and anchor not in slugs(path):
            yield f"link to {target}: no such heading"


def check_paths(root, text):
    for cited in ROOTED.findall(text):
        cited = cited.rstrip(".")
        stands_for_any = any(part.isupper() and "." not in part for part in cited.split("/"))
        if cited not in MADE and not stands_for_any and not list(root.glob(cited.rstrip("/"))):
            yield f"{cited}: no such path"


def check_files(root, paragraph, crates):
    """A file without its folder is in the one that the paragraph named last by a path, or in the
    crate after its name."""
    for found in FILE.finditer(paragraph):
        named = re.match(r" of `(\w+)`", paragraph[found.end():])
        before = re.findall(r"crates/(\w+)/?(specs|src|proofs)?", paragraph[:found.start()])
        crate, folder = (named.group(1), "") if named else before[-1] if before else ("", "")
        end = (found.group(1) if "/" in found.group(1)
               else f"{folder}/**/{found.group(1)}" if folder else f"**/{found.group(1)}")
        if not any(
            list((root / "crates" / other).glob(end)) for other in ([crate] if crate else crates)
        ):
            yield f"{found.group(1)}: no such file" + (f" of {crate}" if crate else "")


def holds(root, crates, names):
    """Whether some crate has all of these names."""
    return any(set(names) <= names_of(root, crate) for crate in crates)


def check_qualified(root, text, crates):
    for cited in re.findall(r"`((?:\w+::)+\w+)(?:\(\))?`", text):
        parts = cited.split("::")
        if parts[0] in ("std", "io", "fs", "core"):
            continue
        within = [parts[0]] if parts[0] in crates else crates
        if not holds(root, within, parts):
            yield f"{cited}: no such name"
    for cited in re.findall(r"`(?:Rattle\.)?(\w+\.(?:specs|proofs)\.[\w.-]+)`", text):
        crate, *parts = cited.split(".")
        if crate != "std" and not (
            crate in crates and holds(root, [crate], set(parts) - {"declared"})
        ):
            yield f"{cited}: no such name"


def check_beside(root, text, crates, has_kit):
    """Names beside a crate or a module (`name` of `crate`) or a file (`path`, `name`), and crates
    that are called so."""
    for cited, place in OF_CRATE.findall(text):
        parts = place.split("::")
        if has_kit and parts[0] not in crates:
            continue
        within = [parts[0]] if parts[0] in crates else crates
        for name in re.findall(r"`([\w-]+)`", cited):
            if not holds(root, within, [name, *parts]):
                yield f"{name}: no such name of {place}"
    for path, cited in IN_FILE.findall(text):
        for name in re.findall(r"`([\w-]+)`", cited) if (root / path).exists() else []:
            if name not in defined(root / path):
                yield f"{name}: not in {path}"
    for crate in re.findall(r"\b[Cc]rate `(\w+)`", text):
        if crate not in crates:
            yield f"{crate}: no such crate"


@cache
def words(root):
    """Every word of the crates' sources and of what tests, examples and benchmarks are made of, and
    the names of their files."""
    files = [path for crate in stands_on(root) for path in sources(root, crate)]
    files += [
        path for folder in ("tests", "examples", "bench") for path in (root / folder).rglob("*")
    ]
    held = set(stands_on(root))
    for path in files:
        if path.is_file() and path.suffix != ".md":
            held |= {
                path.stem, path.parent.name, *re.findall(r"\w+", path.read_text(errors="ignore"))
            }
    return held


def check_words(root, paragraph):
    """A name of several words is one of this repository, but for what was seen on a day, which is
    told in that day's names."""
    if DAY.search(paragraph) or MEASURED.match(paragraph):
        return
    for name in re.findall(r"`([a-z]\w*_\w+)`", paragraph):
        if name not in words(root):
            yield f"{name}: no such name anywhere"


@cache
def clauses(root, crate):
    """The named clauses of a crate's functions, by the function's name."""
    found = {}
    for path in sorted((root / "crates" / crate / "src").rglob("*.rt")):
        _, *functions = re.split(r"\bfn (?=\w)", path.read_text())
        for function in functions:
            name = re.match(r"\w+", function)[0]
            found.setdefault(name, set()).update(
                re.findall(r"^\s+(?:ensures|requires) (\w+) \{", function, re.M)
            )
    return found


def check_clauses(root, piece, crates):
    """The clauses after a function: `crate::function` (`clause`, ..)."""
    for cited, named in CLAUSED.findall(piece):
        *path, function = cited.split("::")
        crate = path[0] if path else ""
        held = clauses(root, crate).get(function) if crate in crates else None
        for clause in re.findall(r"\w+", named) if held is not None else []:
            if clause not in held:
                yield f"{clause}: no such clause of {cited}"


def check_headings(text, crates, root):
    """A heading of docs/PROVING.md that names a crate or a part names one that is there."""
    for heading in re.findall(r"^## (.*)$", text, re.M):
        for name in re.findall(r"\b[a-z0-9]+_\w+(?:::\w+)?", heading):
            if not holds(root, crates, name.split("::")):
                yield f"heading {heading}: no such crate or part as {name}"


def paragraphs(text):
    """The text in pieces: paragraphs, items and rows. A block that is indented is a command or what
    it prints."""
    kept = "\n".join("" if line.startswith("    ") else line for line in text.splitlines())
    for piece in re.split(r"\n\s*\n|\n(?=- |\d+\. |\| )", kept):
        yield re.sub(r"\s+", " ", piece)


def faults(root):
    crates = list(stands_on(root))
    for document in documents(root):
        text = document.read_text()
        found = [*check_links(root, document, text)]
        is_proving = document.name == "PROVING.md"
        # A folder of tests names its own files and edits beside the crates that they are of.
        is_of_tests = document.relative_to(root).parts[0] in ("tests", "bench")
        for piece in paragraphs(text):
            found += [*check_paths(root, piece), *check_files(root, piece, crates)]
            found += [*check_qualified(root, piece, crates)]
            found += [*check_clauses(root, piece, crates)]
            found += [] if is_of_tests else [*check_beside(root, piece, crates, is_proving)]
            found += [] if is_proving or is_of_tests else [*check_words(root, piece)]
        found += [*check_headings(text, crates, root)] if is_proving else []
        yield from (f"{document.relative_to(root)}: {fault}" for fault in found)
