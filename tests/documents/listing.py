"""The table of docs/TESTING.md as the list of tests, and what it has to agree with: the files of
tests/, the gate, and docs/BENCHMARKS.md for bench/."""
import os
import re
from dataclasses import dataclass
from pathlib import Path
from typing import Iterator

PAGE = "docs/TESTING.md"
FOLDERS = ("tests", "bench")
# A call of a script of the same folder, after a slash, a quote, a blank or a bracket.
BEFORE = r"""[/"' (]"""


@dataclass
class Test:
    """A row of the list: a script, its first words, and what the page says of it."""

    path: str
    words: list[str]
    in_gate: bool
    needs: str
    takes: str

    @property
    def name(self) -> str:
        """The path below tests/, without a last `run`, and the words after it."""
        path = self.path.removeprefix("tests/").removesuffix("/run")
        return " ".join([path, *self.words])


def cells(line: str) -> list[str]:
    """The cells of a row of a table."""
    return [cell.strip() for cell in line.strip().strip("|").split(" | ")]


def tests_of(root: Path) -> list[Test]:
    """The tests of the page's table. A name without a folder is of the folder before it."""
    table = re.search(r"^\| Check \| In the gate \|.*\n\|[-|]*\n((?:\|.*\n)+)",
                      (root / PAGE).read_text(), re.M)
    found = []
    for row in (table[1] if table else "").splitlines():
        names, gate, needs, takes = cells(row)
        folder = ""
        for name in re.findall(r"`([^`]+)`", names):
            path, *words = name.split()
            if path == "rt":
                continue
            path = path if path.startswith("tests/") else f"{folder}/{path}"
            folder = path.rpartition("/")[0]
            found.append(Test(path, words, gate == "yes", needs.replace("`", ""), takes))
    return found


def head(script: Path) -> str:
    """What a script shows: the first clause of its head."""
    text = script.read_text()
    if "python" in text.partition("\n")[0]:
        quoted = re.search(r'"""(.*?)(?:\n\n|""")', text, re.S)
        text = quoted[1] if quoted else ""
    else:
        lines = re.match(r"#!.*\n((?:#.*\n)*)", text)
        text = re.sub(r"^# ?", "", lines[1], flags=re.M).partition("\n\n")[0] if lines else ""
    return re.split(r"[.:;](?: |$)", " ".join(text.split()))[0]


def scripts(root: Path) -> list[str]:
    """The scripts of tests/ and bench/: files that can be run, and begin with `#!`."""
    found = []
    for folder in FOLDERS:
        for path in sorted((root / folder).rglob("*")):
            if path.is_file() and os.access(path, os.X_OK) and path.read_bytes()[:2] == b"#!":
                found.append(str(path.relative_to(root)))
    return found


def called(root: Path, script: str) -> bool:
    """Whether a page of TESTING or BENCHMARKS names the script, or another file of its folder,
    of the crates' tests or of another test calls it."""
    pages = [root / PAGE, root / "docs/BENCHMARKS.md"]
    if any(re.search(rf"`{re.escape(script)}[` ]", page.read_text()) for page in pages):
        return True
    folder, _, name = script.rpartition("/")
    near = re.compile(rf"{BEFORE}{re.escape(name)}(?![\w./-])")
    for path in (root / script.partition("/")[0]).rglob("*"):
        if not path.is_file() or path == root / script or path.suffix in (".md", ".pyc"):
            continue
        text = path.read_text(errors="ignore")
        beside = path.parent == root / folder and text[:2] == "#!"
        if script in text or beside and near.search(text):
            return True
    return False


def faults(root: Path) -> Iterator[str]:
    """Each script that no list has, each listed one that is not there, and each row that says of
    the gate what .ci/run does not do."""
    listed = tests_of(root)
    if not listed:
        yield f"{PAGE}: no table of tests"
    for script in sorted({test.path for test in listed} - set(scripts(root))):
        yield f"{PAGE}: {script}: no such script"
    gate = re.findall(r"^(tests/[^|\n]*?)(?: \|\| exit)?$", (root / ".ci/run").read_text(), re.M)
    in_gate = [" ".join([test.path, *test.words]) for test in listed if test.in_gate]
    for call in sorted(set(gate) ^ set(in_gate)):
        yield f"{PAGE}: {call}: not both in .ci/run and in the gate by the table"
    for script in scripts(root):
        is_test = script.startswith("tests/") and script.rpartition("/")[2] in ("run", "check")
        if script == "tests/run" or script in {test.path for test in listed}:
            if not head(root / script):
                yield f"{PAGE}: {script}: its head does not say what it shows"
        elif is_test or not called(root, script):
            yield f"{PAGE}: {script}: in no list, and no test calls it"
