"""The edits of this folder and of must-fail: their texts, the functions that they change, and the
days of refused.txt."""
import os
import pathlib
import re
from typing import Iterable, Iterator

TOP = pathlib.Path(__file__).resolve().parents[2]
HERE = TOP / "tests" / "wrong-bodies"
DAYS = HERE / "refused.txt"
PARTS = ("src", "specs", "proofs")
FUNCTION = re.compile(r"^( *)(?:pub(?:\([a-z]+\))? )?(?:const |final |unsafe )*fn (\w+)", re.M)
# The file and the name of a function.
Function = tuple[str, str]


def label(edit: pathlib.Path) -> str:
    """The name of an edit in refused.txt."""
    return f"{edit.parent.name}/{edit.name}"


def changes(edit: pathlib.Path) -> Iterator[tuple[str, str, str]]:
    """The path, the old and the new text of each change of an edit."""
    path, old = "", ""
    for line in edit.read_text(encoding="utf-8").split("\n"):
        if line.startswith("file: "):
            path = line[len("file: ") :].strip()
        elif line.startswith("old: "):
            old = line[len("old: ") :]
        elif line.startswith("new:"):
            yield path, old, re.sub(r"\A ", "", line[len("new:") :])
            old = ""


def why_not(edit: pathlib.Path, crate: pathlib.Path) -> str | None:
    """Says why an edit cannot be applied to the crate's files, or nothing where it can."""
    texts: dict[str, str] = {}
    count = 0
    for path, old, new in changes(edit):
        if not path.startswith(tuple(f"{it}/" for it in PARTS)) or os.path.normpath(path) != path:
            return "it names no file below src/, specs/ or proofs/"
        if not old or old == new:
            return "a 'new:' line has no other text before it"
        if path not in texts:
            if not (crate / path).is_file():
                return f"there is no file {path}"
            texts[path] = (crate / path).read_text(encoding="utf-8")
        found = texts[path].count(old)
        if found != 1:
            return f"an old text is in {path} {found} times, and not once"
        texts[path] = texts[path].replace(old, new)
        count += 1
    return None if count else "it has no 'old:' and 'new:' pair"


def look_at_texts() -> tuple[int, int]:
    """Looks at each edit, here and of the gate, and returns how many can be applied and how many
    cannot."""
    passed = failed = 0
    for edit in [*sorted(TOP.glob("crates/*/must-fail/*.edit")), *sorted(HERE.glob("*/*.edit"))]:
        is_here = edit.parent.parent == HERE
        crate = TOP / "crates" / edit.parent.name if is_here else edit.parent.parent
        why = why_not(edit, crate)
        if is_here and (crate / "must-fail" / edit.name).exists():
            why = "one of this name stands under must-fail"
        passed, failed = passed + (not why), failed + bool(why)
        if why:
            print(f"FAILED {edit.relative_to(TOP)}: {why}")
    return passed, failed


def own_function(crate: pathlib.Path, edit: pathlib.Path) -> Function | None:
    """The file and the name of the one function whose body an edit changes, with the lines where it
    stands, or nothing."""
    found: set[Function | None] = set()
    for path, old, _ in changes(edit):
        text = (crate / path).read_text(encoding="utf-8")
        heads = [it for it in FUNCTION.finditer(text) if it.start() < text.find(old)]
        if not path.startswith("src/") or not heads:
            return None
        # The function ends at the first line with a bracket as far to the left as its head.
        end = text.find(f"\n{heads[-1][1]}}}\n", heads[-1].start())
        body = text.find(f"\n{heads[-1][1]}{{\n", heads[-1].start())
        if not body < text.find(old) < end:
            return None
        same = [it[2] for it in FUNCTION.finditer(text)].count(heads[-1][2])
        found.add((path, heads[-1][2]) if same == 1 else None)
    return found.pop() if len(found) == 1 else None


def groups_of(crate: pathlib.Path,
              edits: list[pathlib.Path]) -> list[dict[Function, pathlib.Path]]:
    """The edits that change one function's body, in groups that change different ones."""
    groups: list[dict[Function, pathlib.Path]] = []
    for edit in edits:
        function = own_function(crate, edit)
        group = next((it for it in groups if function not in it), None)
        if function and group is None:
            groups.append({function: edit})
        elif function:
            group[function] = edit
    return groups


def with_edits(crate: pathlib.Path, edits: Iterable[pathlib.Path]
               ) -> tuple[dict[str, str], list[pathlib.Path]]:
    """The texts of the files that these edits change, and the edits of which each old text stood
    there once."""
    texts: dict[str, str] = {}
    applied: list[pathlib.Path] = []
    for edit in edits:
        new = dict(texts)
        for path, old, into in changes(edit):
            text = new.get(path) or (crate / path).read_text(encoding="utf-8")
            if text.count(old) != 1:
                break
            new[path] = text.replace(old, into)
        else:
            texts, applied = new, [*applied, edit]
    return texts, applied


def days_known() -> dict[str, str]:
    """The lines of refused.txt: each edit with its day and toolchain."""
    lines = [line.split(" ", 1) for line in DAYS.read_text().splitlines()] if DAYS.is_file() else []
    return dict(lines)


def write_days(days: dict[str, str]) -> None:
    """Writes the days of the edits that still stand here, in one step."""
    there = {label(edit) for edit in HERE.glob("*/*.edit")}
    new = DAYS.with_suffix(".new")
    new.write_text("".join(f"{name} {days[name]}\n" for name in sorted(days) if name in there))
    new.replace(DAYS)
