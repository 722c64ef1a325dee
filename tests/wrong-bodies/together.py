"""Tries the edits of a crate in a copy of it: those of different functions in one check."""
import pathlib
import re
import shutil

from copies import below, link, put_crates, put_texts, start
from edits import Function, groups_of, label, with_edits

SAID = re.compile(r"rt: must-fail (\S+\.edit): (.*)")
REFUSED = "refused, as it must be"
# A line of a check on one function, and one on a place; the last kind is on a proof file that names
# what is no more.
JUDGED = re.compile(r"^fn (\S+): ((?:proved|no proof).*)", re.M)
PLACE = re.compile(r"^(?:note: )?(?:\./)?((?:src|proofs)/\S+?):(\d+):\d+:(.*)", re.M)
TAKEN = re.compile(r"has no field|is not in scope|has no `|was not admitted")
# Edits, what was said of each, and all that was printed.
Trial = tuple[list[pathlib.Path], dict[str, str], str]


def refused_of(group: dict[Function, pathlib.Path], applied: list[pathlib.Path], crate: str,
               printed: str) -> list[pathlib.Path]:
    """The edits of a group whose own function a check did not prove, and not for a callee alone."""
    judged = JUDGED.findall(printed)
    places = PLACE.findall(printed)
    found = []
    for (path, name), edit in group.items():
        parts = path[len("src/") : -len(".rt")].split("/")
        module = [crate, *(it for it in parts if it not in ("lib", "main"))]
        own = [said for it, said in judged
               if it.split("::")[: len(module)] == module and it.split("::")[-1] == name]
        refused = own and all(it.startswith("no proof: ")
                              and not it.startswith("no proof: it calls ") for it in own)
        told = [said for file, _, said in places
                if file.startswith("proofs/") and f"/{name}/" in file]
        by_name = told and all(TAKEN.search(it) for it in told)
        if edit in applied and refused and not by_name:
            found.append(edit)
    return found


def check_together(crate: pathlib.Path, edits: list[pathlib.Path]) -> list[pathlib.Path]:
    """Checks a crate of a copy with the edits of each group at once, and returns those that are
    refused so."""
    found: list[pathlib.Path] = []
    if "logic=proved" not in start(["rt", "check", "--jobs", "1"], crate):
        return found
    for group in groups_of(crate, edits):
        texts, applied = with_edits(crate, group.values())
        kept = {path: (crate / path).read_text(encoding="utf-8") for path in texts}
        put_texts(crate, texts)
        printed = start(["rt", "check", "--jobs", "1"], crate)
        found += refused_of(group, applied, crate.name, printed)
        put_texts(crate, kept)
    return found


def attempt(number: int, name: str, edits: list[pathlib.Path], base: pathlib.Path,
            libraries: dict[str, list[str]], alone: bool) -> Trial:
    """Tries a crate's edits in a copy of their own, and returns what rt says of each and all that
    it printed."""
    room = base.parent / f"copy-{number}"
    put_crates(base, room, [name, *sorted(below(name, libraries))], link)
    crate, printed = room / "crates" / name, ""
    together = [] if alone else check_together(crate, edits)
    said = {label(it): f"{REFUSED}, with others" for it in together}
    left = [it for it in edits if label(it) not in said]
    if left:
        (crate / "must-fail").mkdir()
        for edit in left:
            shutil.copy2(edit, crate / "must-fail" / edit.name)
        printed = start(["rt", "must-fail", name], room)
        said.update(SAID.findall(printed))
    shutil.rmtree(room)
    return edits, said, printed
