"""The pass that cuts all stages of an audit, and the folder that keeps what it leaves."""

import json
import os
import shutil
from pathlib import Path

from ddc_tools.audits import Audit
from ddc_tools.derived import Derived
from ddc_tools.program import Answer, Refusal, replace
from ddc_tools.progress import Pace, Progress
from ddc_tools.recipes import Recipe
from ddc_tools.saves import digest, read_save

MOST_STATES = 1000
PARTS = ("pauses", "states", "artefacts", "answers", "failures")


class Folder:
    """The folder of one verification, which is bound to a recipe, its inputs and EVERY."""

    def __init__(self, path: Path, recipe: Recipe, inputs: dict[str, bytes]) -> None:
        self.path, self.recipe = path, recipe
        self.inputs = inputs
        self.digests = {name: digest(content) for name, content in inputs.items()}

    def bind(self, every: int | None, chosen: int) -> int:
        """Binds a new folder, or refuses one of another recipe, input or EVERY; returns EVERY."""
        bound = self.path / "bound.json"
        if not bound.exists():
            if self.path.exists() and any(self.path.iterdir()):
                raise Refusal(f"{self.path} is there, not empty, and no folder of this tool", 2)
            for part in PARTS:
                (self.path / part).mkdir(parents=True, exist_ok=True)
            said = {"recipe": self.recipe.digest, "inputs": self.digests, "every": every or chosen}
            replace(bound, json.dumps(said, indent=1).encode() + b"\n")
            return every or chosen
        try:
            said = json.loads(bound.read_bytes())
            kept = said["recipe"], said["inputs"], int(said["every"])
        except (ValueError, KeyError, TypeError):
            raise Refusal(f"{bound} is not what this tool wrote: take a new folder", 2) from None
        self.compare(kept, every)
        return kept[2]

    def compare(self, kept: tuple[str, dict[str, str], int], every: int | None) -> None:
        """Refuses a folder that is bound to something else."""
        if kept[0] != self.recipe.digest:
            raise Refusal(f"{self.path} belongs to another recipe (its digest is {kept[0]}): take "
                          "a new folder", 2)
        for name, now in self.digests.items():
            if kept[1].get(name) != now:
                raise Refusal(f"{self.path} belongs to another content of the input {name} "
                              f"({self.recipe.inputs[name]['path']}): take a new folder", 2)
        if every not in (None, kept[2]):
            raise Refusal(f"{self.path} belongs to EVERY {kept[2]}, and {every} is asked for: "
                          "take a new folder", 2)

    def count(self, stage: str) -> int:
        """How many states a stage has."""
        numbers = (it.name.rpartition(".")[2] for it in (self.path / "states").glob(f"{stage}.*"))
        return sum(it.isdigit() for it in numbers)

    def pieces(self) -> list[tuple[str, int]]:
        """All pieces, stage by stage."""
        return [(stage, number) for stage in self.recipe.stages
                for number in range(self.count(stage) - 1)]

    def answer(self, stage: str, number: int) -> Path:
        """Where the answer on a piece lies."""
        return self.path / "answers" / f"{stage}.{number}"


class Cutting:
    """One audit by EVERY steps at a time, which leaves each stage's states and artefacts."""

    def __init__(self, folder: Folder, recipe: Path, derived: Derived, progress: Progress) -> None:
        self.folder, self.derived, self.progress = folder, derived, progress
        self.recipe = recipe
        self.save = folder.path / "save"

    def run(self, every: int) -> None:
        """Makes the pass, or goes on with it, and then numbers the states."""
        done = self.folder.path / "cut"
        if done.exists():
            return
        audit = Audit(self.recipe, self.save, self.folder.path / "report", self.progress)
        if self.save.exists():
            self.keep()
        answer = audit.run(lambda: every, Pace(30), lambda stage, steps: self.keep(stage, steps))
        if answer.status not in (0, 3):
            raise Refusal(f"the audit does not reach its end: {answer.said}", failed(answer))
        self.number()
        replace(done, b"")
        self.save.unlink(missing_ok=True)

    def keep(self, stage: str | None = None, steps: int = 0) -> None:
        """Keeps the artefacts that a save has, and the state of the present stage."""
        save = read_save(self.save.read_bytes())
        for name, content in zip(self.folder.recipe.stages, save.artefacts, strict=False):
            path = self.folder.path / "artefacts" / name
            if not path.exists():
                replace(path, content)
        if stage and steps:
            replace(self.folder.path / "pauses" / f"{stage}.{steps:016}", save.state)

    def number(self) -> None:
        """Numbers the states of each stage, from its start, and finds what was made last."""
        report = (self.folder.path / "report").read_text()
        made = [line.split(" ")[2] for line in report.splitlines() if line.startswith("made ")]
        known = {now: name for name, now in self.folder.digests.items()}
        for at, name in enumerate(self.folder.recipe.stages):
            states = self.folder.path / "states"
            replace(states / f"{name}.0", self.derived.first_state(name))
            pauses = sorted((self.folder.path / "pauses").glob(f"{name}.*"))
            if len(pauses) >= MOST_STATES:
                raise Refusal(f"stage {name} has {len(pauses) + 1} states, and may have "
                              f"{MOST_STATES}: take a new folder and a greater --every", 14)
            for number, path in enumerate(pauses, 1):
                new = states / f"{name}.{number}.new"
                new.unlink(missing_ok=True)
                os.link(path, new)
                new.replace(states / f"{name}.{number}")
            artefact = self.folder.path / "artefacts" / name
            if not artefact.exists():
                content = self.folder.inputs[known[made[at]]] if made[at] in known \
                    else self.derived.artefact(name)
                replace(artefact, content)
            shutil.copyfile(artefact, self.derived.folder / self.derived.path(name))


def failed(answer: Answer) -> int:
    """The status of a verification whose audit did not reach its end: a false report, or none."""
    return 1 if answer.status in (6, 7) else abs(answer.status)
