"""Recipes of one stage, over files at hand: the run of a stage, and its check by a copy."""

from pathlib import Path

from ddc_tools.program import Answer, Refusal, call
from ddc_tools.recipes import Recipe, Table, written

# examples/report/copy.elf: it copies the file `in` to the file `out`, 1,024 bytes at a time.
COPIER = bytes.fromhex("""
7f454c460201010000000000000000000200f30001000000780001000000000040000000000000000000000000000000
00000000400038000100000000000000010000000700000000000000000000000000010000000000000001000000
0000e800000000000000e80000000000000000100000000000001305c0f9b70501009385050e130600009308800373
0000001305c0f9b70501009385350e130610247300000037140000b30481401305300093850400130604009308f003
73000000630c0500130605001305400093080004730000006ff09ffd9308d00573000000696e006f75740000
""")
MOST_STEPS = 1 << 40


class Derived:
    """Recipes of one stage each, in a folder that has the inputs and the artefacts by number."""

    def __init__(self, recipe: Recipe, folder: Path) -> None:
        self.recipe, self.folder = recipe, folder
        (folder / "copier").write_bytes(COPIER)

    def path(self, name: str) -> str:
        """Where the content of an input or an artefact lies in the folder."""
        return f"of.{name}"

    def inputs(self, names: list[str], taken: set[str]) -> tuple[list[Table], dict[str, str]]:
        """An input for each name, called otherwise than those that are taken."""
        called: dict[str, str] = {}
        for name in dict.fromkeys(names):
            said = f"i{len(called)}"
            while said in taken:
                said += "_"
            called[name] = said
        return [{"name": said, "path": self.path(it)} for it, said in called.items()], called

    def run_of(self, name: str, steps: int | None = None) -> Path:
        """The recipe that runs a stage with its own words, files and limits."""
        stage = self.recipe.stages[name]
        files = [it["from"] for it in stage.get("files", [])]
        inputs, called = self.inputs([stage["program"], *files], {name, "source"})
        program = called[stage["program"]]
        inputs[0]["implements"] = "source"
        table = {"name": name, "program": program, "args": stage["args"],
                 "env": stage.get("env", []), "output": stage["output"],
                 "files": [{"path": it["path"], "from": called[it["from"]]}
                           for it in stage.get("files", [])],
                 "steps": steps or stage["steps"]}
        if "heap" in stage:
            table["heap"] = stage["heap"]
        source = {"name": "source", "lang": "other", "files": [program]}
        return self.write(f"run.{name}.{steps or ''}", inputs, [source], table, name, program)

    def copy_of(self, name: str) -> Path:
        """The recipe whose one stage copies an artefact, checks it, and compares the copy."""
        check = self.recipe.stages[name].get("check")
        source = self.recipe.sources.get(check or "", {})
        binary = self.recipe.binary if name in self.recipe.compared else ""
        names = [name, *source.get("files", [])]
        inputs, called = self.inputs(names, {name, binary, "copier", "copying", "source"})
        inputs.append({"name": "copier_", "path": "copier", "implements": "copying"})
        if binary:
            inputs.append({"name": binary, "path": self.path(binary)})
        sources = [{"name": "copying", "lang": "other", "files": ["copier_"]}]
        table = {"name": name, "program": "copier_", "args": ["copy"],
                 "files": [{"path": "in", "from": called[name]}], "output": "out",
                 "steps": MOST_STEPS}
        if check:
            sources.append({**source, "name": "source",
                            "files": [called[it] for it in source["files"]]})
            table["check"] = "source"
        return self.write(f"copy.{name}", inputs, sources, table, name, binary or called[name])

    def write(self, file: str, inputs: list[Table], sources: list[Table], stage: Table,
              name: str, binary: str) -> Path:
        """Writes a recipe of one stage."""
        path = self.folder / f"{file}.toml"
        path.write_text(written({"format": 1, "input": inputs, "source": sources,
                                 "stage": [stage], "compare": {"stage": name, "binary": binary}}))
        return Path(path.name)

    def first_state(self, name: str) -> bytes:
        """The text of the state in which a stage starts."""
        prefix = self.folder / f"first.{name}"
        answer = call(["cut", self.run_of(name, 1), name, "1", prefix.name], self.folder)
        state = self.folder / f"{prefix.name}.0"
        if not state.exists():
            raise Refusal(answer.said)
        return state.read_bytes()

    def artefact(self, name: str) -> bytes:
        """What a stage makes, by a run of it."""
        output = self.recipe.stages[name]["output"]
        file = "1" if output == "-" else f"./{output}"
        answer = call(["left", self.run_of(name), name, file, "left.out"], self.folder)
        if answer.status != 0:
            raise Refusal(answer.said)
        return (self.folder / "left.out").read_bytes()

    def checked(self, name: str) -> Answer:
        """What an audit says of a copy of a stage's artefact: its check, and its comparison."""
        return call(["audit", self.copy_of(name), "copy.report"], self.folder)
