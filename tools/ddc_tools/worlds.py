"""A script run command by command: what each one read, made and removed, with the bytes."""

import os
import re
import sys
from collections.abc import Iterable
from dataclasses import dataclass, field
from pathlib import Path

from ddc_tools.kaem import BUILT_IN, Command, ScriptFault, commands_of, name_of
from ddc_tools.pieces import digest_of
from ddc_tools.program import Refusal, call, need, read

LEFT_OUT = re.compile(rb"[ \t]*set[ \t]+-(e|x|ex|xe)[ \t\r]*(#.*)?")
LEFT = re.compile(r"left ([0-9a-f]+) (\d+) ([0-9a-f]{64})")
STEPS = 1 << 40
World = dict[str, str]


@dataclass
class Ran:
    """A command that exited with 0: its steps, and the files that are other ones after it."""

    command: Command
    line: bytes
    before: World
    steps: int = 0
    reads: list[str] = field(default_factory=list)
    made: World = field(default_factory=dict)
    removed: list[str] = field(default_factory=list)


def without_set(script: bytes, name: str) -> bytes:
    """A script without its lines `set -e` and `set -x`, each of which is named."""
    lines = script.split(b"\n")
    for number, line in enumerate(lines, 1):
        if LEFT_OUT.fullmatch(line):
            print(f"{name}:{number}: {line.decode().strip()} is left out: every command has to "
                  "exit with 0 already", file=sys.stderr)
            lines[number - 1] = b""
    return b"\n".join(lines)


def script_of(path: str) -> tuple[bytes, list[Command]]:
    """The text and the commands of a script, or a refusal that names the line."""
    text = without_set(read(path), path)
    try:
        commands = commands_of(text)
    except ScriptFault as fault:
        line = text[:fault.offset].count(b"\n") + 1
        raise Refusal(f"{path}:{line}: this line is refused; `explain kaem {path} LIST REPORT "
                      "STEPS` says why", 15) from None
    for command in commands:
        if command.program in BUILT_IN:
            raise Refusal(f"{path}:{command.line}: {command.program} is built into shells: "
                          f"{BUILT_IN[command.program]}", 15)
    return text, commands


class Worlds:
    """The files of a script on disk, in a folder in which their names lead to them."""

    def __init__(self, folder: Path, names: Iterable[str]) -> None:
        self.folder = folder
        self.top = folder / "files"
        self.store = folder / "store"
        self.store.mkdir()
        self.world: World = {}
        self.paths: dict[str, str] = {}
        up = max((Path(os.path.normpath(it)).parts.count("..") for it in names), default=0)
        self.here = self.top.joinpath(*["d"] * up)
        self.here.mkdir(parents=True)

    def path(self, name: str) -> Path:
        """Where the file of a name lies: no two names share a path, and none leads outside."""
        path = os.path.normpath(self.here / name)
        if os.path.isabs(name) or not path.startswith(f"{self.top}{os.sep}"):
            raise Refusal(f"the file {name} lies outside of the folders of the listed files: "
                          "use names that start in the script's folder")
        if self.paths.setdefault(path, name) != name:
            raise Refusal(f"the files {name} and {self.paths[path]} have the same path on disk")
        return Path(path)

    def put(self, name: str, content: Path) -> None:
        """Has a name stand for a content."""
        digest = digest_of(content)
        if not (self.store / digest).exists():
            (self.store / digest).write_bytes(content.read_bytes())
        path = self.path(name)
        path.parent.mkdir(parents=True, exist_ok=True)
        path.unlink(missing_ok=True)
        os.link(self.store / digest, path)
        self.world[name] = digest

    def lay(self, world: World) -> None:
        """Has exactly these names stand for contents that are kept."""
        for name in [it for it in self.world if it not in world]:
            self.path(name).unlink()
        for name in (it for it in world if self.world.get(it) != world[it]):
            path = self.path(name)
            path.unlink(missing_ok=True)
            path.parent.mkdir(parents=True, exist_ok=True)
            os.link(self.store / world[name], path)
        self.world = dict(world)

    def run(self, line: bytes, names: Iterable[str], most: int = STEPS) -> tuple[int, World]:
        """The steps of one command over these files, and the files that it leaves."""
        (self.folder / "script").write_bytes(line + b"\n")
        listed = "".join(f"{it}\n" for it in names)
        (self.folder / "list").write_bytes(listed.encode("utf-8", "surrogateescape"))
        report = self.folder / "report"
        answer = call(["kaem", self.folder / "script", self.folder / "list", report, str(most)],
                      self.here)
        if answer.status != 0:
            raise Refusal(answer.said.replace("run failed 1 ", ""), answer.status)
        lines = report.read_text().splitlines()
        steps = next(int(it.split(" ")[1]) for it in lines if it.startswith("command "))
        left = (found for found in map(LEFT.fullmatch, lines) if found)
        return steps, {os.fsdecode(bytes.fromhex(it[1])): it[3] for it in left}

    def fetch(self, name: str, digest: str) -> Path:
        """The bytes that the last command left under a name."""
        out = self.folder / "out"
        need(["kaem-left", self.folder / "script", self.folder / "list", str(STEPS), "1",
              f"./{name}", out], self.here)
        if digest_of(out) != digest:
            raise Refusal(f"{name}: two runs of one command have left different bytes")
        return out

    def step(self, command: Command, line: bytes) -> Ran:
        """Runs a command over all files that are there."""
        ran = Ran(command, line, dict(self.world))
        ran.steps, left = self.run(line, self.world)
        ran.removed = [it for it in self.world if it not in left]
        ran.made = {it: left[it] for it in left if self.world.get(it) != left[it]}
        contents = {name: self.fetch(name, digest).read_bytes()
                    for name, digest in ran.made.items()}
        for name, content in contents.items():
            (self.folder / "made").write_bytes(content)
            self.put(name, self.folder / "made")
        for name in ran.removed:
            self.path(name).unlink()
            del self.world[name]
        return ran


def listed(path: str) -> list[str]:
    """The words of a list of files."""
    text = read(path).decode("utf-8", "surrogateescape")
    return text.split("\n")[:-1] if text.endswith("\n") else text.split("\n") if text else []


def run_script(script: str, files: str, folder: Path) -> tuple[Worlds, list[Ran]]:
    """Runs a script over the files of a list, command by command."""
    text, commands = script_of(script)
    words = listed(files)
    worlds = Worlds(folder, [*words, *(it for at in commands for it in at.words)])
    for word in words:
        if not Path(word).is_file():
            raise Refusal(f"{files}: {word}: no such file; paths start in {os.getcwd()}", 10)
        worlds.put(name_of(word), Path(word))
    lines = text.split(b"\n")
    ran = []
    for command in commands:
        if command.program not in worlds.world:
            raise Refusal(f"{script}:{command.line}: no file {command.program}: neither {files} "
                          "nor a command before has made it", 6)
        try:
            ran.append(worlds.step(command, lines[command.line - 1]))
        except Refusal as refusal:
            raise Refusal(f"{script}:{command.line}: {refusal}", refusal.status) from None
    return worlds, ran
