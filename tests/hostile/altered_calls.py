"""Calls of the program in a folder, which of them are made over which files, and what is wrong with
their answers."""
import collections
import os
import pathlib
import re
import resource
import shutil
import subprocess
import tempfile

from allowed_answers import NUMBER, SAVES, TEXTS
from text_readers import hex0_value, list_fault, random_list, random_script, script_fault

TOP = pathlib.Path(__file__).resolve().parents[2]
DDC = pathlib.Path(os.environ.get("DDC", TOP / "crates" / "ddc" / "out" / "ddc")).resolve()
SECONDS, MEMORY = 10, 2 << 30

Seen = collections.namedtuple("Seen", "status text errors seconds memory")
Call = collections.namedtuple("Call", "words altered input maker", defaults=(b"", None))


def limits():
    resource.setrlimit(resource.RLIMIT_CPU, (SECONDS + 5, SECONDS + 5))
    resource.setrlimit(resource.RLIMIT_AS, (2 * MEMORY, 2 * MEMORY))


def call(folder, words, given=b""):
    """What a call comes to, with the processor's seconds and the most memory that it took."""
    with (tempfile.TemporaryFile() as stdin, tempfile.TemporaryFile() as out,
          tempfile.TemporaryFile() as errors):
        stdin.write(given)
        stdin.seek(0)
        running = subprocess.Popen([DDC, *words], cwd=folder, stdin=stdin, stdout=out,
                                   stderr=errors, preexec_fn=limits)
        _, status, used = os.wait4(running.pid, 0)
        running.returncode = os.waitstatus_to_exitcode(status)
        out.seek(0)
        errors.seek(0)
        return Seen(running.returncode, out.read(), errors.read(), used.ru_utime + used.ru_stime,
                    used.ru_maxrss << 10)


class Folder:
    """A folder of files, in which calls are made that alter one of them."""

    def __init__(self, root, at, files, calls, weight):
        self.root, self.at, self.calls, self.weight = root, root / at, calls, weight
        self.files = {}
        for name, content in files.items():
            self.put(name, content)
            self.files[name] = content

    def put(self, name, content):
        path = self.at / name
        path.parent.mkdir(parents=True, exist_ok=True)
        path.write_bytes(content)

    def held(self):
        return {os.path.relpath(path, self.at): path.read_bytes()
                for path in self.root.rglob("*") if path.is_file()}

    def case(self, one, changed):
        """The faults of one call, over files of which one is changed."""
        given, name = one.input, one.altered
        if name is None:
            given = changed
        else:
            self.put(name, changed)
        before = self.held()
        seen = call(self.at, one.words, given)
        faults = [*self.faults(one.words, seen, before), *self.other_faults(one, seen)]
        for it in self.held():
            if it not in self.files:
                (self.at / it).unlink()
        for it, content in self.files.items():
            self.put(it, content)
        return seen, faults

    def faults(self, words, seen, before):
        """What is wrong with a call by itself."""
        text = seen.text.decode("utf-8", "replace")
        form = TEXTS[words[0]].get(seen.status)
        if form is None or not form.fullmatch(text):
            yield f"status {seen.status}, printed {text[:200]!r}"
        if seen.errors:
            yield f"said {seen.errors[:200]!r}"
        if seen.seconds > SECONDS or seen.memory > MEMORY:
            yield f"took {seen.seconds:.1f} s and {seen.memory >> 20} MiB"
        after = self.held()
        saved = SAVES.get(words[0], {}).get(seen.status)
        if words[0] in ("left", "kaem-left") and seen.text.startswith(b"left "):
            saved = len(words) - 1
        written = os.path.relpath(self.at / words[saved], self.at) if saved else None
        for it in sorted(before.keys() | after.keys()):
            is_state = words[0] == "cut" and re.fullmatch(
                re.escape(words[4]) + r"\.(?:0|[1-9][0-9]{0,2})", it)
            if it != written and not is_state and before.get(it) != after.get(it):
                yield f"changed {it}"
        if written and written not in after:
            yield f"did not save {written}"

    def other_faults(self, one, seen):
        """What is wrong with a call beside others over the same files."""
        command, words = one.words[0], one.words
        read = lambda place: (self.at / words[place]).read_bytes()
        if command == "verify" and seen.status in (0, 3):
            report = read(2)
            made = call(self.at, ["audit", words[1], "anew"])
            if made.status != seen.status or (self.at / "anew").read_bytes() != report:
                yield f"{seen.status} of a report that audit, with {made.status}, does not write"
        if (command in ("audit", "part", "resume", "delta-start", "delta-resume")
                and seen.status in (0, 3)):
            judged = call(self.at, ["verify", words[1], words[SAVES[command][seen.status]]])
            is_altered = (command in ("resume", "delta-start", "delta-resume")
                          and one.altered in words[2:4])
            if judged.status != seen.status and not (is_altered and judged.status == 1):
                yield f"its report, after {seen.status}, is verified with {judged.status}"
        if command in ("kaem", "kaem-verify", "kaem-left"):
            yield from self.script_faults(words, seen, read)
        if command == "show" and seen.status == 0 and seen.text != read(1):
            yield "printed another text than the file's"
        if command == "list" and seen.status == 0:
            rows = [row.split() for row in seen.text.decode().splitlines()]
            listed = b"".join(bytes.fromhex(row[2]) if row[1] == "rest"
                              else bytes.fromhex(row[1])[::-1] for row in rows)
            if listed != read(1) or any(int(row[0], 16) != 4 * place
                                        for place, row in enumerate(rows)):
                yield "listed other words than the file's"
        if command == "asm" and seen.status == 0 and seen.text != b"made %d\n" % len(read(4)):
            yield "made another length than what was saved"
        if command == "hex0":
            ours, theirs = hex0_value(read(1)), read(2)
            at = next((i for i, (one, other) in enumerate(zip(ours, theirs)) if one != other),
                      min(len(ours), len(theirs)))
            wanted = (f"equal {len(ours)}\n" if ours == theirs
                      else f"differs {at} {len(ours)} {len(theirs)}\n")
            if seen.text.decode() != wanted:
                yield f"not {wanted!r}"


    def script_faults(self, words, seen, read):
        """What is wrong with a call on a script."""
        text = seen.text.decode("utf-8", "replace")
        script, listed = script_fault(read(1)), list_fault(read(2))
        wanted = (f"script refused {script[0]} {script[1]}\n" if script
                  else f"list refused {listed}\n" if listed else None)
        too_long = any(len(read(place)) > 1 << 20 for place in (1, 2))
        if not too_long and (text != wanted if wanted else seen.status in (15, 16)):
            yield f"{text!r}, where the reader says {wanted!r}"
        if words[0] == "kaem" and seen.status == 0:
            judged = call(self.at, ["kaem-verify", *words[1:4]])
            if judged.text.split() != [b"yes", seen.text.split()[1]]:
                yield f"its report is verified with {judged.status}, {judged.text!r}"
        if words[0] == "kaem" and seen.status == 6:
            number, cause = text.removeprefix("run failed ").split(" ", 1)
            left = call(
                self.at, ["kaem-left", *words[1:3], words[4], number, "1", "kept"]
            ).text.decode("utf-8", "replace")
            if not re.fullmatch(
                    f"(?:run failed|left) {number} (?:1 {NUMBER} )?{re.escape(cause)}", left):
                yield f"{text!r}, and kaem-left says {left!r}"
        if words[0] == "kaem-verify" and seen.status == 0:
            made = call(self.at, ["kaem", *words[1:3], "anew", "1000000"])
            if made.status != 0 or (self.at / "anew").read_bytes() != read(3):
                yield f"yes to a report that kaem, with {made.status}, does not write"


def audits(recipe, files, stages, room):
    """The calls of audits on a recipe, of which each file is altered in its turn."""
    for name in [recipe, *files]:
        yield Call(["audit", recipe, "new"], name)
        yield Call(["verify", recipe, "report"], name)
        yield Call(["part", recipe, "saved", "new", room], name)
        yield Call(["resume", recipe, "save", "new", room], name)
    for name in ["report"] * 6:
        yield Call(["verify", recipe, "report"], name)
    for name in ["save"] * 6:
        yield Call(["resume", recipe, "save", "new", "100000000"], name)
    yield Call(["show", "report"], "report")
    session = (b"step 7\nwhere\nregs\nmem 10078 16\nback 3\nbreak 10080\ngo\nstep 1\nmem 0 1\n"
               b"back 5\nquit\nwhere\n")
    for stage in stages:
        yield Call(["step", recipe, stage], recipe, session)
        yield Call(["step", recipe, stage], None, session)
        for place in ("1", "2", "out"):
            yield Call(["left", recipe, stage, place, "kept"], recipe)


def differences(recipe, files):
    """The calls on a whole save and a difference from it."""
    for name in [*["change"] * 6, *["save"] * 3, recipe, *files]:
        yield Call(["delta-resume", recipe, "save", "change", "new", "100000000"], name)
    for name in ["save", recipe, *files]:
        yield Call(["delta-start", recipe, "save", "changed", "new", "20"], name)


def pieces(recipe, files, stage, every, count):
    """The calls on a stage's states, `state.0` and so on."""
    last = f"state.{count - 1}"
    for name in [recipe, *files]:
        yield Call(["cut", recipe, stage, every, "new"], name)
        yield Call(["ends", recipe, stage, "state", str(count)], name)
    for name in ["state.0", "state.1"] * 4:
        yield Call(["segment", "state.0", "state.1"], name)
    for name in ["state.0", last] * 4:
        yield Call(["ends", recipe, stage, "state", str(count)], name)


def scripts():
    """The calls on a script and its files; random scripts run for fewer steps."""
    for name in [*["script"] * 3, *["list"] * 3, "copy.elf", "in", "sha256.elf", "report"]:
        yield Call(["kaem", "script", "list", "new", "300000"], name)
        yield Call(["kaem-verify", "script", "list", "report"], name)
        yield Call(["kaem-left", "script", "list", "300000", "2", "out", "kept"], name)
    for _ in range(6):
        yield Call(["kaem-verify", "script", "list", "report"], "report")
        yield Call(["kaem", "script", "list", "new", "100"], "script", b"", random_script)
        yield Call(["kaem", "./script", "list", "././new", "100"], "list", b"", random_list)


def folders(top):
    """The folders, with the good files in them and the calls on these."""
    for name in ("audit", "chain", "report", "asm", "hex0", "run"):
        shutil.copytree(TOP / "examples" / name, top / "whole" / name)
    whole = {
        name: {it.name: it.read_bytes() for it in (top / "whole" / name).iterdir() if it.is_file()}
        for name in os.listdir(top / "whole")
    }
    for name, recipe, inputs, stages, piece, weight in (
        ("report", "a.toml", ["copy.elf", "copy.hex0", "a.bin", "b.bin"], ["one", "two"], "40", 40),
        ("audit", "audit.toml", ["seed.elf", "hex0.hex0", "hex0.elf"], ["first", "second"],
         "70000", 20),
        ("chain", "chain.toml", ["hex2.hex1", "M1.hex2", "M1.M1", "M1.elf"], ["made_hex2"],
         "1500000", 2),
        ("chain", "wheeler.toml", ["M1.M1", "riscv64.M1", "M1.elf"], ["second"], "1500000", 2),
        ("chain", "routes.toml", ["M1.M1", "M1-by-gcc.elf", "M1.elf"], ["by_gcc"], "1500000", 2),
    ):
        at = top / "whole" / name
        for words in (["audit", recipe, "report"], ["part", recipe, "save", "none", piece]):
            done = call(at, words)
            if done.status not in (0, 8):
                raise SystemExit(f"hostile: {words} over the good files ended with {done.status}: "
                                 f"{done.text.decode()}")
        made = {it: (at / it).read_bytes() for it in ("report", "save")}
        made["list"] = f"{recipe} report\n{recipe} report\n".encode()
        calls = [*audits(recipe, inputs, stages, piece)]
        calls += [Call(["chain", "list"], it) for it in [*["list"] * 4, "report", recipe, *inputs]]
        if call(at, ["delta-start", recipe, "save", "change", "none", "20"]).status == 8:
            made["change"] = (at / "change").read_bytes()
            calls += differences(recipe, inputs)
        every = str(int(piece) // 4)
        cut = call(at, ["cut", recipe, stages[0], every, "state"])
        if cut.status == 0:
            count = int(cut.text.split()[1])
            made |= {f"state.{number}": (at / f"state.{number}").read_bytes()
                     for number in range(count)}
            if count > 1:
                calls += pieces(recipe, inputs, stages[0], every, count)
        below = ({f"../audit/{it}": content for it, content in whole["audit"].items()}
                 if name == "chain" else {})
        yield Folder(top / f"{name}-{recipe}", name, {**whole[name], **made, **below}, calls,
                     weight)
    asm = [Call(["asm", language, "65536", it, "made"], it)
           for language, it in (("hex2", "greet.hex2"), ("m1", "greet.m1")) for _ in range(6)]
    asm += [Call(["asm", language, "0", "greet.hex2", "made"], "greet.hex2")
            for language in ("hex0", "hex1", "m1")]
    yield Folder(top / "asm", "asm", whole["asm"], asm, 12)
    hex0 = [Call(["hex0", "exit42.hex0", "exit42.elf"], it)
            for it in ("exit42.hex0", "exit42.elf")] * 3
    yield Folder(top / "hex0", "hex0", whole["hex0"],
                 [*hex0, *[Call(["list", "exit42.elf"], "exit42.elf")] * 3], 6)
    programs = {it.name: it.read_bytes() for it in (TOP / "tests" / "programs").glob("*.elf")}
    runs = [Call(["run", "greet.elf", "100000", "a", "bc"], "greet.elf")] * 6
    runs += [Call(["run", "sort.elf", "300000", "fill", "in", "30", "in", "out"], "sort.elf"),
             Call(["run", "hex0.elf", "300000", "put", "in", "61 62", "in", "out"], "hex0.elf"),
             Call(["run", "atomics.elf", "300000", "put", "in", "abc", "in"], "atomics.elf"),
             Call(["list", "sha256.elf"], "sha256.elf")] * 3
    yield Folder(top / "run", "run", {**whole["run"], **programs}, runs, 12)
    kaem = {"copy.elf": whole["report"]["copy.elf"], "in": whole["report"]["copy.elf"],
            "sha256.elf": programs["sha256.elf"]}
    kaem["script"] = b'./copy.elf\n# made\n"out" x\nsha256.elf put "a # b" "" in out "a # b"\n'
    kaem["list"] = b"copy.elf\n./in\nsha256.elf\n"
    made = Folder(top / "kaem", "kaem", kaem, [*scripts()], 15)
    done = call(made.at, ["kaem", "script", "list", "report", "1000000"])
    if done.status != 0:
        raise SystemExit(f"hostile: kaem over the good files ended with {done.status}: "
                         f"{done.text.decode()}")
    made.files["report"] = (made.at / "report").read_bytes()
    yield made
    demo = {it: whole["report"][it] for it in ("copy.elf", "copy.hex0")}
    yield Folder(top / "demo", "demo", demo, [Call(["demo", "1000"], it) for it in demo] * 3, 6)
