"""What checks pieces: this machine, the hosts of GNU parallel, or a cluster of Slurm."""

import os
import shlex
import shutil
import signal
import subprocess
import time
from pathlib import Path

from ddc_tools.audits import Held
from ddc_tools.program import Refusal, program
from ddc_tools.progress import Progress

MOST_TASKS = 1000
JOB = """#!/bin/sh
# job N: checks the piece on line N of the file `asked`, counted from 1, and leaves its answer.
cd {folder} || exit 1
DDC={ddc}
export DDC
set -- $(sed -n "${{1:-$((SLURM_ARRAY_TASK_ID + 1))}}p" asked)
echo "it was begun, and did not end" >"failures/$1.$2"
new=answers/$1.$2.new.$$
trap 'rm -f "$new"; exit 143' HUP INT TERM
status=0
from=states/$1.$2 to=states/$1.$(($2 + 1))
./check-piece "$2" "$from" "$to" >"$new" 2>"failures/$1.$2.said" || status=$?
if [ "$status" = 0 ]; then
    mv "$new" "answers/$1.$2"
    rm -f "failures/$1.$2"
else
    rm -f "$new"
    echo "status $status" >"failures/$1.$2"
fi
rm -f "failures/$1.$2.said"
"""


class Engine:
    """Checks pieces on this machine, so many at once."""

    def __init__(self, jobs: int) -> None:
        self.jobs = jobs

    def needs(self) -> str:
        """The command that has to be installed."""
        return "xargs"

    def words(self, folder: Path, count: int) -> list[list[str]]:
        """The calls that check all pieces, by the numbers of their lines."""
        return [["xargs", "-r", "-n", "1", "-P", str(self.jobs), str(folder / "job")]]


class Parallel(Engine):
    """Checks pieces on the hosts of a file, by GNU parallel."""

    def __init__(self, hosts: Path) -> None:
        super().__init__(0)
        self.hosts = hosts

    def needs(self) -> str:
        """The command that has to be installed."""
        return "parallel"

    def words(self, folder: Path, count: int) -> list[list[str]]:
        """The calls that check all pieces."""
        return [["parallel", "--sshloginfile", str(self.hosts.absolute()), "--retries", "5",
                 "--workdir", str(folder), shlex.quote(str(folder / "job"))]]


class Slurm(Engine):
    """Checks pieces as job arrays of Slurm."""

    def __init__(self) -> None:
        super().__init__(0)

    def needs(self) -> str:
        """The command that has to be installed."""
        return "sbatch"

    def words(self, folder: Path, count: int) -> list[list[str]]:
        """The calls that check all pieces, at most 1,000 in an array."""
        if count > MOST_TASKS:
            raise Refusal(f"{count} pieces, and an array of Slurm has {MOST_TASKS}: a greater "
                          "--every")
        return [["sbatch", "--quiet", "--wait", "--requeue", "--chdir", str(folder), "--output",
                 "slurm.out", "--open-mode", "append", "--array", f"0-{count - 1}",
                 str(folder / "job")]]


def check(engine: Engine, folder: Path, asked: list[tuple[str, int]], progress: Progress) -> None:
    """Has an engine check these pieces; those without an answer stay named in `failures`."""
    if not asked:
        return
    if shutil.which(engine.needs()) is None:
        raise Refusal(f"{engine.needs()} not found: install it, or take another engine", 127)
    folder = folder.resolve()
    text = JOB.format(folder=shlex.quote(str(folder)), ddc=shlex.quote(program()))
    (folder / "job").write_text(text)
    shutil.copyfile(Path(__file__).resolve().parents[1] / "check-piece", folder / "check-piece")
    for name in ("job", "check-piece"):
        os.chmod(folder / name, 0o755)
    (folder / "asked").write_text("".join(f"{stage} {number}\n" for stage, number in asked))
    # An engine that ends early leaves the rest of them unread: so it reads a file.
    (folder / "numbers").write_text("".join(f"{at}\n" for at in range(1, len(asked) + 1)))
    for words in engine.words(folder, len(asked)):
        run(words, folder, asked, progress)


def run(words: list[str], folder: Path, asked: list[tuple[str, int]], progress: Progress) -> None:
    """Runs a call of an engine, and shows how many pieces are answered."""
    with (folder / "numbers").open() as numbers, Held() as interrupts, \
            subprocess.Popen(words, stdin=numbers, stdout=subprocess.DEVNULL,
                             stderr=subprocess.DEVNULL, start_new_session=True) as running:
        try:
            interrupts.release()
            while running.poll() is None:
                done = sum((folder / "answers" / f"{it}.{at}").exists() for it, at in asked)
                progress.tell(f"{done} of {len(asked)} pieces are checked")
                time.sleep(0.2)
        except BaseException:
            # The jobs that it has begun are of its group, and end with it.
            if running.poll() is None:
                os.killpg(running.pid, signal.SIGTERM)
            raise
        finally:
            progress.clear()
