"""Folders with the files that a TinyCC is made of, and what compilers make of them."""

import os
import re
import shutil
import subprocess
from collections.abc import Iterable
from dataclasses import dataclass
from pathlib import Path

from making import (
    NAME, Refusal, compare, fetch_source, new_folder, place, printed, remove, run,
)

TINYCC = Path(__file__).resolve().parent
VERSION = "0.9.27+git20200814.62c30a4a"
DIGESTS = {
    f"tcc_{VERSION}.orig.tar.bz2":
        "d63c113bcdd657f51c8ee197a0b0a24203603313e19a52b5f678d40ab7f5df35",
    f"tcc_{VERSION}-1.debian.tar.xz":
        "27036dd5f67b6ce3b8212080d1d6e55b1f7b2e54a23d0f2a4af38090a8d75716",
    f"tcc_{VERSION}-1.dsc":
        "3d211ea8e260e6b846c9a085ea43229c48b20871be7a7ad8f520b2d345587cfd",
}
SOURCES = ("tcc.c", "libtcc.c", "tccpp.c", "tccgen.c", "tccelf.c", "tccrun.c", "tccasm.c",
           "tcctools.c", "tcc.h", "libtcc.h", "elf.h", "stab.h", "stab.def", "tcctok.h")
HEADERS = ("assert", "errno", "fcntl", "inttypes", "math", "semaphore", "setjmp", "stdio",
           "stdlib", "string", "sys/time", "time", "unistd")
# A TinyCC of RISC-V is run by qemu-riscv64, under the name `tcc`.
ON_RISCV = ("qemu-riscv64", "-cpu", "rv64,f=false,d=false,c=false", "-0", "tcc")
GCC_WORDS = (
    "-march=rv64im", "-mabi=lp64", "-mno-relax", "-O1", "-w", "-ffreestanding", "-fno-builtin",
    "-fno-strict-aliasing", "-fno-tree-loop-distribute-patterns", "-nostdinc", "-Iinc", "-Isrc",
    "-nostdlib", "-static", "-Wl,--build-id=none,-s",
)


@dataclass(frozen=True)
class Machine:
    """What differs between the machines: the folder of the example, TinyCC's parts for it, our
    files for it alone, how its TinyCC runs here, and what that is told to make itself."""

    name: str
    home: Path
    parts: tuple[str, ...]
    ours: tuple[str, ...]
    by: tuple[str, ...]
    words: tuple[str, ...]


MACHINES = (
    Machine(
        "riscv64", TINYCC,
        ("riscv64-gen.c", "riscv64-link.c", "riscv64-asm.c", "lib/lib-arm64.c"), (), ON_RISCV,
        ("-nostdinc", "-Iinc", "-Isrc", "-nostdlib", "-static", "-Wl,-Ttext=0x10000", "-o", "out",
         "start.o", "system.c", "library.c", "src/tcc.c", "src/lib-arm64.c"),
    ),
    Machine(
        "x86-64", TINYCC.parent / "x86-64",
        ("x86_64-gen.c", "x86_64-link.c", "i386-asm.c", "x86_64-asm.h", "i386-tok.h",
         "lib/va_list.c", "lib/libtcc1.c"),
        ("floats.c", "conversions.c", "start.s"), (),
        ("-nostdinc", "-Iinc", "-Isrc", "-DHAS_FLOATS", "-nostdlib", "-static", "-o", "out",
         "start.s", "system.c", "library.c", "floats.c", "conversions.c", "src/tcc.c",
         "src/va_list.c"),
    ),
)
BY_NAME = {machine.name: machine for machine in MACHINES}


def fetch_tinycc() -> None:
    """TinyCC's source, as Debian has it, in examples/tinycc/made/source."""
    made = TINYCC / "made"
    with new_folder(made / "unpacked") as new:
        fetch_source("tcc", f"{VERSION}-1", made, DIGESTS)
        printed(["dpkg-source", "--no-check", "-x", f"tcc_{VERSION}-1.dsc", new / "source"], made)
        place(new / "source", made)


class Boxes:
    """The folders of a make, in a new folder, and the compilers that stand beside them."""

    def __init__(self, machine: Machine, new: Path) -> None:
        """For a machine, in a new folder."""
        self.machine, self.home, self.new = machine, machine.home, new

    def copy(self, files: Iterable[Path], folder: Path) -> None:
        """Copies files into a folder."""
        for path in files:
            shutil.copy(path, folder)

    def copy_folder(self, folder: Path, name: Path) -> None:
        """Copies a folder, under a new name."""
        shutil.copytree(folder, name, symlinks=True)

    def lay(self, name: str) -> None:
        """The files that a compiler is given, under the names that it opens. Those for x86-64 are
        of the archive alone, without Debian's patches."""
        box, machine = self.new / name, self.machine
        source = TINYCC / "made/source" if machine.name == "riscv64" else self.new / "original"
        (box / "src").mkdir(parents=True)
        (box / "inc/sys").mkdir(parents=True)
        self.copy([source / it for it in (*SOURCES, *machine.parts)], box / "src")
        self.copy([source / "include/stdarg.h", source / "include/stddef.h"], box / "inc")
        for header in HEADERS:
            shutil.copy(TINYCC / "library.h", box / f"inc/{header}.h")
        shutil.copy(self.home / "config.h", box / "src")
        self.copy([TINYCC / "library.c", TINYCC / "system.c"], box)
        self.copy([self.home / it for it in machine.ours], box)
        self.assemble(box / "start.o")
        run([TINYCC / "change-lines", TINYCC / "lines.txt", machine.name, box / "src"], self.home)

    def assemble(self, out: Path) -> None:
        """The object file of start.hex0."""
        digits = re.sub("[#;].*", "", (TINYCC / "start.hex0").read_text())
        done = subprocess.run(["xxd", "-r", "-p"], input=digits.encode(), stdout=subprocess.PIPE,
                              check=True)
        out.write_bytes(done.stdout)

    def change(self, name: str, file: str, number: int, old: str, new: str) -> None:
        """Puts another text into a line of a box, from where `old` stands up to its end."""
        path = self.new / name / "src" / file
        lines = path.read_text(encoding="latin-1").split("\n")
        front, found, _ = lines[number - 1].partition(old) if number <= len(lines) else ("", "", "")
        if not found:
            raise Refusal(f"{NAME}: {path}:{number}: '{old}' does not stand there")
        lines[number - 1] = front + new
        path.write_text("\n".join(lines), encoding="latin-1")

    def compile(self, name: str, compiler: str, out: str) -> None:
        """`out` is what a TinyCC of the machine makes of the files in a box."""
        tool = self.new / "compiler"
        shutil.copy(self.new / compiler, tool)
        tool.chmod(0o755)
        run([*self.machine.by, "../compiler", *self.machine.words], self.new / name,
            {"PATH": os.environ["PATH"]})
        (self.new / name / "out").rename(self.new / out)
        remove(tool)

    def by_gcc(self, name: str, out: str, *words: str) -> None:
        """gcc for RISC-V makes a TinyCC that runs there. TinyCC's part for long doubles is not
        among its files; gcc has its own."""
        run(["riscv64-unknown-elf-gcc", *GCC_WORDS, "-o", f"../{out}", "start.o", "system.c",
             "library.c", *words, "src/tcc.c", "-lgcc"], self.new / name)

    def descend(self, name: str, out: str) -> None:
        """A TinyCC of another descent. This machine's gcc and C library make a TinyCC that runs
        here, which makes the first generation; the first makes the second, and the second makes
        `out`, which has to be the second once more. Without -U__linux__ the name __linux__ would
        be defined in all that the one for RISC-V compiles, since TinyCC does so where its own
        compiler did; the one for x86-64 defines it by its config.h."""
        box = self.new / name
        run(["gcc", "-O1", "-w", "-U__linux__", "-o", "../by-gcc", "src/tcc.c"], box)
        run(["../by-gcc", *self.machine.words], box)
        (box / "out").rename(self.new / "generation1")
        self.compile(name, "generation1", "generation2")
        self.compile(name, "generation2", out)
        compare(self.new / "generation2", self.new / out)
        for made in ("by-gcc", "generation1", "generation2"):
            remove(self.new / made)
