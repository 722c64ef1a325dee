"""What the scripts of this folder share: cc as gcc of this machine makes it, and programs made by
cc and by gcc for RISC-V, run by qemu."""

import pathlib
import shutil
import subprocess

HERE = pathlib.Path(__file__).resolve().parent
TOP = HERE.parents[1]
COMPILER = TOP / "examples/compiler"
TINYCC = TOP / "examples/tinycc"
HEADERS = ["assert", "errno", "setjmp", "stdio", "stdlib", "string"]
HOST_WORDS = ["-O1", "-w", "-funsigned-char", "-fwrapv", "-fno-strict-aliasing"]
GCC_WORDS = ["-march=rv64im", "-mabi=lp64", "-mno-relax", "-O0", "-w", "-funsigned-char", "-fwrapv",
             "-fno-strict-aliasing", "-ffreestanding", "-fno-builtin", "-nostdinc"]


def run(words, folder=None, seconds=600):
    """Runs a program; gives its status, output and errors. One that takes too long has the status
    'time'."""
    try:
        done = subprocess.run(
            [str(word) for word in words], cwd=folder, capture_output=True, timeout=seconds
        )
    except subprocess.TimeoutExpired:
        return "time", b"", b""
    return done.returncode, done.stdout, done.stderr


def must(words, folder=None):
    status, out, error = run(words, folder, 300)
    if status != 0:
        raise SystemExit(f"{' '.join(map(str, words))}: {status}\n{error.decode()}")
    return out


class Box:
    """A folder with cc, the headers, and gcc's objects of the small C library of examples/tinycc.
    `cc` are the words that run another cc."""

    def __init__(self, folder, cc=()):
        self.folder = pathlib.Path(folder)
        self.include = self.folder / "include"
        self.include.mkdir()
        for name in ("stdarg.h", "stddef.h"):
            shutil.copy(COMPILER / "include" / name, self.include)
        for name in HEADERS:
            shutil.copy(TINYCC / "library.h", self.include / f"{name}.h")
        self.cc = list(cc)
        if not self.cc:
            self.cc = [self.folder / "cc"]
            must(["gcc", *HOST_WORDS, "-o", self.cc[0], COMPILER / "cc.c", COMPILER / "start.c"])
        text = "\n".join(
            line.split("#")[0].split(";")[0]
            for line in (TINYCC / "start.hex0").read_text().splitlines()
        )
        (self.folder / "start.o").write_bytes(bytes.fromhex("".join(text.split())))
        self.objects = [self.folder / "start.o"]
        for name in ("system", "library"):
            made = self.folder / f"{name}.o"
            must([
                "riscv64-unknown-elf-gcc", *GCC_WORDS, "-I", self.include, "-c", "-o", made,
                TINYCC / f"{name}.c"
            ])
            self.objects.append(made)

    def by_gcc(self, sources, out):
        return run(["riscv64-unknown-elf-gcc", *GCC_WORDS, "-I", self.include, "-nostdlib",
                    "-static", "-o", out, *self.objects, *sources, "-lgcc"])

    def by_cc(self, sources, out, words=()):
        return run([
            *self.cc, *words, "-I", self.include, "-o", out, *sources, TINYCC / "library.c",
            TINYCC / "system.c"
        ])

    def same(self, sources, stem):
        """Compiles sources by both, and runs what they made. Gives '' where both leave the same,
        else what is wrong."""
        results = []
        for name, by in (("gcc", self.by_gcc), ("cc", self.by_cc)):
            out = self.folder / f"{stem}.{name}.elf"
            status, _, error = by(sources, out)
            if status != 0:
                return f"{name} ended with {status}: {error.decode(errors='replace')[:500]}"
            results.append(run(["qemu-riscv64", "-cpu", "rv64,f=false,d=false,c=false", out])[:2])
        if results[0] != results[1]:
            return (f"gcc's ended with {results[0][0]}, cc's with {results[1][0]}; "
                    f"output {difference(results[0][1], results[1][1])}")
        return ""


def difference(one, other):
    lines, others = one.decode(
        errors="replace"
    ).splitlines(), other.decode(errors="replace").splitlines()
    for number, (mine, yours) in enumerate(zip(lines, others), 1):
        if mine != yours:
            return f"differs in line {number}: {mine!r} and {yours!r}"
    return ("is the same" if len(lines) == len(others)
            else f"has {len(lines)} and {len(others)} lines")
