#!/usr/bin/env python3
"""Prints the tables of crates/machine_tests/src/instructions.rt, as the GNU assembler and objdump
give them.

It needs riscv64-linux-gnu-as, -ld, -objdump and -objcopy (Debian: binutils-riscv64-linux-gnu). Run
it in this folder:

    ./expected.py          prints both tables
    ./expected.py check    says whether they stand in the test

objdump's text is rewritten by rule into this repository's: a blank after each comma, shifts in
decimal, LUI and AUIPC with five hexadecimal digits, targets with sixteen, FENCE without its sets.
"""
import pathlib
import re
import struct
import subprocess
import sys
import tempfile

START = 0xFFFF_FFFF_FFFF_FF80  # so that addresses also pass 2^64 - 1
TOOL = "riscv64-linux-gnu-"


def run(*words):
    return subprocess.run(words, check=True, capture_output=True, text=True).stdout


def code(source, march, folder):
    """The bytes of a source file, and objdump's lines on them as (mnemonic, operands)."""
    made = folder / "code.o"
    raw = folder / "code.bin"
    run(TOOL + "as", "-march=" + march, "-mno-relax", "-o", made, source)
    linked = folder / "code.elf"
    run(TOOL + "ld", "--no-relax", "-Ttext=0x10000000", "-e", "0x10000000", "-o", linked, made)
    run(TOOL + "objcopy", "-O", "binary", "-j", ".text", linked, raw)
    listing = run(TOOL + "objdump", "-d", "-M", "numeric,no-aliases", linked)
    lines = re.findall(r"^\s*([0-9a-f]+):\t[0-9a-f ]+\t(\S+)(?:\t(.*))?$", listing, re.M)
    return raw.read_bytes(), [(int(at, 16), name, rest or "") for at, name, rest in lines]


def text(at, name, operands, pc):
    if name.startswith("fence"):
        return "fence"
    operands = re.sub(r"\s*(#.*|<.*>)$", "", operands).strip()
    parts = operands.split(",") if operands else []
    if name in ("lui", "auipc"):
        parts[1] = f"{int(parts[1], 16):05x}"
    elif name == "jal" or name in ("beq", "bne", "blt", "bge", "bltu", "bgeu"):
        parts[-1] = f"{(int(parts[-1], 16) - at + pc) % 2**64:016x}"
    elif name.startswith(("sll", "srl", "sra")) and parts[-1].startswith("0x"):
        parts[-1] = str(int(parts[-1], 16))
    return name + (" " + ", ".join(parts) if parts else "")


def tables():
    here = pathlib.Path(__file__).resolve().parent
    with tempfile.TemporaryDirectory() as name:
        folder = pathlib.Path(name)
        raw, listing = code(here / "rows.s", "rv64ima", folder)
        rows = []
        for index, (at, op, operands) in enumerate(listing):
            (word,) = struct.unpack_from("<I", raw, 4 * index)
            rows.append((word, text(at, op, operands, (START + 4 * index) % 2**64)))
        raw, _ = code(here / "others.s", "rv64gc", folder)
        others = [word for (word,) in struct.iter_unpack("<I", raw)]
    return rows, others


def main():
    rows, others = tables()
    lines = [
        f'(0x{word:08x}, "{shown}")' for word, shown in rows
    ] + [f"0x{word:08x}" for word in others]
    if sys.argv[1:] != ["check"]:
        print(*(line + "," for line in lines), sep="\n")
        return
    test = pathlib.Path(__file__).resolve().parents[2] / "crates/machine_tests/src/instructions.rt"
    standing = re.findall(r'\(0x\w{8}, "[^"]*"\)|0x\w{8}(?=[,\s\]])', test.read_text())
    if standing != lines:
        print("the tables differ:", *sorted(set(standing) ^ set(lines)), sep="\n")
        sys.exit(1)
    print(f"all {len(lines)} entries stand in the test")


main()
