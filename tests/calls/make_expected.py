#!/usr/bin/env python3
"""Asks Linux what calls in a row answer, and writes the answers to expected.txt.

Run it in this folder, with qemu-riscv64 (Debian: qemu-user) and riscv64-linux-gnu-gcc
(gcc-riscv64-linux-gnu):

    ./make_expected.py > expected.txt

Each script starts in an empty folder, with an empty input and a pipe as output. A line of
expected.txt is a call, its arguments and the answer. The calls are those on which this project's
profile and Linux agree; the test `as_linux` of crates/linux_calls has the same rows.
"""
import os
import subprocess
import tempfile

NUMBERS = {"unlinkat": 35, "faccessat": 48, "fchmodat": 53, "openat": 56, "close": 57,
           "lseek": 62, "read": 63, "write": 64}
CWD = -100
# the guest's memory: texts at TEXTS + 64 * place, a buffer, and an address that isn't mapped
TEXTS = ["f", "g", "./f", "././g", "", "h"]
NOWHERE = "nowhere"
BUFFER = "buffer"

SCRIPTS = {
    "removed while open": [
        ("openat", CWD, "f", 577, 420), ("write", 3, BUFFER, 5), ("unlinkat", CWD, "f", 0),
        ("write", 3, BUFFER, 5),
        ("lseek", 3, 0, 2), ("close", 3), ("faccessat", CWD, "f", 0), ("close", 3),
        ("lseek", 1, 0, 0),
    ],
    "lowest descriptor": [
        ("openat", CWD, "f", 66, 420), ("openat", CWD, "g", 66, 420), ("openat", CWD, "f", 0, 0),
        ("close", 4),
        ("openat", CWD, "./f", 0, 0), ("close", 3), ("close", 5), ("openat", CWD, "././g", 0, 0),
        ("openat", CWD, "g", 0, 0), ("openat", CWD, "h", 0, 0),
    ],
    "flags": [
        ("openat", CWD, "f", 65, 420), ("write", 3, BUFFER, 8), ("read", 3, BUFFER, 8),
        ("openat", CWD, "f", 193, 420),
        ("openat", CWD, "f", 0, 0), ("write", 4, BUFFER, 1), ("read", 4, BUFFER, 3),
        ("read", 4, BUFFER, 100),
        ("read", 4, BUFFER, 1), ("openat", CWD, "f", 1025, 0), ("lseek", 5, 2, 0),
        ("write", 5, BUFFER, 2),
        ("lseek", 5, 0, 1), ("openat", CWD, "f", 512, 0), ("lseek", 6, 0, 2),
        ("read", 4, BUFFER, 1),
    ],
    "gaps and cursors": [
        ("openat", CWD, "f", 66, 420), ("lseek", 3, 100, 0), ("write", 3, BUFFER, 4),
        ("lseek", 3, 0, 0),
        ("read", 3, BUFFER, 50), ("lseek", 3, -1, 0), ("lseek", 3, -51, 1), ("lseek", 3, -4, 2),
        ("read", 3, BUFFER, 50),
        ("lseek", 3, 0, 9), ("lseek", 99, 0, 0),
    ],
    "bad arguments": [
        ("openat", CWD, NOWHERE, 0, 0), ("openat", CWD, "", 64, 420), ("openat", CWD, "h", 0, 0),
        ("openat", 77, "f", 64, 420), ("openat", CWD, "f", 66, 420), ("openat", 3, "f", 0, 0),
        ("unlinkat", 3, "f", 0),
        ("unlinkat", 77, "f", 0), ("unlinkat", CWD, "h", 0), ("faccessat", CWD, "f", 8),
        ("faccessat", CWD, "h", 0),
        ("fchmodat", CWD, "h", 448), ("fchmodat", CWD, "f", 448), ("write", 3, NOWHERE, 4),
        ("write", 3, BUFFER, 4),
        ("lseek", 3, 0, 0), ("read", 3, NOWHERE, 4), ("lseek", 3, 0, 1), ("read", 99, BUFFER, 1),
        ("write", 99, BUFFER, 1), ("close", 99),
    ],
}


def term(argument):
    if argument == NOWHERE:
        return "16L"
    if argument == BUFFER:
        return "(long)buffer"
    if isinstance(argument, str):
        return f'(long)"{argument}"'
    return f"{argument}L"


def program(script):
    lines = ["#include <stdio.h>", "#include <unistd.h>", "#include <errno.h>",
             "#include <sys/syscall.h>",
             "static char buffer[4096] = \"0123456789abcdef\";", "static long out[64];",
             "static long ask(long n, long a, long b, long c, long d)",
             "{ long r = syscall(n, a, b, c, d); return r < 0 ? -(long)errno : r; }",
             "int main(void) {"]
    for place, (name, *arguments) in enumerate(script):
        arguments += [0] * (4 - len(arguments))
        lines.append(f"out[{place}] = ask({NUMBERS[name]}, {', '.join(map(term, arguments))});")
    lines.append(f'for (int i = 0; i < {len(script)}; i++) fprintf(stderr, "%ld\\n", out[i]);')
    return "\n".join(lines + ["return 0; }"])


def answers(script):
    with tempfile.TemporaryDirectory() as build, tempfile.TemporaryDirectory() as folder:
        source, binary = os.path.join(build, "a.c"), os.path.join(build, "a")
        with open(source, "w") as f:
            f.write(program(script))
        subprocess.run(
            ["riscv64-linux-gnu-gcc", "-static", "-O1", "-o", binary, source], check=True
        )
        done = subprocess.run([
            "qemu-riscv64", binary
        ], cwd=folder, stdin=subprocess.DEVNULL, stdout=subprocess.PIPE,
                              stderr=subprocess.PIPE, check=True)
        return [int(line) for line in done.stderr.split()]


for title, script in SCRIPTS.items():
    print(f"# {title}")
    for (name, *arguments), answer in zip(script, answers(script)):
        words = [
            f'"{a}"' if isinstance(a, str) and a not in (NOWHERE, BUFFER) else str(a)
            for a in arguments
        ]
        print(name, *words, "->", answer)
