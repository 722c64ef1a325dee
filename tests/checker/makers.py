"""Random recipes, reports, sources, scripts and programs for tests/checker/run."""

from __future__ import annotations

import random
import struct
from typing import Any

NAMES = ["prog", "text", "src", "bin", "copy_src", "one", "two", "gone", "Two", "", "a" * 32,
         "a" * 33]
PATHS = ["in", "./in", "out", "-", "./-", "./", "", "a/b", "x" * 255, "x" * 256, "\x7f", "\u00e9"]
NUMBERS = [0, 1, 2, 3, -1, 100000, 1 << 30, (1 << 30) + 1, 1 << 37, (1 << 37) + 1, 1 << 48,
           (1 << 48) + 1, (1 << 63) - 1, 1 << 63]
RAW = ["true", "1.5", "1979-05-27", "07:32", "[1, 2", "{ a = 1 }", "[[]]", "0x10", "'lit'",
       '"""a"""']
KEYS = ["format", "input", "source", "stage", "compare", "name", "path", "implements", "lang",
        "base", "files", "program", "args", "env", "output", "steps", "heap", "check", "becomes",
        "stages", "binary", "from", "other"]
LANGS = ["hex0", "hex1", "hex2", "m1", "other", "hex3"]


def tables() -> dict[str, Any]:
    """The example of the page on recipes, as tables."""
    entry = {"path": "in", "from": "prog"}
    stage = {"name": "one", "program": "prog", "args": ["copy"], "files": [entry], "output": "out",
             "steps": 1000, "check": "copy_src"}
    other = {"name": "two", "program": "one", "args": ["copy"],
             "files": [{"path": "in", "from": "src"}], "output": "out", "steps": 1000}
    files = {"prog": "copy.elf", "text": "copy.hex0", "src": "a.bin", "bin": "b.bin"}
    return {
        "format": 1,
        "input": [{"name": name, "path": path} for name, path in files.items()],
        "source": [{"name": "copy_src", "lang": "hex0", "files": ["text"]}],
        "stage": [stage, other],
        "compare": {"stage": "two", "binary": "bin"},
    }


def value(chance: random.Random, depth: int = 0) -> Any:
    """Any value that may stand at a key; a tuple stands for raw text."""
    kind = chance.randrange(8) if depth < 2 else chance.choice([0, 1, 4])
    if kind == 0:
        return chance.choice(NUMBERS)
    if kind == 1:
        return (chance.choice(RAW),)
    if kind == 2:
        return [value(chance, depth + 1) for _ in range(chance.choice([0, 1, 2, 3, 17, 65, 257]))]
    if kind == 3:
        return {chance.choice(KEYS): value(chance, depth + 1) for _ in range(chance.randrange(3))}
    return chance.choice([*NAMES, *PATHS, *LANGS, "a\0", "w" * 256])


def shown(item: Any, chance: random.Random) -> str:
    """A value as TOML, in one of its spellings."""
    if isinstance(item, tuple):
        return item[0]
    if isinstance(item, int):
        return chance.choice([str(item), f"{item:_}", hex(item) if item >= 0 else str(item)])
    if isinstance(item, list):
        gap = chance.choice([" ", "\n", " # c\n", ""])
        return "[" + gap + ("," + gap).join(shown(one, chance) for one in item) + gap + "]"
    if isinstance(item, dict):
        return "{ " + ", ".join(f"{key} = {shown(one, chance)}" for key, one in item.items()) + " }"
    escaped = "".join(f"\\u{ord(one):04x}" if one < " " or one in '"\\\x7f' else one
                      for one in item)
    plain = escaped == item and "'" not in item
    return chance.choice([f'"{escaped}"', f"'{item}'" if plain else f'"{escaped}"'])


def recipe(chance: random.Random) -> bytes:
    """A recipe after up to three changes of its tables."""
    top = tables()
    if chance.randrange(3) == 0:
        top["format"] = 2
        row = [chance.choice(["one", "two", "gone"]) for _ in range(chance.choice([1, 2, 3, 17]))]
        top["compare"] = {"stages": row, "binary": "bin"}
    if chance.randrange(3) == 0:
        del top["stage"][0]["check"]
        top["input"][0]["implements"] = "copy_src"
        top["stage"][0]["becomes"] = "copy_src"
    for _ in range(chance.choice([0, 1, 1, 1, 2, 3])):
        table = chance.choice([top, top["compare"], *top["input"], *top["source"], *top["stage"]]
                              if all(isinstance(top.get(key), list)
                                     for key in ("input", "source", "stage"))
                              and isinstance(top.get("compare"), dict) else [top])
        if not isinstance(table, dict):
            continue
        key = chance.choice([*table, *table, chance.choice(KEYS)])
        change = chance.randrange(4)
        if change == 0:
            table.pop(key, None)
        elif change == 1 and isinstance(table.get(key), list) and table[key]:
            table[key] = table[key] + [chance.choice([table[key][0], value(chance)])]
        else:
            table[key] = value(chance)
    text = spelled(top, chance)
    if chance.randrange(4) == 0:
        at = chance.randrange(len(text) + 1)
        text = text[:at] + chance.choice("\"'[]{}=.,#\n\r\t \\0-+_\0\x7f\u00e9") + text[at:]
    return text.encode()


def spelled(top: dict[str, Any], chance: random.Random) -> str:
    """A recipe's text, with headers where they can stand."""
    first, rest = [], []
    for key, item in top.items():
        rows = item if isinstance(item, list) else [item]
        headed = rows and all(isinstance(one, dict) for one in rows) and chance.randrange(5)
        if not headed:
            first.append(f"{key} = {shown(item, chance)}\n")
            continue
        for one in rows:
            rest.append(f"[[{key}]]\n" if isinstance(item, list) else f"[{key}]\n")
            rest += [f"{name} = {shown(holds, chance)}\n" for name, holds in one.items()]
    return "".join(first + rest)


def source(chance: random.Random, lang: str) -> bytes:
    """A source of any tokens."""
    names = ["a", "b", "long_name", "5", "-1", "0x10", "2047", "2048", "-2049", "4294967295", "a>b",
             ""]
    pieces = [":", "!", "@", "$", "~", "%", "&"]
    others = ["<", "00", "7f", "0", ".00100000", ".0010", "13000000", "?", ">", '"text"', "'00'",
              '"', "'", "DEFINE", "DEFINE d 13", "DEFINE f .00000005", "d", "f", "# c\n", "; c\n",
              "\r", "\xff"]
    parts = []
    for _ in range(chance.randrange(1, 24)):
        if chance.randrange(2):
            parts.append(chance.choice(pieces) + chance.choice(names)
                         + " 13000000" * chance.randrange(2))
        else:
            parts.append(chance.choice(others))
        parts.append(chance.choice([" ", " ", "\n", "\t", ""]))
    return "".join(parts).encode("latin-1")


def linked_source(chance: random.Random) -> bytes:
    """A source of hex2 whose labels are there, some out of reach."""
    names = [f"l{number}" for number in range(4)]
    parts = [f":{name}" for name in names]
    for _ in range(chance.randrange(1, 30)):
        parts.append(chance.choice("!@$~") + chance.choice(names) + " 13000000")
        parts.append(chance.choice(["%", "&"]) + chance.choice(names))
        parts.append(chance.choice(["<", "00", "00 00", "%l1>l2", " 00" * 4094]))
    chance.shuffle(parts)
    return " ".join(parts).encode()


def elf(code: bytes, entry: int = 0x10078, memory: int = 8192) -> bytes:
    """A program file of one segment at 0x10000, with the code behind its headers."""
    size = 120 + len(code)
    head = b"\x7fELF\2\1\1" + bytes(9) + struct.pack(
        "<HHIQQQIHHHHHH", 2, 243, 1, entry, 64, 0, 0, 64, 56, 1, 0, 0, 0)
    return head + struct.pack(
        "<IIQQQQQQ", 1, 7, 0, 0x10000, 0x10000, size, max(size, memory), 4096) + code


def word(chance: random.Random, rows: dict[int, dict[int, tuple[str, str]]]) -> int:
    """A random word of the table, or near one."""
    mask = chance.choice([*rows])
    if mask == 0xFFFFFFFF and chance.randrange(8):
        return 0x13
    want = chance.choice([*rows[mask]])
    found = want | chance.getrandbits(32) & ~mask & 0xFFFFFFFF
    if chance.randrange(40) == 0:
        found ^= 1 << chance.randrange(32)
    if want & 0x7F in (0x63, 0x6F) and chance.randrange(8):
        found = want | found & 0xFFF80 & ~mask | 0x400
    if want & 0x7F in (0x03, 0x23, 0x2F, 0x67):
        found = found & 0xFFF07FFF | chance.choice([8, 8, 8, 9]) << 15
    return found


def program(chance: random.Random, rows: dict[int, dict[int, tuple[str, str]]]) -> bytes:
    """A program of random words, which then writes its registers and its memory."""
    words = [0x00012437, 0x00010497]
    for register in range(10, 32):
        words += [0x37 | register << 7 | chance.getrandbits(20) << 12,
                  0x13 | register << 7 | register << 15 | chance.getrandbits(12) << 20]
    words += [word(chance, rows) for _ in range(chance.choice([1, 20, 100, 300]))]
    words.append(0x00011437)
    for register in range(32):
        offset = 8 * register
        words.append(0x23 | 3 << 12 | 8 << 15 | register << 20 | (offset >> 5) << 25
                     | (offset & 31) << 7)
    words += [0x00100513, 0x00040593, 0x40000613, 0x04000893, 0x00000073,
              0x00000513, 0x05D00893, 0x00000073]
    return elf(struct.pack(f"<{len(words)}I", *words), memory=3 * 4096)


def calls_program(chance: random.Random) -> bytes:
    """A program of random Linux calls on a few names and descriptors; it writes each answer."""
    names = 0x13000
    words = [0x00014437]
    for _ in range(chance.randrange(1, 60)):
        number = chance.choice([35, 48, 53, 56, 56, 56, 57, 62, 63, 63, 64, 64, 214]
                               + [94, 1] * (chance.randrange(20) == 0))
        if number == 56:
            row = [-100, names + 16 * chance.randrange(8),
                   chance.choice([0, 1, 2, 3]) | chance.choice([0, 64, 192, 512, 1024, 1088])]
        elif number in (35, 48, 53):
            row = [chance.choice([-100, -100, 3, 77]),
                   chance.choice([names + 16 * chance.randrange(8), 16]),
                   chance.choice([0, 0, 4, 8])]
        elif number == 62:
            row = [chance.randrange(6), chance.choice([0, 1, 7, -1, -100, 100000]),
                   chance.randrange(4)]
        elif number == 214:
            row = [chance.choice([0, 0x18000, 0x19001, 0x20000, 0x40000000]), 0, 0]
        else:
            row = [chance.randrange(6), chance.choice([0x15000, 0x15000, 0x15FFC, 0x18000, 16]),
                   chance.choice([0, 1, 5, 100, 4096])]
        for register, argument in zip((10, 11, 12, 17), [*row, number]):
            words += load_number(register, argument)
        words += [0x73, 0x00A43023, 0x00840413]
    words += [*load_number(10, 1), *load_number(11, 0x14000), *load_number(12, 0x1000),
              *load_number(17, 64), 0x73, *load_number(10, 0), *load_number(17, 93), 0x73]
    code = struct.pack(f"<{len(words)}I", *words)
    code += bytes(0x3000 - 120 - len(code))
    code += b"".join(name.ljust(16, b"\0")
                     for name in (b"f", b"g", b"./f", b"././g", b"a/b", b"in", b"", b"./"))
    code += bytes(0x5000 - 120 - len(code)) + b"0123456789" * 20
    return elf(code, memory=8 * 4096)


def load_number(register: int, number: int) -> list[int]:
    """The two words that load a number of 32 bits."""
    upper = (number + 2048) >> 12 & 0xFFFFF
    return [0x37 | register << 7 | upper << 12,
            0x1B | register << 7 | register << 15 | (number & 0xFFF) << 20]


def graph(chance: random.Random) -> bytes:
    """A recipe whose stages all run: each copies what a name stands for, and many are checked."""
    kinds = {"prog": "program", "twin": "program", "text": "text", "src": "other", "bin": "other"}
    paths = {"prog": "copy.elf", "twin": "copy.elf", "text": "copy.hex0", "src": "a.bin",
             "bin": "b.bin"}
    sources: list[str] = []
    stages: list[str] = []

    def new_source(langs: list[str]) -> str:
        """A new source, mostly of texts, and its name."""
        name = f"source{len(sources)}"
        texts = [one for one, kind in kinds.items() if kind == "text" or chance.randrange(9) == 0]
        files = chance.choices(texts, k=chance.choice([1, 1, 1, 1, 2, 3]))
        if langs != ["other"] and not chance.randrange(4) == 0:
            files = [chance.choice([one for one, kind in kinds.items() if kind == "text"])]
        row = ", ".join(f'"{one}"' for one in files)
        sources.append(f'[[source]]\nname = "{name}"\nlang = "{chance.choice(langs)}"\n'
                       f'files = [{row}]\n')
        return name

    for number in range(chance.randrange(1, 9)):
        program = chance.choice([one for one, kind in kinds.items() if kind == "program"])
        copied = chance.choice([one for one, kind in kinds.items()])
        text = (f'[[stage]]\nname = "stage{number}"\nprogram = "{program}"\n'
                'args = ["copy"]\nsteps = 1000\n')
        text += f'output = "out"\nfiles = [{{ path = "in", from = "{copied}" }}]\n'
        checks = {"program": ["hex0", "hex1", "hex2"], "text": ["m1"]}.get(kinds[copied])
        if checks and chance.randrange(2):
            text += f'check = "{new_source(checks)}"\n'
        if kinds[copied] == "program":
            text += (f'becomes = "{chance.choice([new_source(["other"]), "source0"])}"\n' if sources
                     else f'becomes = "{new_source(["other"])}"\n')
        kinds[f"stage{number}"] = kinds[copied]
        stages.append(text)
    names = [f'[[input]]\nname = "{one}"\npath = "{path}"\n'
             + (f'implements = "{new_source(["other"])}"\n' if kinds[one] == "program" else "")
             for one, path in paths.items()]
    compared = chance.sample(range(len(stages)), chance.randrange(1, len(stages) + 1))
    if len(compared) == 1 and chance.randrange(2):
        head, tail = "format = 1\n", f'[compare]\nstage = "stage{compared[0]}"\n'
    else:
        row = ", ".join(f'"stage{number}"' for number in compared)
        head, tail = "format = 2\n", f"[compare]\nstages = [{row}]\n"
    binary = chance.choice([*paths])
    return (head + "".join(names + sources + stages) + tail + f'binary = "{binary}"\n').encode()
