"""The machine: memory, the rows of RV64IMA, and the loop in which a program runs.

The words of the rows are those of docs/reference/instructions.md, their meaning is that of the page
machine.md; the public source is the RISC-V Unprivileged ISA, 20191213. Registers are signed.
Each word is decoded once: its row's text becomes a function that acts and returns the next pc, and
`code` keeps it by its address until a store changes the word.
"""

from __future__ import annotations

import re
import struct
from typing import Any, Callable

from calls import Ended, System
from elf import PAGE
from languages import IMMEDIATES

END = 1 << 38
ALL, LOW32 = (1 << 64) - 1, (1 << 32) - 1
LEAST, MOST = -(1 << 63), (1 << 63) - 1
SINK = 32
CHUNK = 1 << 20
ZERO_PAGE = bytes(PAGE)


def trap(cause: str, address: int) -> Ended:
    """The trap of a cause at an address."""
    return Ended(f"trap {cause} {address & ALL:016x}")


class Memory:
    """The guest's pages (docs/reference/memory.md) and what was decoded of them.

    `held` has the pages that may hold other bytes than zeros, `plain` those of them without decoded
    words, and `fresh` the numbers of the mapped pages that are not held.
    """

    def __init__(self) -> None:
        """An empty memory."""
        self.held: dict[int, bytearray] = {}
        self.plain: dict[int, bytearray] = {}
        self.fresh: set[int] = set()
        self.code: dict[int, Callable[[], int]] = {}

    def map_zero(self, pages: range) -> None:
        """Maps pages that read zero."""
        self.fresh.update(pages)

    def unmap(self, pages: range) -> None:
        """Takes mapped pages away."""
        for page in pages:
            self.fresh.discard(page)
            self.plain.pop(page, None)
            if self.held.pop(page, None) is not None:
                self.forget(page * PAGE, PAGE)

    def is_mapped(self, at: int, count: int) -> bool:
        """Whether all bytes of a range are mapped."""
        if not 0 <= at <= at + count <= END:
            return count == 0
        pages = range(at // PAGE, (at + count + PAGE - 1) // PAGE)
        return count == 0 or all(page in self.held or page in self.fresh for page in pages)

    def peek(self, at: int, count: int) -> bytes | None:
        """The bytes of a range; none where one is unmapped."""
        if not self.is_mapped(at, count):
            return None
        parts = []
        while count:
            page, offset = divmod(at, PAGE)
            part = self.held.get(page, ZERO_PAGE)[offset : offset + count]
            parts.append(part)
            at, count = at + len(part), count - len(part)
        return b"".join(parts)

    def poke(self, at: int, content: bytes) -> None:
        """Writes the bytes of a mapped range, and forgets what was decoded of them."""
        done = 0
        while done < len(content):
            page, offset = divmod(at + done, PAGE)
            if page in self.fresh:
                self.fresh.discard(page)
                self.held[page] = self.plain[page] = bytearray(PAGE)
            part = content[done : done + PAGE - offset]
            self.held[page][offset : offset + len(part)] = part
            if page not in self.plain:
                self.forget(at + done, len(part))
            done += len(part)

    def forget(self, at: int, count: int) -> None:
        """Forgets what was decoded of a range."""
        for address in range(at & ~3, at + count, 4):
            self.code.pop(address, None)


# The rows by form, each as name, opcode, funct3 and funct7, in hexadecimal.
ROWS = {
    "U": "lui 37, auipc 17",
    "J": "jal 6F",
    "I": "jalr 67 0, lb 03 0, lh 03 1, lw 03 2, ld 03 3, lbu 03 4, lhu 03 5, lwu 03 6, addi 13 0,"
    " slti 13 2, sltiu 13 3, xori 13 4, ori 13 6, andi 13 7, fence 0F 0, addiw 1B 0",
    "B": "beq 63 0, bne 63 1, blt 63 4, bge 63 5, bltu 63 6, bgeu 63 7",
    "S": "sb 23 0, sh 23 1, sw 23 2, sd 23 3",
    "H": "slli 13 1 00, srli 13 5 00, srai 13 5 20",
    "K": "slliw 1B 1 00, srliw 1B 5 00, sraiw 1B 5 20",
    "R": "add 33 0 00, sub 33 0 20, sll 33 1 00, slt 33 2 00, sltu 33 3 00, xor 33 4 00,"
    " srl 33 5 00, sra 33 5 20, or 33 6 00, and 33 7 00, addw 3B 0 00, subw 3B 0 20, sllw 3B 1 00,"
    " srlw 3B 5 00, sraw 3B 5 20, mul 33 0 01, mulh 33 1 01, mulhsu 33 2 01, mulhu 33 3 01,"
    " div 33 4 01, divu 33 5 01, rem 33 6 01, remu 33 7 01, mulw 3B 0 01, divw 3B 4 01,"
    " divuw 3B 5 01, remw 3B 6 01, remuw 3B 7 01",
    "A": ", ".join(
        f"{name}.{width} 2F {funct3} {funct5 << 2:02X}"
        for width, funct3 in (("w", 2), ("d", 3))
        for name, funct5 in (
            ("lr", 2), ("sc", 3), ("amoswap", 1), ("amoadd", 0), ("amoxor", 4), ("amoand", 12),
            ("amoor", 8), ("amomin", 16), ("amomax", 20), ("amominu", 24), ("amomaxu", 28),
        )
    ),
}
MASKS = {"U": 0x7F, "J": 0x7F, "I": 0x707F, "B": 0x707F, "S": 0x707F, "H": 0xFC00707F,
         "K": 0xFE00707F, "R": 0xFE00707F, "A": 0xF800707F}

# What the arithmetic rows write, of A and B; an index of WIDE is at the low 64 bits of the result,
# one of NARROW at the low 32. UNSIGNED shifts a number as one without a sign.
WIDE = {
    "add": "A + B", "sub": "A - B", "xor": "A ^ B", "or": "A | B", "and": "A & B",
    "slt": "1 if A < B else 0", "sltu": "1 if A ^ LEAST < B ^ LEAST else 0",
    "sll": "A << (B & 63)", "srl": "A >> (B & 63) & UNSIGNED[B & 63]", "sra": "A >> (B & 63)",
    "mul": "A * B", "mulh": "A * B >> 64", "mulhsu": "A * (B & ALL) >> 64",
    "mulhu": "(A & ALL) * (B & ALL) >> 64", "div": "quotient(A, B)", "rem": "remainder(A, B)",
    "divu": "quotient(A & ALL, B & ALL)", "remu": "remainder(A & ALL, B & ALL)",
}
NARROW = {
    "addw": "A + B", "subw": "A - B", "sllw": "A << (B & 31)", "srlw": "(A & LOW32) >> (B & 31)",
    "sraw": "low(A) >> (B & 31)", "mulw": "A * B", "divw": "quotient(low(A), low(B))",
    "remw": "remainder(low(A), low(B))", "divuw": "quotient(A & LOW32, B & LOW32)",
    "remuw": "remainder(A & LOW32, B & LOW32)",
}
UNSIGNED = [(1 << 64 - shift) - 1 for shift in range(64)]
BRANCHES = {"beq": "A == B", "bne": "A != B", "blt": "A < B", "bge": "A >= B",
            "bltu": "A ^ LEAST < B ^ LEAST", "bgeu": "A ^ LEAST >= B ^ LEAST"}
LOADS = {"lb": "<b", "lh": "<h", "lw": "<i", "ld": "<q", "lbu": "<B", "lhu": "<H", "lwu": "<I"}
STORES = {"sb": ("<B", "& 255"), "sh": ("<H", "& 65535"), "sw": ("<I", "& LOW32"), "sd": ("<q", "")}
ATOMICS = {
    "amoswap": "B", "amoadd": "A + B", "amoxor": "A ^ B", "amoand": "A & B", "amoor": "A | B",
    "amomin": "min(A, B)", "amomax": "max(A, B)", "amominu": "min(A & M, B & M)",
    "amomaxu": "max(A & M, B & M)",
}


def low(number: int) -> int:
    """The low 32 bits of a number, as a signed one."""
    return ((number + 0x80000000) & LOW32) - 0x80000000


def wrapped(number: int) -> int:
    """The low 64 bits of a number, as a signed one."""
    return ((number - LEAST) & ALL) + LEAST


def quotient(dividend: int, divisor: int) -> int:
    """The quotient, rounded toward zero; all ones by zero."""
    if divisor == 0:
        return -1
    positive = abs(dividend) // abs(divisor)
    return positive if (dividend < 0) == (divisor < 0) else -positive


def remainder(dividend: int, divisor: int) -> int:
    """The remainder, with the sign of the dividend; the dividend by zero."""
    return dividend if divisor == 0 else dividend - quotient(dividend, divisor) * divisor


PARAMETERS = "hart, x, held, plain, after, there, a, b, d, i"
ARITHMETIC = """
        v = {0}
        x[d] = v if LEAST <= v <= MOST else wrapped(v)
        return after"""
NARROWED = """
        x[d] = low({0})
        return after"""
BRANCH = """
        return there if {0} else after"""
MISALIGNED = """
        if {0}:
            raise trap("fetch-misaligned", there)
        return after"""
LOAD = """
        at = x[a] + i
        try:
            x[d] = unpack_{0}(held[at >> 12], at & 4095)[0]
        except (KeyError, StructError):
            x[d] = hart.load(at, "{1}")
        return after"""
STORE = """
        at = x[a] + i
        try:
            pack_{0}(plain[at >> 12], at & 4095, x[b] {2})
        except (KeyError, StructError):
            hart.store(at, pack_{0}_alone(x[b] {2}))
        return after"""
JALR = """
        v = x[a] + i & -2
        if v & 2 or v < 0:
            v = target(v)
        x[d] = after
        return v"""
OTHERS = {
    "lui": "x[d] = i; return after", "auipc": "x[d] = wrapped(after - 4 + i); return after",
    "jal": "x[d] = after; return there", "jalr": JALR, "fence": "return after",
    "ecall": "return hart.call(after)", "ebreak": 'raise Ended("trap break")',
}
NAMES: dict[str, Any] = {
    "LEAST": LEAST, "MOST": MOST, "ALL": ALL, "LOW32": LOW32, "UNSIGNED": UNSIGNED, "low": low,
    "wrapped": wrapped, "quotient": quotient, "remainder": remainder, "Ended": Ended,
    "trap": trap, "StructError": struct.error,
}
for _name, _form in [*LOADS.items(), *((name, form) for name, (form, _) in STORES.items())]:
    NAMES[f"unpack_{_name}"] = struct.Struct(_form).unpack_from
    NAMES[f"pack_{_name}"] = struct.Struct(_form).pack_into
    NAMES[f"pack_{_name}_alone"] = struct.Struct(_form).pack


def target(address: int) -> int:
    """The target of a jump as an address, where it is a multiple of 4."""
    if address & 2:
        raise trap("fetch-misaligned", address)
    return address & ALL


NAMES["target"] = target


def operands(text: str, immediate: bool = False) -> str:
    """A row's text with its registers in place of A and B, or the immediate in place of B."""
    return re.sub(r"\bB\b", "i" if immediate else "x[b]", re.sub(r"\bA\b", "x[a]", text))


def meaning(name: str, form: str, misaligned: bool) -> str:
    """What a row does, as the text of a function's body."""
    if name in BRANCHES:
        return (MISALIGNED if misaligned else BRANCH).format(operands(BRANCHES[name]))
    if name == "jal" and misaligned:
        return MISALIGNED.format(True)
    if name in LOADS:
        return LOAD.format(name, LOADS[name])
    if name in STORES:
        return STORE.format(name, *STORES[name])
    if name in OTHERS:
        return OTHERS[name] if name == "jalr" else "\n        " + OTHERS[name]
    if form == "A":
        return f"\n        return hart.atomic({name!r}, a, b, d, after)"
    row = {"sltiu": "sltu"}.get(name, name.replace("i", "") if form in "IHK" else name)
    text, table = (ARITHMETIC, WIDE) if row in WIDE else (NARROWED, NARROW)
    return text.format(operands(table[row], form in "IHK"))


def rows_by_mask() -> dict[int, dict[int, tuple[str, str]]]:
    """The rows by mask and wanted value, each as its name and form."""
    found = {0xFFFFFFFF: {0x73: ("ecall", "E"), 0x100073: ("ebreak", "E")}}
    for form, rows in ROWS.items():
        for name, *numbers in map(str.split, rows.split(", ")):
            opcode, funct3, funct7 = (int(one, 16) for one in (numbers + ["0", "0"])[:3])
            mask = 0xF9F0707F if name.startswith("lr.") else MASKS[form]
            found.setdefault(mask, {})[opcode | funct3 << 12 | funct7 << 25] = (name, form)
    return found


BY_MASK = rows_by_mask()


def immediate_of(word: int, form: str) -> int:
    """The immediate of a word, sign-extended but in the shifts."""
    fields = IMMEDIATES.get(form, ())
    number = sum((word >> to & (1 << bits) - 1) << at for at, bits, to in fields)
    top = 1 << fields[-1][0] + fields[-1][1] if form in "ISBUJ" else 0
    return number - top if word >> 31 and top else number


class Hart:
    """A hart over a memory, with the system that answers its calls."""

    makers: dict[tuple[str, bool], Callable[..., Callable[[], int]]] = {}

    def __init__(self, memory: Memory, system: System, pc: int, stack: int) -> None:
        """The hart at a start."""
        self.memory, self.system, self.pc = memory, system, pc
        self.x = [0] * (SINK + 1)
        self.x[2] = stack
        self.reserved: tuple[int, int] | None = None

    def load(self, at: int, form: str) -> int:
        """The number of a form at an address, wherever it lies."""
        content = self.memory.peek(at & ALL, struct.calcsize(form))
        if content is None:
            raise trap("load-unmapped", at)
        return struct.unpack(form, content)[0]

    def store(self, at: int, content: bytes) -> None:
        """Stores bytes, wherever they lie."""
        if not self.memory.is_mapped(at & ALL, len(content)):
            raise trap("store-unmapped", at)
        self.memory.poke(at & ALL, content)

    def call(self, after: int) -> int:
        """An ECALL with the whole call that it makes."""
        x = self.x
        x[10] = wrapped(self.system.call(x[17] & ALL, x[10] & ALL, x[11] & ALL, x[12] & ALL))
        self.reserved = None
        return after

    def atomic(self, name: str, a: int, b: int, d: int, after: int) -> int:
        """A row of the extension A."""
        name, width = name.split(".")
        at, operand, size, form = self.x[a], self.x[b], 8, "<q"
        if width == "w":
            operand, size, form = low(operand), 4, "<i"
        if at % size or not self.memory.is_mapped(at & ALL, size):
            raise trap("load-unmapped" if name == "lr" else "store-unmapped", at)
        found = self.load(at, form)
        if name == "sc":
            found = 0 if self.reserved == (at, size) else 1
            if found == 0:
                self.store(at, struct.pack(form, operand))
        elif name != "lr":
            narrow, mask = (low, LOW32) if size == 4 else (wrapped, ALL)
            new = eval(ATOMICS[name], {"A": found, "B": operand, "M": mask})
            self.store(at, struct.pack(form, narrow(new)))
        if name in ("lr", "sc"):
            self.reserved = (at, size) if name == "lr" else None
        self.x[d] = found
        return after

    def decode(self, pc: int) -> Callable[[], int]:
        """The act of the word at an address."""
        content = self.memory.peek(pc, 4)
        if content is None:
            raise trap("fetch-unmapped", pc)
        word = int.from_bytes(content, "little")
        row = [rows[word & mask] for mask, rows in BY_MASK.items() if word & mask in rows]
        if not row:
            raise Ended(f"trap illegal {word:08x}")
        name, form = row[0]
        immediate = immediate_of(word, form)
        there = pc + immediate & ALL
        misaligned = form in "BJ" and there % 4 != 0
        maker = self.makers.get((name, misaligned))
        if maker is None:
            body = meaning(name, form, misaligned)
            scope = dict(NAMES)
            exec(f"def make({PARAMETERS}):\n    def act():{body}\n    return act", scope)
            maker = self.makers[name, misaligned] = scope["make"]
        self.memory.plain.pop(pc // PAGE, None)
        return maker(
            self, self.x, self.memory.held, self.memory.plain, pc + 4, there,
            word >> 15 & 31, word >> 20 & 31, word >> 7 & 31 or SINK, immediate,
        )

    def run(self, most: int, progress: Callable[[int], None]) -> tuple[str, int]:
        """How the run ends within so many steps, as it is printed, and at which step."""
        steps, code, pc = 0, self.memory.code, self.pc
        pause = 0
        try:
            while steps < most:
                pause = min(most, pause + CHUNK)
                while steps < pause:
                    try:
                        while steps < pause:
                            pc = code[pc]()
                            steps += 1
                    except KeyError:
                        if pc in code:
                            raise
                        code[pc] = self.decode(pc)
                progress(steps)
        except Ended as end:
            return end.args[0], steps + 1
        return "spent", most
