#!/usr/bin/env python3
"""Prints a random C program that prints a digest of all its variables and leaves nothing open.

    random_program.py NUMBER

The same number gives the same program. Sums of signed types may wrap, which gcc is told by -fwrapv;
shifts are masked, divisors have a bit set and no sign, indices are masked, loops count. An
expression has no effect but where it is a whole statement; functions that are called in expressions
touch nothing but their parameters and locals.
"""

import random
import sys

TYPES = [
    "char", "signed char", "short", "unsigned short", "int", "unsigned", "long", "unsigned long",
    "long long", "unsigned long long"
]
BITS = {"char": 8, "signed char": 8, "short": 16, "unsigned short": 16, "int": 32, "unsigned": 32}
EDGES = [0, 1, 2, 7, 8, 127, 128, 255, 256, 32767, 32768, 65535, 65536, 2147483647, 2147483648,
         4294967295, 4294967296, 9223372036854775807, 0x8000000000000000, 0xFFFFFFFFFFFFFFFF]
FIELDS = [
    ("int", 31), ("unsigned", 32), ("short", 15), ("unsigned short", 16), ("char", 8),
    ("unsigned char", 8), ("signed char", 7)
]


class Program:
    def __init__(self, number):
        self.random = random.Random(number)
        self.lines = []
        self.scalars = []      # names of places that may be read
        self.places = []       # names of places that may be written
        self.pure = []         # (name, parameters)
        self.actions = []      # functions with effects, without parameters
        self.depth = 0
        self.counter = 0

    def name(self, stem):
        self.counter += 1
        return f"{stem}{self.counter}"

    def put(self, text):
        self.lines.append("    " * self.depth + text)

    # ---- expressions

    def constant(self):
        r = self.random
        value = r.choice(EDGES) if r.random() < 0.4 else r.randrange(
            0, 1 << r.choice([3, 8, 12, 16, 31, 32, 40, 63])
        )
        text = hex(value) if r.random() < 0.3 else str(value)
        if value >= 1 << 63:
            text += "UL"
        else:
            text += r.choice(["", "", "", "U", "L", "UL", "LL", "ULL"])
        if r.random() < 0.1:
            return r.choice(
                ["'a'", "'\\n'", "'\\0'", "'\\377'", "sizeof(long)", "sizeof(short)", "RED", "BLUE"]
            )
        return f"-{text}" if r.random() < 0.15 else text

    def read(self):
        return self.random.choice(self.scalars)

    def expression(self, depth):
        r = self.random
        if depth <= 0 or r.random() < 0.15:
            return self.constant() if r.random() < 0.35 else self.read()
        kind = r.randrange(18)
        one = lambda: self.expression(depth - 1)
        if kind < 6:
            return f"({one()} {r.choice(['+', '-', '*', '&', '|', '^'])} {one()})"
        if kind == 6:
            return f"({one()} {r.choice(['/', '%'])} (({one()} & 0x7F) | 1))"
        if kind == 7:
            return f"({one()} {r.choice(['/', '%'])} ((unsigned long)({one()}) | 1))"
        if kind == 8:
            return f"((int)({one()}) {r.choice(['<<', '>>'])} ({one()} & 31))"
        if kind == 9:
            return (f"(({r.choice(['long', 'unsigned long'])})({one()}) "
                    f"{r.choice(['<<', '>>'])} ({one()} & 63))")
        if kind == 10:
            return f"((unsigned)({one()}) >> ({one()} & 31))"
        if kind == 11:
            return f"({one()} {r.choice(['<', '>', '<=', '>=', '==', '!='])} {one()})"
        if kind == 12:
            return f"({one()} {r.choice(['&&', '||'])} {one()})"
        if kind == 13:
            return f"({one()} ? {one()} : {one()})"
        if kind == 14:
            return f"{r.choice(['-', '~', '!', '+'])}({one()})"
        if kind == 15:
            return f"(({r.choice(TYPES)})({one()}))"
        if kind == 16 and self.pure:
            name, count = r.choice(self.pure)
            return f"{name}({', '.join(one() for _ in range(count))})"
        return self.place_with_index(depth)

    def index(self, depth):
        return f"({self.expression(min(depth - 1, 1))}) & 7"

    def place_with_index(self, depth):
        r = self.random
        kind = r.randrange(5)
        if kind == 0:
            return f"{r.choice(self.arrays)}[{self.index(depth)}]"
        if kind == 1:
            return f"boxes[{self.index(depth)} & 3].{r.choice(self.members)}"
        if kind == 2:
            return f"(boxes + ({self.index(depth)} & 3))->{r.choice(self.members)}"
        if kind == 3:
            return f"*({r.choice(self.arrays)} + ({self.index(depth)}))"
        return f"grid[{self.index(depth)} & 3][{self.index(depth)}]"

    def place(self):
        r = self.random
        if r.random() < 0.35:
            return self.place_with_index(2)
        return r.choice(self.places)

    # ---- statements

    def assignment(self):
        r = self.random
        place = self.place()
        kind = r.randrange(10)
        if kind < 4:
            return f"{place} = {self.expression(3)}"
        if kind < 7:
            return f"{place} {r.choice(['+', '-', '*', '&', '|', '^'])}= {self.expression(2)}"
        if kind == 7:
            return f"{place} {r.choice(['/', '%'])}= (({self.expression(1)}) & 0x7F) | 1"
        if kind == 8:
            return f"{place} {r.choice(['<<', '>>'])}= ({self.expression(1)}) & 7"
        return r.choice(["({})++", "({})--", "++{}", "--{}"]).format(place)

    def statement(self, depth, loop):
        r = self.random
        kind = r.randrange(16)
        if depth <= 0 or kind < 6:
            self.put(self.assignment() + ";")
        elif kind == 6:
            self.put(f"{r.choice(self.places)} = ({self.assignment()}, {self.expression(2)});")
        elif kind == 7 and self.actions:
            self.put(f"{r.choice(self.actions)}();")
        elif kind == 8:
            self.put(f"boxes[{self.index(1)} & 3] = {r.choice(['boxes[1]', '*pointer', 'box'])};")
        elif kind == 9:
            self.put(f"pointer = &boxes[{self.index(1)} & 3];")
        elif kind == 10:
            name = self.name("turn")
            self.put(f"for (int {name} = 0; {name} < {r.randrange(1, 5)}; {name} += 1) {{")
            self.block(depth - 1, 2)
        elif kind == 11:
            name = self.name("count")
            self.put(f"{{ int {name} = {r.randrange(1, 4)};")
            self.put(
                f"while ({name}-- > 0 && {self.expression(1)} != {r.choice(EDGES[:8])}) {{"
                if r.random() < 0.5 else "do {"
            )
            whole = self.lines[-1].endswith("do {")
            self.block(depth - 1, 2)
            if whole:
                self.put(f"while (--{name} > 0);")
            self.put("}")
        elif kind in (12, 13):
            self.put(f"if ({self.expression(2)}) {{")
            self.block(depth - 1, loop)
            if r.random() < 0.6:
                self.put("else {")
                self.block(depth - 1, loop)
        elif kind == 14:
            self.switch(depth, loop)
        else:
            self.put(r.choice(["break;", "continue;"]) if loop == 2 and r.random() < 0.3 else ";")

    def switch(self, depth, loop):
        r = self.random
        self.put(f"switch ({self.expression(2)} {r.choice(['', '& 15', '% 7'])}) {{")
        seen = set()
        for _ in range(r.randrange(1, 12)):
            value = r.choice(
                [r.randrange(-6, 16), r.randrange(-1 << 31, 1 << 31), r.choice(EDGES[:14])]
            )
            if value % (1 << 32) in seen:
                continue
            seen.add(value % (1 << 32))
            self.put(f"case {value}:")
            if r.random() < 0.8:
                self.statement(depth - 1, 1)
            self.put("break;" if r.random() < 0.6 else ";")
        if r.random() < 0.7:
            self.put("default:")
            self.statement(depth - 1, 1)
        self.put("}")

    def block(self, depth, loop):
        """Statements, perhaps after declarations, and the closing brace."""
        r = self.random
        self.depth += 1
        scalars, places = len(self.scalars), len(self.places)
        for _ in range(r.randrange(0, 3)):
            self.local()
        for _ in range(r.randrange(1, 5)):
            self.statement(depth, loop)
        del self.scalars[scalars:]
        del self.places[places:]
        self.depth -= 1
        self.put("}")

    def local(self):
        r = self.random
        name = self.name("local")
        kind = r.choice(TYPES)
        form = r.randrange(6)
        if form == 0:
            self.put(f"static {kind} {name} = {self.constant()};")
        elif form == 1:
            self.put(f"{kind} {name}[8] = {{ {self.expression(1)}, {self.expression(1)} }};")
            self.scalars.append(f"{name}[1]")
            self.places.append(f"{name}[{r.randrange(8)}]")
            return
        elif form == 2:
            self.put(f"struct box {name} = {{ {self.expression(1)}, {self.expression(1)} }};")
            name = f"{name}.{r.choice(self.members)}"
        else:
            self.put(f"{kind} {name} = {self.expression(2)};")
        self.scalars.append(name)
        self.places.append(name)

    # ---- the program

    def structure(self):
        r = self.random
        self.put("struct box {")
        self.members = []
        for _ in range(r.randrange(3, 9)):
            name = self.name("m")
            if r.random() < 0.5:
                kind, most = r.choice(FIELDS)
                self.put(f"    {kind} {name} : {r.randrange(1, most + 1)};")
            else:
                self.put(f"    {r.choice(TYPES)} {name};")
            self.members.append(name)
        self.put("};")

    def globals(self):
        r = self.random
        self.put("enum { RED = -3, GREEN, BLUE = 70000 };")
        self.structure()
        for _ in range(r.randrange(3, 7)):
            name = self.name("g")
            start = f" = {self.constant()}" if r.random() < 0.6 else ""
            self.put(f"{r.choice(['', 'static '])}{r.choice(TYPES)} {name}{start};")
            self.scalars.append(name)
            self.places.append(name)
        self.arrays = []
        for _ in range(2):
            name = self.name("row")
            self.put(f"{r.choice(TYPES)} {name}[8] = "
                     f"{{ {', '.join(self.constant() for _ in range(r.randrange(1, 9)))} }};")
            self.arrays.append(name)
        self.put(f"{r.choice(TYPES)} grid[4][8] = {{ {{ 1, 2, 3 }}, 4, 5, 6 }};")
        self.put(f"struct box box, boxes[4] = {{ {{ {self.constant()}, {self.constant()} }}, "
                 f"5, 6 }}, *pointer = boxes;")
        for member in self.members:
            self.scalars += [f"box.{member}", f"pointer->{member}"]
            self.places += [f"box.{member}", f"pointer->{member}"]

    def pure_function(self):
        r = self.random
        count = r.randrange(0, 7)
        name = self.name("f")
        parameters = [(r.choice(TYPES), self.name("p")) for _ in range(count)]
        self.put(f"{r.choice(['', 'static ', 'static inline '])}{r.choice(TYPES)} {name}"
                 f"({', '.join(f'{kind} {each}' for kind, each in parameters) or 'void'}) {{")
        kept = self.scalars, self.places, self.arrays, self.members, self.pure, self.actions
        self.scalars = [each for _, each in parameters] + ["1", "-1", "300"]
        self.depth += 1
        for _ in range(r.randrange(1, 4)):
            each = self.name("v")
            self.put(f"{r.choice(TYPES)} {each} = {self.simple(2)};")
            self.scalars.append(each)
        if r.random() < 0.5:
            self.put(f"if ({self.simple(2)}) return {self.simple(2)};")
        self.put(f"return {self.simple(3)};")
        self.depth -= 1
        self.put("}")
        self.scalars, self.places, self.arrays, self.members, self.pure, self.actions = kept
        self.pure.append((name, count))

    def simple(self, depth):
        """An expression of scalars alone."""
        kept = self.place_with_index
        self.place_with_index = lambda depth: self.read()
        text = self.expression(depth)
        self.place_with_index = kept
        return text

    def action(self):
        name = self.name("act")
        self.put(f"void {name}(void) {{")
        self.block(3, 0)
        self.actions.append(name)

    def digest(self):
        self.put("static unsigned long digest;")
        self.put("static void add(unsigned long value) "
                 "{ digest = digest * 1000003 + value; digest ^= digest >> 29; }")

    def main(self):
        self.put("int main(void) {")
        self.depth += 1
        for _ in range(self.random.randrange(4, 10)):
            self.statement(3, 0)
        for name in sorted(set(self.scalars)):
            self.put(f"add({name});")
        self.put("for (int i = 0; i < 8; i += 1) {")
        for array in self.arrays + [f"grid[{i}]" for i in range(4)]:
            self.put(f"    add({array}[i]);")
        self.put("}")
        self.put("for (int i = 0; i < 4; i += 1) {")
        for member in self.members:
            self.put(f"    add(boxes[i].{member});")
        self.put("}")
        for index, name in enumerate(sorted(set(self.scalars))):
            if index % 3 == 0:
                self.put(f'printf("{name} %ld\\n", (long){name});')
        self.put('printf("%lx %d\\n", digest, (int)sizeof(struct box));')
        self.put("return digest & 127;")
        self.depth -= 1
        self.put("}")

    def text(self):
        self.put("#include <stdio.h>")
        self.globals()
        self.digest()
        for _ in range(self.random.randrange(1, 4)):
            self.pure_function()
        for _ in range(self.random.randrange(1, 3)):
            self.action()
        self.main()
        return "\n".join(self.lines) + "\n"


def together(numbers):
    """The programs of several numbers as one, which runs one after the other."""
    texts = ["#include <stdio.h>"]
    fixed = ["box", "boxes", "pointer", "grid", "digest", "add", "RED", "GREEN", "BLUE", "main"]
    for number in numbers:
        program = Program(number)
        program.counter = number * 10000
        texts += [f"#define {name} {name}_{number}" for name in fixed]
        texts.append(program.text())
        texts += [f"#undef {name}" for name in fixed]
    texts.append("int main(void) {")
    texts += [
        f'    printf("program {number}\\n");\n    printf("ends with %d\\n", main_{number}());'
        for number in numbers
    ]
    texts.append("    return 0;\n}\n")
    return "\n".join(texts)


if __name__ == "__main__":
    sys.stdout.write(Program(int(sys.argv[1])).text())
