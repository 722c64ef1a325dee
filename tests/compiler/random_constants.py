#!/usr/bin/env python3
"""Prints a C program of random constant expressions: as initialisers of file level, constants of
enumerations, cases, and the same computed as the program runs.

    random_constants.py NUMBER
"""

import sys

import random_program


class Constants(random_program.Program):
    def place_with_index(self, depth):
        return self.constant()

    def read(self):
        return self.constant()

    def text(self):
        self.put("#include <stdio.h>")
        self.put("enum { RED = -3, GREEN, BLUE = 70000 };")
        texts = [self.expression(4) for _ in range(60)]
        self.put("static long values[] = {")
        for text in texts:
            self.put(f"    {text},")
        self.put("};")
        for number, text in enumerate(texts[:20]):
            self.put(f"static {self.random.choice(random_program.TYPES)} scalar{number} = {text};")
            self.put(f"enum {{ CONSTANT{number} = (int)({text}) }};")
        self.put("static long choose(long which) {\n    switch (which) {")
        for number in range(20):
            self.put(f"    case ((long)({texts[number]}) & ~255) + {number}: return {number};")
        self.put("    }\n    return -1;\n}")
        self.put("int main(void) {")
        self.put('    for (int i = 0; i < 60; i += 1) printf("%ld\\n", values[i]);')
        for number, text in enumerate(texts):
            self.put(f'    printf("%d %ld\\n", (int)sizeof({text}), (long)({text}));')
        for number in range(20):
            self.put(f'    printf("%ld %d %ld\\n", (long)scalar{number}, CONSTANT{number}, '
                     f'choose(values[{number}]));')
        self.put("    return 0;\n}")
        return "\n".join(self.lines) + "\n"


if __name__ == "__main__":
    sys.stdout.write(Constants(int(sys.argv[1])).text())
