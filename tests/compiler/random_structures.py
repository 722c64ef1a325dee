#!/usr/bin/env python3
"""Prints a C program of random structures: their sizes, where their members are, and all their
bytes with a mark in each member.

    random_structures.py NUMBER
"""

import random
import sys

PLAIN = ["char", "signed char", "short", "unsigned short", "int", "unsigned", "long",
         "unsigned long", "char *", "float", "double", "long double",
         "int (*", "char[3]", "short[5]", "long[2]"]
FIELDS = [
    ("int", 32), ("unsigned", 32), ("short", 16), ("unsigned short", 16), ("char", 8),
    ("unsigned char", 8), ("signed char", 8)
]


class Structure:
    def __init__(self, random_numbers, number):
        self.random = random_numbers
        self.number = number
        self.count = 0
        self.plain = []
        self.fields = []

    def member(self, depth, prefix, lines):
        r = self.random
        self.count += 1
        name = f"m{self.count}"
        kind = r.randrange(12)
        if kind < 5:
            type_name, most = r.choice(FIELDS)
            width = r.choice([1, most, r.randrange(1, most + 1), r.randrange(1, most + 1)])
            lines.append(f"{type_name} {name} : {width};")
            self.fields.append((prefix + name, width, type_name))
        elif kind == 5:
            type_name, most = r.choice(FIELDS)
            lines.append(f"{type_name} : {r.choice([0, 0, r.randrange(1, most + 1)])};")
        elif kind == 6 and depth < 2:
            inner = []
            where = r.choice(["", f" {name}"])
            for _ in range(r.randrange(1, 5)):
                self.member(depth + 1, prefix + (f"{name}." if where else ""), inner)
            if not any(
                not line.rstrip(";").split(":")[0].strip() in [each for each, _ in FIELDS]
                for line in inner
            ):
                inner.append(f"char c{name};")
            lines.append(f"{r.choice(['struct', 'union'])} {{ {' '.join(inner)} }}{where};")
        else:
            type_name = r.choice(PLAIN)
            if type_name.endswith("(*"):
                lines.append(f"int (*{name})(int);")
            elif "[" in type_name:
                base, size = type_name.split("[")
                lines.append(f"{base} {name}[{size};")
            else:
                lines.append(f"{type_name} {name};")
            self.plain.append((prefix + name, type_name))

    def text(self):
        lines = []
        for _ in range(self.random.randrange(1, 9)):
            self.member(0, "", lines)
        lines.append(f"char last{self.number};")
        kind = self.random.choice(["struct", "struct", "union"])
        name = f"{kind} s{self.number}"
        out = [f"{name} {{ {' '.join(lines)} }};",
               f"struct in{self.number} {{ char before; {name} inside; char after; }};",
               f"static {name} v{self.number};", f"static void show{self.number}(void) {{",
               f"    {name} *at = &v{self.number}, copy;",
               f'    printf("{self.number}: %d %d\\n", (int)sizeof({name}), '
               f'(int)sizeof(struct in{self.number}));']
        for member, type_name in self.plain:
            out.append(f'    printf(" %d", (int)((char *)&at->{member} - (char *)at));')
        for member, width, type_name in self.fields:
            for value in (-1, 0, self.random.randrange(1 << 32)):
                out.append(f"    clear(at, sizeof *at); at->{member} = {value}; "
                           f"bytes(at, sizeof *at); printf(\" %d\", (int)at->{member});")
            out.append(f"    at->{member} += 3; at->{member}++; --at->{member}; at->{member} ^= 5; "
                       f"printf(\" %d %d\", (int)(at->{member} + 0), "
                       f"(int)(at->{member} = {self.random.randrange(1 << 16)}));")
            out.append(f"    printf(\" %d %d\", at->{member} - 200 < 0, (at->{member} << 1) > -1);")
        out.append("    fill(at, sizeof *at); copy = *at; "
                   "bytes(&copy, sizeof copy); bytes(at, sizeof *at);")
        out.append("}")
        return "\n".join(out)


def main(number):
    random_numbers = random.Random(number)
    print("#include <stdio.h>")
    print(
        "static void clear(void *what, int size) { char *at = what; while (size-- > 0) *at++ = 0; }"
    )
    print("static void fill(void *what, int size) "
          "{ char *at = what; while (size > 0) *at++ = 7 * size--; }")
    print('static void bytes(void *what, int size) { char *at = what; printf("\\n"); '
          'while (size-- > 0) printf("%02x", *at++); }')
    for each in range(40):
        print(Structure(random_numbers, each).text())
    print("int main(void) {")
    for each in range(40):
        print(f"    show{each}();")
    print("    return 0;\n}")


main(int(sys.argv[1]))
