#!/usr/bin/env python3
"""Prints a C program with large functions, frames, structures, numbers of arguments and of cases,
and distances of jumps and calls."""


def main():
    print("#include <stdio.h>")
    print("struct large { char first[3000]; long middle; char then[70000]; int last; short half; "
          "unsigned bit : 3; };")
    print("static struct large large, copy;")
    print("static long far_away(long value);")
    print("static int many(" + ", ".join(f"long p{i}" for i in range(60)) + ") {")
    print("    return " + " + ".join(f"p{i} * {i + 1}" for i in range(60)) + ";\n}")
    print("static int frame(int count) {\n    int before = 1;\n    char space[5000];\n"
          "    struct large inside;\n    long rows[300], *at = rows + 299;\n    int after = 2;")
    print("    inside.middle = count, inside.last = count + 1, inside.half = -count, "
          "inside.bit = count, *at = count * 7, space[4999] = 9;")
    print("    inside.half += 5, inside.bit++, ++inside.last, inside.middle *= 3, "
          "rows[150] = inside.middle;")
    print("    copy = inside, large = copy;")
    print("    if (count > 0) return frame(count - 1) + large.last + space[4999] + rows[150] "
          "+ *at + large.bit;")
    print("    return before + after + inside.half + inside.last;\n}")
    print("static int long_body(int value) {\n    int sum = 0, i;\n"
          "    for (i = 0; i < 3; i++) {\n        if (value == 4) goto end;")
    for i in range(3000):
        print(f"        if (value == {i} && i == {i % 3}) sum += {i * 37};")
    print("        if (value == 7) continue;\n        sum += far_away(i);\n"
          "        if (value == 9) break;\n    }\nend:\n    return sum;\n}")
    print("static int cases(long value) {\n    switch (value) {")
    for i in range(700):
        print(f"    case {(i * 7919 % 1000003) - 500000}: return {i};")
    print("    }\n    return -1;\n}")
    print("static long far_away(long value) { return value * 3; }")
    print("int main(void) {")
    print('    printf("%d\\n", many(' + ", ".join(f"{i * 3 - 50}" for i in range(60)) + "));")
    print('    for (int i = 0; i < 12; i++) printf("%d %d\\n", long_body(i), frame(i));')
    print("    long sum = 0;\n"
          "    for (long i = -500000; i < 503000; i += 1) sum = sum * 3 + cases(i);\n"
          '    printf("%ld\\n", sum);')
    print("    return 0;\n}")


main()
