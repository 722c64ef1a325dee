"""The worked rows of the reference pages, each with the line that its page says is printed.

A recipe's row changes the example of docs/reference/recipe.md, which is examples/report/a.toml: the
first text in it becomes the second one.
"""

from __future__ import annotations

NO_CHECK = ('\ncheck = "copy_src"\n', "\n")
FORMAT_2 = ("format = 1", "format = 2")
STAGES = 'stage = "two"\nbinary'
IN = '{ path = "in", from = "prog" }'


def inputs(count: int) -> str:
    """The text of so many inputs, before the first stage."""
    row = '[[input]]\nname = "n{0}"\npath = "a.bin"\n'
    return "".join(row.format(number) for number in range(count))


def listed(names: str) -> list[tuple[str, str]]:
    """The changes that make a recipe of format 2 with these compared stages."""
    return [FORMAT_2, (STAGES, f"stages = [{names}]\nbinary")]


RECIPES: list[tuple[list[tuple[str, str]], str]] = [
    ([("format = 1", "format")], "1"),
    ([("format = 1", "")], "2 top 0 format"),
    ([("format = 1", 'format = "1"')], "2 top 0 format"),
    ([("format = 1", "format = 3")], "8 top 0 format"),
    ([FORMAT_2], "2 compare 0 stages"),
    ([FORMAT_2, (STAGES, 'stages = ["two"]\n' + STAGES)], "3 compare 0"),
    ([("[[source]]", "[[origin]]"), ("format = 1", "format = 1\nsource = 5")], "2 top 0 source"),
    ([("[[source]]", "[[origin]]"), ("format = 1", "format = 1\nsource = [5]")], "2 top 0 source"),
    ([("[[source]]", inputs(253) + "[[source]]")], "9 top 0 input"),
    ([("format = 1", 'format = 1\ntitle = "audit"')], "3 top 0"),
    ([('name = "prog"', 'name = "Prog"')], "4 input 1 name"),
    ([('path = "copy.elf"', 'path = ""')], "7 input 1 path"),
    ([('path = "copy.elf"', 'path = "copy.elf"\nfile = "x"')], "3 input 1"),
    ([('name = "copy_src"', 'name = "text"')], "5 source 1 name"),
    ([('lang = "hex0"', 'lang = "hex3"')], "4 source 1 lang"),
    ([('lang = "hex0"', 'lang = "hex0"\nbase = -1')], "8 source 1 base"),
    ([('files = ["text"]', "files = []")], "2 source 1 files"),
    ([('files = ["text"]', 'files = ["txt"]')], "6 source 1 files"),
    ([('args = ["copy"]', "args = []")], "2 stage 1 args"),
    ([('args = ["copy"]', 'args = ["a\\u0000"]')], "7 stage 1 args"),
    ([(IN, '{ path = "in" }')], "2 stage 1 files"),
    ([(IN, '{ path = "in", from = "prog", mode = 5 }')], "3 stage 1"),
    ([(IN, IN + ', { path = "./in", from = "src" }')], "5 stage 1 files"),
    ([(IN, '{ path = "in", from = "two" }')], "6 stage 1 files"),
    ([('output = "out"', 'output = "./"')], "7 stage 1 output"),
    ([("steps = 100000", "steps = 0")], "8 stage 1 steps"),
    ([('program = "prog"', 'program = "two"')], "6 stage 1 program"),
    ([('check = "copy_src"', 'check = "prog"')], "6 stage 1 check"),
    ([('files = ["text"]', 'files = ["two"]')], "6 stage 1 check"),
    ([('lang = "hex0"', 'lang = "other"')], "4 stage 1 check"),
    ([('stage = "two"', 'stage = "bin"')], "6 compare 0 stage"),
    ([NO_CHECK], "2 input 1 implements"),
    ([NO_CHECK, ('path = "copy.elf"', 'path = "copy.elf"\nimplements = "copy_src"')],
     "2 stage 1 becomes"),
    ([FORMAT_2, ('stage = "two"\n', 'stages = "two"\n')], "2 compare 0 stages"),
    (listed(""), "2 compare 0 stages"),
    (listed('"two", 1'), "2 compare 0 stages"),
    (listed(", ".join(["1"] * 17)), "9 compare 0 stages"),
    (listed('"Two"'), "4 compare 0 stages"),
    (listed('"two", "Two", "two"'), "4 compare 0 stages"),
    (listed('"two", "two"'), "5 compare 0 stages"),
    (listed('"gone", "gone"'), "5 compare 0 stages"),
    (listed('"two", "bin"'), "6 compare 0 stages"),
]
RECIPES_TAKEN = [
    [NO_CHECK, ('path = "copy.elf"', 'path = "copy.elf"\nimplements = "copy_src"'),
     ("steps = 100000", 'becomes = "copy_src"\nsteps = 100000')],
    listed('"one", "two"'),
    listed('"two"'),
]

# A language, a base, a source, and what asm saves as digits, or the line that it prints.
LONG = " 00" * 4090
SOURCES: list[tuple[str, int, str, str]] = [
    ("hex0", 0, "# a\n7F 4\n5;x", "7f45"),
    ("hex0", 0, "", ""),
    ("hex0", 0, "ABC", "ab"),
    ("hex0", 0, "1 # 23\n4", "14"),
    ("hex0", 0, "0;1#2\r3\n4", "04"),
    ("hex1", 3, ":a 00 00 00 00 @a 63000000", "00000000e30e00fe"),
    ("hex1", 0, ":#00", "00"),
    ("hex1", 0, ":\n", "refused 2 0"),
    ("hex1", 0, "<", "refused 2 0"),
    ("hex1", 0, "%a>b", "refused 2 2"),
    ("hex2", 0, "~x 97020000 !x 93820200 :x", "9702000093828200"),
    ("hex2", 0, ".00050000 13000000", "13050000"),
    ("hex2", 0, "0", "refused 1 0"),
    ("hex2", 0, "?", "refused 2 0"),
    ("hex2", 0, ":", "refused 2 0"),
    ("hex2", 0, ".0005000", "refused 2 0"),
    ("hex2", 0, "%a>", "refused 2 0"),
    ("hex2", 0, ":a>b", "refused 2 2"),
    ("hex2", 0, "%a >b", "refused 2 3"),
    ("hex2", 0, "!x 13", "refused 3 0"),
    ("hex2", 0, "!x 13 @y", "refused 2 6"),
    ("hex2", 0, ".00000000 13 !x", "refused 3 0"),
    ("hex2", 0, "!x :y", "refused 3 0"),
    ("hex2", 0, "!x ?", "refused 2 3"),
    ("hex2", 0, ":a 00 :a", "refused 4 2"),
    ("hex2", 0, "&q", "refused 5 0"),
    ("hex2", 0, "&q :a :a", "refused 4 2"),
    ("hex2", 0, "@a 63000000" + LONG + ":a", "e30f007e" + "00" * 4090),
    ("hex2", 0, "@a 63000000 00 00" + LONG + ":a", "refused 6 0"),
    ("m1", 0, 'DEFINE addi 13000000 DEFINE rd_a0 .00050000 :s rd_a0 !5 addi "hi"',
     b":s\n13\n05\n50\n00\n68\n69\n00\n00\n".hex()),
    ("m1", 0, "x DEFINE x 00", b"00\n".hex()),
    ("m1", 0, '!0 "abcd"', b"61\n62\n63\n64\n00\n00\n00\n00\n".hex()),
    ("m1", 0, "!2048", "refused 5 0"),
    ("m1", 0, "foo", "refused 4 0"),
    ("m1", 0, ":a>b", "refused 4 0"),
    ("m1", 0, '11"a"', "refused 4 0"),
    ("m1", 0, '"a', "refused 3 0"),
    ("m1", 0, "DEFINE x", "refused 1 0"),
    ("m1", 0, "DEFINE x '00'", "refused 1 0"),
    ("m1", 0, "DEFINE a 00 DEFINE a 11", "refused 2 12"),
    ("m1", 0, "DEFINE a 00 DEFINE a 0", "refused 1 12"),
    ("m1", 0, "!x 13 @y", "refused 4 6"),
    ("m1", 0, "!1 00 !2048", "refused 5 6"),
    ("m1", 0, "DEFINE f .00000000 00 f", "refused 6 22"),
]

# A script, and what kaem-verify says of it where the report is one of another script.
SCRIPTS: list[tuple[str, str]] = [
    ('./copy.elf\n# made\n"out" x\n', "yes 2"),
    ("# a", "refuted header 0"),
    ('"a\n', "script refused 1 0"),
    ("a $b\n", "script refused 2 2"),
    ('a "b"c\n', "script refused 2 2"),
    ("a\n./\n", "script refused 2 2"),
    ("a" + " a" * 64, "script refused 4 128"),
    ("a\n" * 4097, "script refused 5 8192"),
    ("a" * 256, "script refused 3 0"),
]
