"""Readers of hex0, scripts and lists, from docs/reference alone, and random scripts and lists."""
import re


def hex0_value(source):
    """The bytes of a source in hex0: its digits in pairs, without comments; a last lone digit
    counts for nothing."""
    digits = re.sub(rb"[#;][^\n]*", b"", source)
    digits = re.sub(rb"[^0-9a-fA-F]", b"", digits)
    return bytes.fromhex(digits[: len(digits) // 2 * 2].decode())


def word_fault(word, is_first, quoted, after):
    """The number of a word's first fault by itself, or none."""
    if quoted and after is None:
        return 1
    if b"\0" in word or not quoted and re.search(rb'["$\\]', word) or quoted and after not in (
        b"", b" ", b"\t", b"\r"
    ):
        return 2
    if is_first and not re.sub(rb"^(?:\./)+", b"", word):
        return 2
    return 3 if len(word) > 255 else None


def script_fault(script):
    """The number of a script's first fault, and the offset of its word; none of a script."""
    start, commands = 0, 0
    for line in script.split(b"\n"):
        count, at = 0, 0
        while True:
            at += len(line[at:]) - len(line[at:].lstrip(b" \t\r"))
            if at == len(line) or line[at : at + 1] == b"#":
                break
            if count == 0 and commands == 4096 or count == 64:
                return (5 if count == 0 else 4), start + at
            quoted = line[at : at + 1] == b'"'
            found = re.compile(rb'"([^"]*)(")?' if quoted else rb"([^ \t\r]*)").match(line, at)
            after = None if quoted and not found[2] else line[found.end() : found.end() + 1]
            fault = word_fault(found[1], count == 0, quoted, after)
            if fault:
                return fault, start + at
            commands, count, at = commands + (count == 0), count + 1, found.end()
        start += len(line) + 1
    return None


def list_fault(listed):
    """The number of the first line that no list has, or none."""
    *lines, rest = listed.split(b"\n")
    earlier = set()
    for number, line in enumerate(lines, 1):
        name = re.sub(rb"^(?:\./)+", b"", line)
        if number > 4096 or not re.fullmatch(rb"[!-~]{1,255}", line) or not name or name in earlier:
            return number
        earlier.add(name)
    return len(lines) + 1 if rest else None


def random_script(chance):
    """A script of any tokens, most of which are words."""
    tokens = [
        b"copy.elf", b"./copy.elf", b"out", b'"out"', b"in", b'""', b'"a b"', b"a#b", b"x", b"./",
        b"none", b"w" * 255
    ]
    rare = [
        b"w" * 256, b"$x", b"\\", b'"', b"\0", b'"a"b', b"a\"", b"#", b"# a comment", b"./" * 128,
        b" a" * 63, b"\na" * 4094
    ]
    pieces = []
    for _ in range(chance.choice([1, 3, 10, 40])):
        pieces += [
            chance.choice(rare if chance.randrange(12) == 0 else tokens),
            chance.choice([b" ", b"\n", b"\n", b"\t", b"\r\n", b"  ", b""])
        ]
    return b"".join(pieces)


def random_list(chance):
    """A list of any words, most of which name files that are there."""
    names = [b"copy.elf", b"./in", b"in", b"sha256.elf", b"script", b"list"]
    rare = [b"none", b"./", b"", b"a b", b"\x7f", b"w" * 255, b"w" * 256, b"new", b"././new", b"\0"]
    lines = [
        chance.choice(rare if chance.randrange(8) == 0 else names)
        for _ in range(chance.randrange(6))
    ]
    return b"".join(it + b"\n" for it in lines)[: None if chance.randrange(8) else -1]
