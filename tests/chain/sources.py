"""Random sources of the languages hex1, hex2 and M1, for the scripts of this folder: well-formed
ones, and any tokens in any order."""

import re

BLANKS = [" ", "\n", "\t", "  ", " # a comment\n", " ; 00 :a\n"]
SIGNS = "!@$~"
NUMBERS = ["0", "1", "-1", "7", "2047", "-2048", "2048", "-2049", "0x7ff", "-0x800", "0x800",
           "0xABCdef", "65536", "-65536", "2147483647", "-2147483648", "-2147483649",
           "4294967295", "4294967296", "0xFFFFFFFF", "0x100000000", "00012", "-0", "-0x0",
           "0x" + "0" * 20 + "5", "1" * 30, "-" + "9" * 30, "0x1" + "0" * 16, "-0x1" + "0" * 15]
# Words that are nearly something.
NEARLY = ["0x", "-", "-0x", "0X5", "+1", "5x", "!", "@", "~", "%", "$", "&", ":", ">", "<<", "%a>",
          "%>a", "%a>b>c", "!a>b", ":a>b", ".0005", ".0005000g", ".000500001", "0", "123", "xyz",
          "a", "DEFINE", "\"\"", "''", "'0'", "'0g'", "'00'", "\"a b\"", "'00'11", "11\"a\"",
          "\"#\"#c", "%5>6", "$5", "&5", ":5", "?", "\xff", "\x00", "!-", "!0x", "%-1", "~-5",
          "!'00'"]


def byte(chance):
    return chance.choice(["%02x", "%02X"]) % chance.randrange(256)


def field(chance):
    return "." + "".join(byte(chance) for _ in range(4))


def blank(chance):
    return "\r\n" if chance.random() < 0.001 else chance.choice(BLANKS)


def names(chance, language):
    """Some names that differ."""
    if language == "hex1":
        return chance.sample(
            "abcdefghijklmnopqrstuvwxyzABCDEFGHIJ0123456789<>#;:!.,\"'%&", chance.randrange(1, 9)
        )
    return [
        "label_%d" % number + chance.choice(["", "#", ";x", "\"", "'q'", "." * 40])
        for number in range(chance.randrange(1, 9))
    ]


def digits(chance, language, count):
    """So many bytes, with what may stand between and within them."""
    between = lambda: chance.choice(["", "", " ", blank(chance)]) if language != "M1" else ""
    return "".join("".join(digit + between() for digit in byte(chance)) for _ in range(count))


def word(chance, language, labels):
    """Fields, at most one reference, and the four bytes of a word."""
    parts = [field(chance) for _ in range(chance.randrange(3))]
    if labels and chance.random() < 0.8 or not parts:
        sign = chance.choice(SIGNS) if labels else "!"
        parts.insert(chance.randrange(len(parts) + 1), sign + chance.choice(labels or ["n"]))
    if language == "M1" and chance.random() < 0.5:
        parts.insert(0, chance.choice("!@") + str(chance.randrange(-2048, 2048)))
    if language == "M1" and chance.random() < 0.3:
        parts.insert(0, "~" + str(chance.randrange(-2**31, 2**32)))
    parts.append(digits(chance, language, 4))
    return "".join(part + blank(chance) for part in parts)


def well_formed(chance, language):
    """Definitions and references in reach, at even addresses."""
    labels = names(chance, language)
    count = chance.randrange(1, 90)
    places = {chance.randrange(count): label for label in labels}
    tokens = []
    for place in range(count):
        if place in places:
            tokens.append(":" + places[place])
        kind, defined = chance.randrange(8), list(places.values())
        if kind < 3:
            tokens.append(word(chance, language, defined))
        elif kind == 3:
            tokens.append("%" + chance.choice(defined))
        elif kind == 4 and language != "hex1":
            tokens.append("%" + chance.choice(defined) + ">" + chance.choice(defined))
        elif kind == 5:
            tokens.append("&" + chance.choice(defined))
        elif kind == 6 and language != "hex1":
            tokens.append("<")
        else:
            tokens.append(digits(chance, language, 2 * chance.randrange(1, 5)))
    return "".join(token + blank(chance) for token in tokens)


def any_tokens(chance, language):
    pieces = [":a", ":b", "!a", "@b", "$a", "~b", "%a", "%a>b", "&b", "<", "00", "7f", "0",
              ".00100000", "13000000", "?", ">", ":", "#", "\n", " ", "\r", "\t", ";", ".", "!",
              "%", "%a>", "\xe9"]
    return "".join(
        chance.choice(pieces) + chance.choice(["", " "]) for _ in range(chance.randrange(1, 16))
    )


def far(chance, language):
    """A reference near the ends of what fits, forward or backward."""
    sign, most = chance.choice(
        [("@", 4096), ("!", 2048), ("~", 2048), ("$", 1 << 20 if chance.random() < 0.1 else 5000)]
    )
    between = most + chance.randrange(-9, 9)
    if language == "M1":
        filled = " ".join(["00" * 100] * (between // 100) + ["00"] * (between % 100))
    else:
        filled = "00" * between
    reference, label = sign + "x 13000000", ":x"
    first, last = (reference, label) if chance.random() < 0.5 else (label, reference)
    return f"{first} {filled} {last}\n"


def m1_words(chance):
    """Words of M1 of every kind, some of them nearly words."""
    tokens = []
    defined = ["d%d" % number for number in range(chance.randrange(5))]
    defined.append(chance.choice(["!5", "<", "00", "DEFINE", '"q"', "'12'", ":x"]))
    for name in defined:
        value = chance.choice([digits(chance, "M1", chance.randrange(1, 7)), field(chance)])
        if chance.random() < 0.03:
            value = chance.choice(["", "0", "xyz", '"00"', ".00", "'00'"])
        tokens.append(f"DEFINE {name} {value}")
    for _ in range(chance.randrange(1, 30)):
        kind = chance.randrange(9)
        if kind == 0:
            tokens.append(chance.choice(defined))
        elif kind == 1:
            tokens.append('"' + "".join(
                chance.choice("abc #;'\n\t0") for _ in range(chance.randrange(12))
            ) + '"')
        elif kind == 2:
            tokens.append("'" + digits(chance, "M1", chance.randrange(1, 6)) + "'")
        elif kind == 3:
            tokens.append("%" + chance.choice(NUMBERS[:8] if chance.random() < 0.9 else NUMBERS))
        elif kind == 4:
            tokens.append(
                chance.choice(NEARLY) if chance.random() < 0.1 else ":" + chance.choice("abc")
            )
        elif kind == 5:
            tokens.append(chance.choice(["%a", "%a>b", "&b", "<", ":c"]))
        else:
            tokens.append(word(chance, "M1", ["a", "b"]))
    chance.shuffle(tokens)
    return "".join(token + blank(chance) for token in tokens)


def near_words(chance):
    pieces = NEARLY + [chance.choice("!@~%$&:") + number for number in NUMBERS]
    pieces += ["!a", "@b", "00", "13000000", "DEFINE a 00", "DEFINE b .00100000"]
    return "".join(
        chance.choice(pieces) + chance.choice([" ", "\n", " ", ""])
        for _ in range(chance.randrange(1, 10))
    )


def for_debian(text):
    """A well-formed source of M1 as Debian's M1 takes it: digits stand in quotes, and fields are
    defined."""
    defines = []

    def other(match):
        if match[1]:
            return match[0]
        if match[2][0] != ".":
            return "'" + match[2] + "'"
        defines.append(f"DEFINE mask_{len(defines)} {match[2]}\n")
        return f"mask_{len(defines) - 1}"

    changed = re.sub(r"([#;][^\n]*|[^\s#;.0-9A-Fa-f]\S*)|(\S+)", other, text)
    return "".join(defines) + changed


def altered(chance, language):
    """A well-formed source with an edit: a token gone, doubled or moved, a label once more, or
    another byte somewhere."""
    tokens = re.findall(r"\S+\s*", well_formed(chance, language))
    labels = [token for token in tokens if token.startswith(":")]
    place = chance.randrange(len(tokens))
    kind = chance.randrange(5)
    if kind == 0:
        del tokens[place]
    elif kind == 1:
        tokens.insert(place, chance.choice(tokens))
    elif kind == 2:
        tokens.insert(chance.randrange(len(tokens)), tokens.pop(place))
    elif kind == 3 and labels:
        tokens.insert(place, chance.choice(labels).strip() + " ")
    text = "".join(tokens)
    if kind == 4:
        at = chance.randrange(len(text))
        text = text[:at] + chance.choice("0aF?>:%!.#\n \"'") + text[at + 1:]
    return text


def drawn(chance, language):
    """A source, and whether it is well formed: then only a distance can be refused."""
    kind = chance.randrange(20)
    if kind < 9:
        text = well_formed(chance, language)
        return (for_debian(text) if language == "M1" and kind < 5 else text), True
    if kind == 9:
        return far(chance, language), True
    if kind < 13:
        return altered(chance, language), False
    if language == "M1" and kind < 19:
        return (m1_words(chance) if kind < 17 else near_words(chance)), False
    return any_tokens(chance, language), False
