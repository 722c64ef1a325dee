"""hex0, hex1, hex2 and M1: which bytes or items a source stands for.

The rules are those of docs/reference/hex0.md, hex1.md, hex2.md, m1.md and linking.md. An item is a
number from 0 to 255 (a Byte), or a tuple of its kind and what it holds.
"""

from __future__ import annotations

import re
from typing import Any, Union

LONGEST_SOURCE, MOST_ITEMS = 67_108_864, 33_554_432
ITEM = Union[int, tuple[Any, ...]]
COMMENT = re.compile(rb"[#;][^\n]*")
NOT_DIGITS = bytes(set(range(256)) - set(b"0123456789abcdefABCDEF"))
DIGITS = b"0123456789abcdefABCDEF"
FIELD = re.compile(rb"\.([0-9A-Fa-f]{8})")
BLANKS = re.compile(rb"[ \t\n\r]*")
SIGNS = {b"!": "I", b"@": "B", b"$": "J", b"~": "U"}
KINDS = {kind: sign.decode() for sign, kind in SIGNS.items()}
# The bits of an immediate from one on, how many, and from which bit of the word on they stand
# (RISC-V Unprivileged ISA, "Immediate Encoding Variants").
IMMEDIATES = {
    "I": ((0, 12, 20),), "S": ((0, 5, 7), (5, 7, 25)), "U": ((12, 20, 12),),
    "B": ((1, 4, 8), (5, 6, 25), (11, 1, 7), (12, 1, 31)),
    "J": ((1, 10, 21), (11, 1, 20), (12, 8, 12), (20, 1, 31)),
    "H": ((0, 6, 20),), "K": ((0, 5, 20),),
}
ITEMS = {b":": "Label", b"%": "Rel", b"&": "Abs"}
LONG, SHORT = rb"[^ \t\n\r>]+", rb"[^ \t\n\r]"
HEX2_TOKEN = re.compile(
    rb"([!@$~:&]|%(?!" + LONG + rb">))(" + LONG + rb")|%(" + LONG + rb")>(" + LONG + rb")|<"
)
HEX1_TOKEN = re.compile(rb"([!@$~:%&])(" + SHORT + rb")|((?!))((?!))")


class Refused(Exception):
    """A source is refused; it holds a number and a place."""


def hex0(source: bytes) -> bytes:
    """The value of a hex0 source."""
    digits = COMMENT.sub(b"", source).translate(None, NOT_DIGITS)
    return bytes.fromhex(digits[: len(digits) // 2 * 2].decode())


class Words:
    """Items as they are formed: bytes, and words of four bytes with fields and a reference."""

    def __init__(self, second_reference: int, dangling: int) -> None:
        """No items; the numbers of two refusals differ by language."""
        self.items: list[ITEM] = []
        self.second_reference, self.dangling = second_reference, dangling
        self.start, self.mask = -1, 0
        self.reference: tuple[str, bytes] | None = None
        self.open: list[int] = []

    def put(self, item: ITEM) -> None:
        """One item more."""
        if len(self.items) >= MOST_ITEMS:
            raise Refused(7, 0)
        self.items.append(item)

    def byte(self, value: int) -> None:
        """A byte, in a word or outside."""
        if self.start < 0:
            self.put(value)
            return
        self.open.append(value)
        if len(self.open) == 4:
            word = int.from_bytes(self.open, "little") ^ self.mask
            reference, self.start = self.reference, -1
            if reference:
                self.put(("Word", word, *reference))
            else:
                for one in word.to_bytes(4, "little"):
                    self.put(one)

    def begin(self, offset: int) -> None:
        """A field or reference at an offset: it opens a word, or goes on before its bytes."""
        if self.start < 0:
            self.start, self.mask, self.reference, self.open = offset, 0, None, []
        elif self.open:
            raise Refused(self.dangling, self.start)

    def field(self, value: int, offset: int) -> None:
        """A field of four bytes, as their little-endian number."""
        self.begin(offset)
        self.mask ^= value

    def refer(self, kind: str, name: bytes, offset: int) -> None:
        """A reference."""
        if self.start >= 0 and self.reference:
            raise Refused(self.second_reference, offset)
        self.begin(offset)
        self.reference = (kind, name)

    def other(self, *item: Any) -> None:
        """An item that is neither a byte nor of a word; nothing at the end of the source."""
        if self.start >= 0:
            raise Refused(self.dangling, self.start)
        if item:
            self.put(item)


def skip(source: bytes, at: int) -> int:
    """The offset of the next byte that is neither blank nor of a comment."""
    while True:
        at = BLANKS.match(source, at).end()  # type: ignore[union-attr]
        if source[at : at + 1] not in (b"#", b";"):
            return at
        at = source.find(b"\n", at)
        if at < 0:
            return len(source)


def items(lang: str, source: bytes) -> list[ITEM]:
    """The items of a source in hex1 or hex2."""
    if len(source) > LONGEST_SOURCE:
        raise Refused(7, 0)
    token, words = HEX1_TOKEN if lang == "hex1" else HEX2_TOKEN, Words(2, 3)
    at, end = skip(source, 0), len(source)
    while at < end:
        if source[at] in DIGITS:
            second = skip(source, at + 1)
            if second >= end or source[second] not in DIGITS:
                raise Refused(1, at)
            words.byte(int(source[at : at + 1] + source[second : second + 1], 16))
            at = skip(source, second + 1)
            continue
        match = FIELD.match(source, at) or token.match(source, at)
        if not match:
            raise Refused(2, at)
        token_of(words, match, at)
        at = skip(source, match.end())
    words.other()
    return words.items


def token_of(words: Words, match: re.Match[bytes], at: int) -> None:
    """Puts what a token gives, which is no byte."""
    if match.re is FIELD:
        words.field(field_of(match[1]), at)
    elif match[1] in SIGNS:
        words.refer(SIGNS[match[1]], match[2], at)
    elif match[1]:
        words.other(ITEMS[match[1]], match[2])
    elif match[3]:
        words.other("Gap", match[3], match[4])
    else:
        words.other("Pad")


def length_of(item: ITEM, address: int) -> int:
    """How many bytes an item has at an address."""
    if isinstance(item, int):
        return 1
    return {"Label": 0, "Pad": -address % 4}.get(item[0], 4)


def scattered(kind: str, number: int) -> int:
    """The word whose immediate of a form is this number."""
    return sum((number >> at & (1 << bits) - 1) << to for at, bits, to in IMMEDIATES[kind])


def written(item: tuple[Any, ...], address: int, labels: dict[bytes, int]) -> int | None:
    """The number that an item with names writes; none where it does not fit. KeyError: no label."""
    if item[0] == "Abs":
        there = labels[item[1]]
        return there if there < 1 << 32 else None
    if item[0] in ("Rel", "Gap"):
        origin = address + 4 if item[0] == "Rel" else labels[item[2]]
        distance = labels[item[1]] - origin
        return distance & 0xFFFFFFFF if -(1 << 31) <= distance < 1 << 31 else None
    word, kind = item[1:3]
    distance = labels[item[3]] - address
    if kind == "I":
        return word ^ scattered("I", distance + 4)
    if kind == "U":
        upper = distance + 2048
        return word ^ upper & 0xFFFFF000 if -(1 << 31) <= upper < 1 << 31 else None
    reach = 1 << 12 if kind == "B" else 1 << 20
    fits = distance % 2 == 0 and -reach <= distance < reach
    return word ^ scattered(kind, distance) if fits else None


def link(found: list[ITEM], base: int) -> bytes:
    """The bytes of items at a base."""
    labels: dict[bytes, int] = {}
    address = base
    for number, item in enumerate(found):
        if not isinstance(item, int) and item[0] == "Label":
            if item[1] in labels:
                raise Refused(4, number)
            labels[item[1]] = address
        address += length_of(item, address)
    value = bytearray()
    for number, item in enumerate(found):
        address = base + len(value)
        if isinstance(item, int):
            value.append(item)
        elif item[0] in ("Label", "Pad"):
            value += bytes(length_of(item, address))
        else:
            try:
                word = written(item, address, labels)
            except KeyError:
                raise Refused(5, number) from None
            if word is None:
                raise Refused(6, number)
            value += word.to_bytes(4, "little")
    return bytes(value)


def value(lang: str, source: bytes, base: int) -> bytes:
    """The value of a source in hex0, hex1 or hex2 at a base."""
    return hex0(source) if lang == "hex0" else link(items(lang, source), base)


M1_WORD = re.compile(rb'"[^"]*"|\'[^\']*\'|[^ \t\n\r"\'][^ \t\n\r]*')
M1_NUMBER = re.compile(rb"(-?)(0x)?([0-9A-Fa-f]+)")
M1_NAME = re.compile(rb"([!@$~%&:])([^>]+)|%([^>]+)>([^>]+)")
RANGES = {b"!": (-2048, 2047), b"@": (-2048, 2047), b"~": (-(1 << 31), (1 << 32) - 1),
          b"%": (-(1 << 31), (1 << 32) - 1)}


def m1_words(source: bytes) -> list[tuple[int, bytes]]:
    """The words of an M1 source, each with its offset."""
    words: list[tuple[int, bytes]] = []
    at = skip(source, 0)
    while at < len(source):
        match = M1_WORD.match(source, at)
        if not match:
            raise Refused(3, at)
        words.append((at, match[0]))
        at = skip(source, match.end())
    return words


def m1_number(word: bytes) -> int | None:
    """The number that a word is; beyond 2^64 another number that is out of every range, too."""
    match = M1_NUMBER.fullmatch(word)
    if not match or not (match[2] or match[3].isdigit()):
        return None
    digits = match[3].lstrip(b"0") or b"0"
    number = int(digits, 16 if match[2] else 10) if len(digits) <= 20 else 1 << 64
    return -number if match[1] else number


def field_of(digits: bytes) -> int:
    """The number of a field's eight digits."""
    return int.from_bytes(bytes.fromhex(digits.decode()), "little")


def is_digits(word: bytes) -> bool:
    """Whether a word is a positive even number of hexadecimal digits."""
    return len(word) > 0 == len(word) % 2 and not word.translate(None, DIGITS)


def m1_definitions(words: list[tuple[int, bytes]]) -> tuple[dict[bytes, bytes], list[int]]:
    """The values by names, and the numbers of the words that belong to no definition."""
    defined: dict[bytes, bytes] = {}
    others: list[int] = []
    at = 0
    while at < len(words):
        offset, word = words[at]
        if word != b"DEFINE":
            others.append(at)
            at += 1
            continue
        text = words[at + 2][1] if at + 2 < len(words) else b""
        if not is_digits(text) and not FIELD.fullmatch(text):
            raise Refused(1, offset)
        if words[at + 1][1] in defined:
            raise Refused(2, offset)
        defined[words[at + 1][1]] = text
        at += 3
    return defined, others


def m1_plain(words: Words, text: bytes, offset: int) -> bool:
    """Puts digits or a field; whether the text is such."""
    field = FIELD.fullmatch(text)
    if field:
        words.field(field_of(field[1]), offset)
    elif is_digits(text):
        for one in bytes.fromhex(text.decode()):
            words.byte(one)
    else:
        return False
    return True


def m1_numeric(words: Words, sign: bytes, number: int, offset: int) -> None:
    """Puts the field or the bytes of a number after its sign."""
    least, most = RANGES[sign]
    if not least <= number <= most:
        raise Refused(5, offset)
    if sign == b"!":
        words.field(scattered("I", number), offset)
    elif sign == b"@":
        words.field(scattered("S", number), offset)
    elif sign == b"~":
        words.field(number + 2048 & 0xFFFFF000, offset)
    else:
        for one in (number & 0xFFFFFFFF).to_bytes(4, "little"):
            words.byte(one)


def m1_word(words: Words, word: bytes, offset: int) -> None:
    """Puts what a word gives that has no definition."""
    if word[:1] == b'"':
        text = word[1:-1]
        for one in text + bytes(4 - len(text) % 4):
            words.byte(one)
        return
    quoted = word[:1] == b"'" and is_digits(word[1:-1])
    if m1_plain(words, word[1:-1] if quoted else word, offset):
        return
    number = m1_number(word[1:]) if word[:1] in RANGES else None
    match = M1_NAME.fullmatch(word)
    if number is not None:
        m1_numeric(words, word[:1], number, offset)
    elif word == b"<":
        words.other("Pad")
    elif not match:
        raise Refused(4, offset)
    elif match[3]:
        words.other("Gap", match[3], match[4])
    elif match[1] in SIGNS:
        words.refer(SIGNS[match[1]], match[2], offset)
    else:
        words.other(ITEMS[match[1]], match[2])


def m1_items(source: bytes) -> list[ITEM]:
    """The items that an M1 source expands to."""
    if len(source) > LONGEST_SOURCE:
        raise Refused(7, 0)
    found, words = m1_words(source), Words(4, 6)
    defined, others = m1_definitions(found)
    for at in others:
        offset, word = found[at]
        if word in defined:
            m1_plain(words, defined[word], offset)
        else:
            m1_word(words, word, offset)
    words.other()
    return words.items


def item_text(item: ITEM) -> bytes:
    """The line of an item, as hex2 reads it."""
    if isinstance(item, int):
        return b"%02X\n" % item
    if item[0] == "Word":
        digits = item[1].to_bytes(4, "little").hex().upper()
        return b"%s%s %s\n" % (KINDS[item[2]].encode(), item[3], digits.encode())
    if item[0] == "Gap":
        return b"%%%s>%s\n" % item[1:]
    signs = {kind: sign for sign, kind in ITEMS.items()}
    return b"<\n" if item[0] == "Pad" else b"%s%s\n" % (signs[item[0]], item[1])
