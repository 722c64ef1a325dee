"""The languages hex1, hex2 and M1 as docs/reference/ has them, once more in Python, for the scripts
of this folder.

No table or text of it comes from ddc or from the programs of examples/chain. `items(language,
source)` and `expand(source)` give the items of a source, `link(items, base)` the bytes of items,
`write(items)` their text. Each raises `Refused(number, place)`, with the numbers of the language's
page.
"""

BLANKS = b" \t\n\r"
DIGITS = b"0123456789abcdefABCDEF"
MOST_BYTES = 67_108_864
MOST_ITEMS = 33_554_432
KINDS = {b"!": "I", b"@": "B", b"$": "J", b"~": "U"}

# An item is a tuple: ("byte", number), ("label", name), ("word", number, sign, name), ("rel",
# name), ("gap", name, name), ("abs", name)
# or ("pad",).


class Refused(Exception):
    def __init__(self, number, place):
        super().__init__(f"refused {number} {place}")
        self.number, self.place = number, place


class Words:
    """The items that were formed, and the word that is open."""

    def __init__(self, second_reference, dangling, too_long):
        self.items, self.first = [], None
        self.second_reference, self.dangling, self.too_long = second_reference, dangling, too_long

    def form(self, items):
        if len(self.items) + len(items) > MOST_ITEMS:
            raise Refused(self.too_long, 0)
        self.items += items

    def begin(self, at):
        if self.first is None:
            self.first, self.mask, self.reference, self.bytes = at, 0, None, b""

    def fail(self):
        raise Refused(self.dangling, self.first)

    def byte(self, byte):
        if self.first is None:
            return self.form([("byte", byte)])
        self.bytes += bytes([byte])
        if len(self.bytes) == 4:
            value = int.from_bytes(self.bytes, "little") ^ self.mask
            self.first = None
            if self.reference:
                self.form([("word", value, *self.reference)])
            else:
                self.form([("byte", byte) for byte in value.to_bytes(4, "little")])

    def field(self, at, mask):
        if self.first is not None and self.bytes:
            self.fail()
        self.begin(at)
        self.mask ^= mask

    def refer(self, at, sign, name):
        if self.first is not None:
            if self.reference:
                raise Refused(self.second_reference, at)
            if self.bytes:
                self.fail()
        self.begin(at)
        self.reference = (sign, name)

    def alone(self, item):
        if self.first is not None:
            self.fail()
        self.form([item])

    def end(self):
        if self.first is not None:
            self.fail()
        return self.items


def gap(source, at):
    """The place after blanks and comments."""
    while at < len(source):
        if source[at] in BLANKS:
            at += 1
        elif source[at] in b"#;":
            end = source.find(b"\n", at)
            at = len(source) if end < 0 else end
        else:
            break
    return at


def name_at(language, source, at):
    """The name that begins at a place; empty where none does."""
    if language == "hex1":
        return source[at:at + 1].strip(BLANKS)
    end = at
    while end < len(source) and source[end] not in BLANKS + b">":
        end += 1
    return source[at:end]


def items(language, source):
    if len(source) > MOST_BYTES:
        raise Refused(7, 0)
    words, at = Words(2, 3, 7), gap(source, 0)
    while at < len(source):
        sign = source[at:at + 1]
        name = name_at(language, source, at + 1) if sign in b"!@$~:%&" else b""
        if sign in DIGITS:
            other = gap(source, at + 1)
            if other >= len(source) or source[other] not in DIGITS:
                raise Refused(1, at)
            words.byte(int(sign + source[other:other + 1], 16))
            at = other + 1
        elif sign == b".":
            digits = source[at + 1:at + 9]
            if len(digits) < 8 or any(byte not in DIGITS for byte in digits):
                raise Refused(2, at)
            words.field(at, int.from_bytes(bytes.fromhex(digits.decode()), "little"))
            at += 9
        elif sign == b"<" and language == "hex2":
            words.alone(("pad",))
            at += 1
        elif sign in (b"!", b"@", b"$", b"~", b":", b"&", b"%") and name:
            end = at + 1 + len(name)
            if sign in KINDS:
                words.refer(at, sign, name)
            elif sign == b"%" and language == "hex2" and source[end:end + 1] == b">":
                other = name_at(language, source, end + 1)
                if not other:
                    raise Refused(2, at)
                words.alone(("gap", name, other))
                end += 1 + len(other)
            else:
                words.alone(({b":": "label", b"&": "abs", b"%": "rel"}[sign], name))
            at = end
        else:
            raise Refused(2, at)
        at = gap(source, at)
    return words.end()


def size(item, address):
    return {"byte": 1, "label": 0, "pad": -address % 4}.get(item[0], 4)


def field(kind, distance):
    bit = lambda high, low, to: (distance >> low & (1 << high - low + 1) - 1) << to
    if kind == "I":
        return bit(11, 0, 20)
    if kind == "B":
        return bit(12, 12, 31) | bit(10, 5, 25) | bit(4, 1, 8) | bit(11, 11, 7)
    if kind == "J":
        return bit(20, 20, 31) | bit(10, 1, 21) | bit(11, 11, 20) | bit(19, 12, 12)
    return distance + 2048 & 0xFFFFF000


def fits(kind, distance):
    low, high = {
        "U": (-2**31 - 2048, 2**31 - 2049), "B": (-4096, 4094), "J": (-2**20, 2**20 - 2),
        "4": (-2**31, 2**31 - 1)
    }[kind]
    return low <= distance <= high and (kind in "U4" or distance % 2 == 0)


def link(items, base):
    labels, address = {}, base
    for number, item in enumerate(items):
        if item[0] == "label":
            if item[1] in labels:
                raise Refused(4, number)
            labels[item[1]] = address
        address += size(item, address)
    out = bytearray()
    for number, item in enumerate(items):
        place = base + len(out)
        names = {
            "word": item[3:], "rel": item[1:], "gap": item[1:], "abs": item[1:]
        }.get(item[0], ())
        if any(name not in labels for name in names):
            raise Refused(5, number)
        there = [labels[name] for name in names]
        if item[0] == "byte":
            out.append(item[1])
        elif item[0] == "pad":
            out += bytes(size(item, place))
        elif item[0] == "word":
            kind = KINDS[item[2]]
            distance = there[0] - place + (4 if kind == "I" else 0)
            if kind != "I" and not fits(kind, distance):
                raise Refused(6, number)
            out += (item[1] ^ field(kind, distance)).to_bytes(4, "little")
        elif item[0] != "label":
            distance = {
                "rel": lambda x: x - place - 4, "gap": lambda x, y: x - y, "abs": lambda x: x
            }[item[0]](*there)
            if not (0 <= distance < 2**32 if item[0] == "abs" else fits("4", distance)):
                raise Refused(6, number)
            out += (distance % 2**32).to_bytes(4, "little")
    return bytes(out)


def split(source):
    """The words of an M1 source: offset and bytes. The first open quote is refused."""
    at, words = 0, []
    while at < len(source):
        if source[at] in BLANKS:
            at += 1
        elif source[at] in b"#;":
            end = source.find(b"\n", at)
            at = len(source) if end < 0 else end
        elif source[at] in b"\"'":
            end = source.find(source[at:at + 1], at + 1)
            if end < 0:
                raise Refused(3, at)
            words.append((at, source[at:end + 1]))
            at = end + 1
        else:
            end = at
            while end < len(source) and source[end] not in BLANKS:
                end += 1
            words.append((at, source[at:end]))
            at = end
    return words


def are_digits(text):
    return len(text) > 0 and len(text) % 2 == 0 and all(byte in DIGITS for byte in text)


def is_field(text):
    return text[:1] == b"." and len(text) == 9 and are_digits(text[1:])


def number(text):
    """The number that a text is, or none."""
    body = text[1:] if text[:1] == b"-" else text
    sign = -1 if text[:1] == b"-" else 1
    if body[:2] == b"0x" and body[2:] and all(byte in DIGITS for byte in body[2:]):
        return sign * int(body[2:], 16)
    if body and all(byte in b"0123456789" for byte in body):
        value = 0
        for byte in body:
            value = value * 10 + byte - 48
        return sign * value
    return None


def definitions(words):
    """The table of the definitions, and the other words."""
    table, others, at = {}, [], 0
    while at < len(words):
        if words[at][1] != b"DEFINE":
            others.append(words[at])
            at += 1
            continue
        offset = words[at][0]
        if at + 2 >= len(words) or not (are_digits(words[at + 2][1]) or is_field(words[at + 2][1])):
            raise Refused(1, offset)
        name, value = words[at + 1][1], words[at + 2][1]
        if name in table:
            raise Refused(2, offset)
        table[name] = value
        at += 3
    return table, others


def give(words, at, text):
    """Gives what a word with a value stands for; false where it has none."""
    if is_field(text):
        words.field(at, int.from_bytes(bytes.fromhex(text[1:].decode()), "little"))
    elif are_digits(text):
        for byte in bytes.fromhex(text.decode()):
            words.byte(byte)
    else:
        return False
    return True


def refer(words, at, text):
    """A word that is a sign and a name."""
    sign, name = text[:1], text[1:]
    if text == b"<":
        return words.alone(("pad",))
    first, mark, second = name.partition(b">")
    if sign == b"%" and mark and first and second and b">" not in second:
        return words.alone(("gap", first, second))
    if mark or not name or sign not in (b"!", b"@", b"$", b"~", b"%", b"&", b":"):
        raise Refused(4, at)
    if sign in KINDS:
        return words.refer(at, sign, name)
    return words.alone(({b":": "label", b"&": "abs", b"%": "rel"}[sign], name))


def expand(source):
    if len(source) > MOST_BYTES:
        raise Refused(7, 0)
    table, others = definitions(split(source))
    words = Words(4, 6, 7)
    for at, text in others:
        sign, value = text[:1], number(text[1:])
        if text in table:
            give(words, at, table[text])
        elif sign == b'"':
            inside = text[1:-1]
            for byte in inside + bytes(4 - len(inside) % 4):
                words.byte(byte)
        elif sign == b"'":
            if not are_digits(text[1:-1]):
                raise Refused(4, at)
            give(words, at, text[1:-1])
        elif give(words, at, text):
            pass
        elif sign in (b"!", b"@", b"~", b"%") and value is not None:
            low, high = (-2048, 2047) if sign in (b"!", b"@") else (-2**31, 2**32 - 1)
            if not low <= value <= high:
                raise Refused(5, at)
            if sign == b"%":
                for byte in (value % 2**32).to_bytes(4, "little"):
                    words.byte(byte)
            else:
                stored = (value >> 5 & 127) << 25 | (value & 31) << 7
                words.field(at, {
                    b"!": (value & 4095) << 20, b"@": stored, b"~": value + 2048 & 0xFFFFF000
                }[sign])
        else:
            refer(words, at, text)
    return words.end()


def write(items):
    out = bytearray()
    for item in items:
        if item[0] == "byte":
            out += b"%02X" % item[1]
        elif item[0] == "word":
            out += item[2] + item[3] + b" " + item[1].to_bytes(4, "little").hex().upper().encode()
        elif item[0] == "gap":
            out += b"%" + item[1] + b">" + item[2]
        else:
            out += {
                "label": b":", "rel": b"%", "abs": b"&", "pad": b"<"
            }[item[0]] + b"".join(item[1:])
        out += b"\n"
    return bytes(out)
