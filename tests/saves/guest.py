"""A guest as docs/reference has it, in Python: loader.md and running.md for its start, machine.md,
memory.md and calls.md for its steps.

It has the instructions and the calls that the programs of examples/report and examples/audit use,
on the ways that these programs take. At any other it stops with a message, so it says nothing of a
program that it has no rule for.
"""

PAGE = 4096
STACK_PAGES = 2048
TOP_PAGE = 1 << 26  # the page after the stack, which ends at 2^38
WORD = (1 << 64) - 1
ZEROS = bytes(PAGE)


def little(data):
    return int.from_bytes(data, "little")


def signed(number, bits=64):
    """The number of so many bits, the highest of them its sign."""
    number &= (1 << bits) - 1
    return number - (1 << bits) if number >> (bits - 1) else number


def plain_name(path):
    while path.startswith(b"./"):
        path = path[2:]
    return path


BRANCHES = {
    0: lambda a, b: a == b,
    1: lambda a, b: a != b,
    4: lambda a, b: signed(a) < signed(b),
    5: lambda a, b: signed(a) >= signed(b),
    6: lambda a, b: a < b,
    7: lambda a, b: a >= b,
}
# By funct3, with an immediate or a second register.
ROWS = {
    0: lambda a, b: a + b,
    2: lambda a, b: signed(a) < signed(b),
    3: lambda a, b: a < b,
    4: lambda a, b: a ^ b,
    6: lambda a, b: a | b,
    7: lambda a, b: a & b,
}


class Guest:
    """A program at its start, and then step by step."""

    def __init__(self, program, args, env, files, heap):
        self.steps, self.pages, self.mapped = 0, {}, set(range(TOP_PAGE - STACK_PAGES, TOP_PAGE))
        self.x = [0] * 32
        self.load_image(program)
        self.heap = [max(self.ends) * PAGE, max(self.ends) * PAGE, heap]
        self.lay_stack([text + b"\0" for text in args], [text + b"\0" for text in env])
        self.files = {number: [name, bytearray(files[name])]
                      for number, name in enumerate(sorted(files))}
        # A kind, or of an open file its number, its cursor and its flags.
        self.slots = {0: 0, 1: 1, 2: 2}
        self.streams = {1: bytearray(), 2: bytearray()}
        self.reserved = None  # how many bytes, and their address
        self.exited = None

    def load_image(self, program):
        self.pc, headers = little(program[24:32]), little(program[32:40])
        self.ends = []
        for number in range(little(program[56:58])):
            header = program[headers + 56 * number :][:56]
            offset, at, in_file, in_memory = (little(header[place : place + 8])
                                              for place in (8, 16, 32, 40))
            if little(header[:4]) != 1 or in_memory == 0:
                continue
            end = (at + in_memory + PAGE - 1) // PAGE
            self.mapped.update(range(at // PAGE, end))
            self.ends.append(end)
            self.put(at, program[offset : offset + in_file])

    def lay_stack(self, args, env):
        texts = TOP_PAGE * PAGE - sum(map(len, args + env))
        self.put(texts, b"".join(args + env))
        words, at = [len(args)], texts
        for group in (args, env):
            for text in group:
                words.append(at)
                at += len(text)
            words.append(0)
        words += [0, 0]
        self.x[2] = (texts - 8 * len(words)) & ~15
        self.put(self.x[2], b"".join(word.to_bytes(8, "little") for word in words))

    # ---- memory

    def page(self, number):
        if number not in self.mapped:
            raise SystemExit(f"step {self.steps + 1}: the page {number} is not mapped")
        return self.pages.setdefault(number, bytearray(PAGE))

    def get(self, at, count):
        data = bytearray()
        while len(data) < count:
            number, begin = divmod(at + len(data), PAGE)
            data += self.page(number)[begin : begin + count - len(data)]
        return bytes(data)

    def put(self, at, data):
        done = 0
        while done < len(data):
            number, begin = divmod(at + done, PAGE)
            piece = data[done : done + PAGE - begin]
            self.page(number)[begin : begin + len(piece)] = piece
            done += len(piece)

    def text(self, at):
        data = bytearray()
        while (byte := self.get(at + len(data), 1)) != b"\0":
            data += byte
        return plain_name(bytes(data))

    # ---- one step

    def step(self):
        word = little(self.get(self.pc, 4))
        funct3, funct7, a, b = (word >> 12 & 7, word >> 25,
                                self.x[word >> 15 & 31], self.x[word >> 20 & 31])
        low, target, value = signed(word >> 20, 12), self.pc + 4, None
        match word & 127:
            case 0x37 | 0x17 as opcode:
                value = signed(word & ~0xFFF, 32) + (self.pc if opcode == 0x17 else 0)
            case 0x6F:
                bits = ((word >> 31) << 20 | (word >> 12 & 0xFF) << 12 | (word >> 20 & 1) << 11
                        | (word >> 21 & 0x3FF) << 1)
                value, target = target, self.pc + signed(bits, 21)
            case 0x67 if funct3 == 0:
                value, target = target, a + low & ~1
            case 0x63 if funct3 in BRANCHES:
                bits = ((word >> 31) << 12 | (word >> 7 & 1) << 11 | (word >> 25 & 0x3F) << 5
                        | (word >> 8 & 15) << 1)
                if BRANCHES[funct3](a, b):
                    target = self.pc + signed(bits, 13)
            case 0x03 if funct3 != 7:
                data = self.get(a + low & WORD, 1 << (funct3 & 3))
                value = little(data) if funct3 & 4 else signed(little(data), 8 * len(data))
            case 0x23 if funct3 < 4:
                self.put(a + signed(funct7 << 5 | word >> 7 & 31, 12) & WORD,
                         (b & WORD).to_bytes(8, "little")[: 1 << funct3])
            case 0x13 if funct3 in ROWS:
                value = ROWS[funct3](a, low & WORD)
            case 0x13 if funct3 == 1 and word >> 26 == 0:
                value = a << (word >> 20 & 63)
            case 0x33 if funct3 in ROWS and funct7 == 0:
                value = ROWS[funct3](a, b)
            case 0x33 if funct3 == 0 and funct7 in (1, 32):
                value = a * b if funct7 == 1 else a - b
            case 0x73 if word == 0x73:
                if not self.call(self.x[17], *self.x[10:14]):
                    return
            case _:
                raise SystemExit(f"step {self.steps + 1}: no rule here for the word {word:08x}")
        rd = word >> 7 & 31
        if value is not None and rd != 0:
            self.x[rd] = value & WORD
        self.pc = target & WORD
        self.steps += 1

    # ---- calls

    def call(self, number, *words):
        """Makes a call; false where it ends the run, which is a step that no count of steps has."""
        match number:
            case 56:
                answer = self.open(signed(words[0], 32), self.text(words[1]), words[2])
            case 63:
                answer = self.read(*words[:3])
            case 64:
                answer = self.write(*words[:3])
            case 93:
                self.exited = words[0] & 255
                return False
            case _:
                raise SystemExit(f"step {self.steps + 1}: no rule here for the call {number}")
        self.x[10] = answer & WORD
        self.reserved = None
        return True

    def open(self, folder, name, flags):
        found = [number for number, (held, _) in self.files.items() if held == name]
        if folder != -100 or flags & 3 == 3 or flags & 128 or not (found or flags & 64):
            raise SystemExit(f"step {self.steps + 1}: no rule here for this way to open a file")
        number = found[0] if found else next(free for free in range(5120) if free not in self.files)
        if not found or flags & 512:
            self.files[number] = [name, bytearray()]
        slot = next(free for free in range(1024) if free not in self.slots)
        self.slots[slot] = [number, 0, {0: 1, 1: 2, 2: 3}[flags & 3] | (4 if flags & 1024 else 0)]
        return slot

    def read(self, slot, at, count):
        if self.slots[slot] == 0:
            return 0
        number, cursor, _ = self.slots[slot]
        data = self.files[number][1][cursor : cursor + count]
        self.put(at, data)
        self.slots[slot][1] += len(data)
        return len(data)

    def write(self, slot, at, count):
        data = self.get(at, count)
        if slot in (1, 2) and self.slots[slot] == slot:
            self.streams[slot] += data
            return count
        number, cursor, flags = self.slots[slot]
        content = self.files[number][1]
        begin = len(content) if flags & 4 else cursor
        content.extend(bytes(max(0, begin - len(content))))
        content[begin : begin + count] = data
        self.slots[slot][1] = begin + count
        return count

    def left(self):
        """The names with their contents, by their bytes."""
        return {name: bytes(content) for name, content in sorted(self.files.values()) if name}
