#!/usr/bin/env python3
"""Writes the save of an audit's position, by docs/reference/save.md and guest.py alone.

    tests/saves/write_save.py [--first-form] RECIPE STEPS >SAVE

RECIPE is read in its own folder; STEPS is how many steps were taken, from 0. The end of a stage's
run counts as a step, as it does in `part`. What a check would say of an artefact is not looked at.
With --first-form the save has the first form, which `part` does not write any more.
"""

import hashlib
import os
import sys
import tomllib

import guest

DEFAULT_HEAP = 536_870_912


def u16(number):
    return number.to_bytes(2, "little")


def u32(number):
    return number.to_bytes(4, "little")


def u64(number):
    return number.to_bytes(8, "little")


def digest(data):
    return hashlib.sha256(data).digest()


def counted(items):
    """How many there are, and then each."""
    items = list(items)
    return u32(len(items)) + b"".join(items)


def sized(data):
    return u32(len(data)) + data


def runs(numbers):
    """The rows of mapped pages: the first page of each, and how many it has."""
    rows = []
    for number in sorted(numbers):
        if rows and sum(rows[-1]) == number:
            rows[-1][1] += 1
        else:
            rows.append([number, 1])
    return rows


def slot_text(number, slot):
    if isinstance(slot, int):
        return u32(number) + bytes([slot])
    file, cursor, flags = slot
    return u32(number) + bytes([3]) + u32(file) + u64(cursor) + bytes([flags])


def reserved_text(reserved):
    """How many bytes are reserved, and from which address on."""
    if reserved is None:
        return bytes([0])
    count, address = reserved
    return bytes([count]) + u64(address)


def state_text(now, form):
    """The text of a guest's state; the first form says nothing of a reservation."""
    if form == 1 and now.reserved is not None:
        raise SystemExit("a guest with a reservation has no text of the first form")
    pages = ((number, bytes(page)) for number, page in sorted(now.pages.items()))
    files = ((number, name, content) for number, (name, content) in sorted(now.files.items()))
    return b"".join([
        b"ddcstat%d" % form,
        u64(now.steps),
        u64(now.pc),
        *map(u64, now.x[1:]),
        reserved_text(now.reserved) if form == 2 else b"",
        *map(u64, now.heap),
        counted(u32(first) + u32(count) for first, count in runs(now.mapped)),
        counted(u32(number) + page for number, page in pages if page != guest.ZEROS),
        counted(
            u32(number) + u16(len(name)) + name + sized(content) for number, name, content in files
        ),
        counted(slot_text(number, slot) for number, slot in sorted(now.slots.items())),
        sized(now.streams[1]),
        sized(now.streams[2]),
    ])


def mark(data):
    """How many bytes, and their digest."""
    return u32(len(data)) + digest(data)


def done_text(ended, made):
    """A stage that is done: its guest, which stands at its exit, and its artefact."""
    left = (u16(len(name)) + name + mark(content) for name, content in ended.left().items())
    return u64(ended.steps + 1) + mark(
        ended.streams[1]
    ) + mark(ended.streams[2]) + counted(left) + sized(made)


class Audit:
    """An audit of the recipe at this path, at its beginning and then step by step."""

    def __init__(self, path):
        with open(path, "rb") as file:
            self.text = file.read()
        self.recipe = tomllib.loads(self.text.decode())
        self.contents, self.inputs, self.done = {}, [], []
        for table in self.recipe["input"]:
            with open(os.path.join(os.path.dirname(path), table["path"]), "rb") as file:
                self.contents[table["name"]] = file.read()
            self.inputs.append(digest(self.contents[table["name"]]))
        self.begin()

    def begin(self):
        """Starts the present stage's guest; there is none after the last stage."""
        self.now = None
        if len(self.done) < len(self.recipe["stage"]):
            self.stage = self.recipe["stage"][len(self.done)]
            files = {
                guest.plain_name(entry["path"].encode()): self.contents[entry["from"]]
                for entry in self.stage.get("files", [])
            }
            words = [[text.encode() for text in self.stage.get(key, [])] for key in ("args", "env")]
            self.now = guest.Guest(
                self.contents[self.stage["program"]], *words, files,
                self.stage.get("heap", DEFAULT_HEAP)
            )

    def advance(self, steps):
        """Takes so many steps. An audit that is over takes none."""
        for _ in range(steps):
            if self.now is None:
                return
            self.now.step()
            if self.now.exited is not None:
                self.finish()

    def finish(self):
        output = self.stage["output"]
        made = bytes(self.now.streams[1]) if output == "-" else self.now.left()[
            guest.plain_name(output.encode())
        ]
        if self.now.exited != 0:
            raise SystemExit(f"stage {self.stage['name']} exits with {self.now.exited}")
        self.contents[self.stage["name"]] = made
        self.done.append(done_text(self.now, made))
        self.begin()

    def place(self):
        """The present stage's name, and the steps that were taken in it."""
        return self.stage["name"], self.now.steps

    def save(self, form=2):
        return b"ddcsave%d" % form + digest(self.text) + counted(
            self.inputs
        ) + counted(self.done) + state_text(self.now, form)


def main():
    *options, recipe, steps = sys.argv[1:]
    audit = Audit(recipe)
    audit.advance(int(steps))
    if audit.now is None:
        sys.exit("the audit is over by then")
    sys.stdout.buffer.write(audit.save(1 if options == ["--first-form"] else 2))


if __name__ == "__main__":
    main()
