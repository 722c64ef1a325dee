#!/usr/bin/env python3
"""Writes what differs between a position of an audit and an earlier or later one, its base, by
docs/reference/delta.md, save.md and guest.py alone.

    tests/saves/write_delta.py RECIPE FIRST STEPS >DELTA

RECIPE is read in its own folder; FIRST is after how many steps the base stands, and STEPS after how
many the position does, as for write_save.py.
"""

import copy
import sys

import guest
from write_save import Audit, counted, digest, reserved_text, runs, sized, slot_text, u16, u32, u64


def listed(state):
    """The pages that the text of a state lists, by their numbers."""
    return {
        number: bytes(page) for number, page in state.pages.items() if bytes(page) != guest.ZEROS
    }


def page_changes(base, now):
    before, after = listed(base), listed(now)
    for number in sorted(before.keys() | after.keys()):
        if number not in after:
            yield u32(number) + b"\0"
        elif before.get(number) != after[number]:
            yield u32(number) + b"\1" + after[number]


def beside(known, content):
    """A content, or a 0 where it is what the base has."""
    return b"\0" if known is not None and bytes(known) == bytes(content) else b"\1" + sized(content)


def file_texts(base, now):
    for number, (name, content) in sorted(now.files.items()):
        known = base.files[number][1] if number in base.files else None
        yield u32(number) + u16(len(name)) + name + beside(known, content)


def patch_text(base, now):
    """The text of a guest's state beside another one."""
    others = [register for register in range(1, 32) if base.x[register] != now.x[register]]
    return b"".join([
        b"ddcdiff2",
        u64(now.steps),
        u64(now.pc),
        u32(sum(1 << register for register in others)),
        *(u64(now.x[register]) for register in others),
        reserved_text(now.reserved),
        *map(u64, now.heap),
        counted(u32(first) + u32(count) for first, count in runs(now.mapped)),
        counted(page_changes(base, now)),
        counted(file_texts(base, now)),
        counted(slot_text(number, slot) for number, slot in sorted(now.slots.items())),
        beside(base.streams[1], now.streams[1]),
        beside(base.streams[2], now.streams[2]),
    ])


def kept_stages(base, done):
    """How many stages in front are done alike in both."""
    kept = 0
    while kept < min(len(base), len(done)) and base[kept] == done[kept]:
        kept += 1
    return kept


class Place:
    """Where an audit stands: the text of its save, the stages that are done and the present
    guest."""

    def __init__(self, audit):
        self.save, self.old_save, self.line = audit.save(), None, "paused {} {}\n".format(
            *audit.place()
        )
        if audit.now.reserved is None:
            self.old_save = audit.save(1)
        self.done, self.now = list(audit.done), copy.deepcopy(audit.now)

    def delta(self, base):
        kept = kept_stages(base.done, self.done)
        return b"ddcdelt2" + digest(base.save) + u32(kept) + counted(self.done[kept:]) + patch_text(
            base.now, self.now
        )


def places(path, steps):
    """The places after so many steps of the audit of a recipe, by these numbers."""
    audit, at, found = Audit(path), 0, {}
    for place in sorted(set(steps)):
        audit.advance(place - at)
        at = place
        if audit.now is None:
            raise SystemExit(f"the audit is over by {place} steps")
        found[place] = Place(audit)
    return found


def main():
    recipe, first, steps = sys.argv[1], int(sys.argv[2]), int(sys.argv[3])
    found = places(recipe, [first, steps])
    sys.stdout.buffer.write(found[steps].delta(found[first]))


if __name__ == "__main__":
    main()
