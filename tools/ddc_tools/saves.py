"""What a save of an audit holds: the artefacts, and the state of the present stage."""

import hashlib
from dataclasses import dataclass

from ddc_tools.program import Refusal

MAGIC = b"ddcsave2"
DIGEST = 32


@dataclass
class Save:
    """A save that ddc wrote: the artefacts of the stages that are done, and a state's text."""

    artefacts: list[bytes]
    state: bytes


class Reader:
    """Takes fields from the front of a text."""

    def __init__(self, text: bytes) -> None:
        self.text, self.at = text, 0

    def take(self, count: int) -> bytes:
        """The next bytes."""
        taken = self.text[self.at:self.at + count]
        if len(taken) < count:
            raise Refusal("the save is not whole")
        self.at += count
        return taken

    def number(self, size: int) -> int:
        """The next little-endian number."""
        return int.from_bytes(self.take(size), "little")


def artefact_of(reader: Reader) -> bytes:
    """The artefact of the next stage that is done."""
    reader.take(8 + 2 * (4 + DIGEST))
    for _ in range(reader.number(4)):
        reader.take(reader.number(2))
        reader.take(4 + DIGEST)
    return reader.take(reader.number(4))


def read_save(text: bytes) -> Save:
    """The parts of a save. Nothing in it is believed: each part is checked where it is used."""
    reader = Reader(text)
    if reader.take(len(MAGIC)) != MAGIC:
        raise Refusal("the save is none of this release of ddc")
    reader.take(DIGEST)
    reader.take(DIGEST * reader.number(4))
    artefacts = [artefact_of(reader) for _ in range(reader.number(4))]
    return Save(artefacts, text[reader.at:])


def digest(content: bytes) -> str:
    """A SHA-256 digest in hexadecimal digits."""
    return hashlib.sha256(content).hexdigest()
