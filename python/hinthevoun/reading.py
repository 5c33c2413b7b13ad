"""Reading what is drawn or compared: a list, or a sheet, which is flattened first."""
import re
from typing import BinaryIO

from .errors import Wrong
from .files import name_of, source
from .flattening import flattened
from .interrupting import stops_at_once
from .lists import MAGIC, Listing, listing_of, listing_of_answer
from .sheets import CHUNK, read_sheet
from .words import is_text

# A longer input is not drawn, and not read to its end: there is none where it is endless.
MOST_BYTES = 120_000_000
MOST_LINES = 2_000_000  # as many as such a list has, in round numbers
FIRST_WORD = re.compile(b"[0-9a-fA-F]{8}\r?\n")


class Limited:
    """A stream that is read up to the limit."""

    def __init__(self, name: str, stream: BinaryIO, done: str = "drawn") -> None:
        self.name, self.stream, self.left, self.done = name, stream, MOST_BYTES, done

    def read(self, size: int) -> bytes:
        """As a stream's; a sentence where it goes on past the limit."""
        data = self.stream.read(size)
        self.left -= len(data)
        if self.left < 0:
            raise Wrong(f"{self.name}: longer than {MOST_BYTES:,} bytes, so it is not read to its end and not {self.done}")
        return data

    def rest(self, first: bytes) -> bytes:
        """All that follows, behind what was read."""
        data = bytearray(first)
        while first:
            first = self.read(CHUNK)
            data += first
        return bytes(data)


def is_sheet(first: bytes) -> bool:
    """Whether a file that begins so is a sheet and not a list: its first line is a word, or it is packed."""
    return bool(FIRST_WORD.match(first)) or not (first.startswith(MAGIC) or is_text(first))


def read_listing(argument: str) -> Listing:
    """The list that an argument names, flattened first if it is a sheet."""
    name = name_of(argument)
    with source(argument) as stream:
        limited = Limited(name, stream)
        first = limited.read(CHUNK)
        if not is_sheet(first):
            return listing_of(name, limited.rest(first))
        sheet = read_sheet(name, limited, first)
    with stops_at_once():
        answer = flattened(sheet, MOST_LINES)
    if answer.refusal and answer.refusal.number == 6:
        raise Wrong(f"{name}: more than {MOST_LINES:,} lines, so it is not drawn; part the drawing")
    return listing_of_answer(name, answer)
