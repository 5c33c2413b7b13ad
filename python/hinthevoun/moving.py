"""Sheets moved to f32 points and back, as include/hinthevoun.h has it."""
import ctypes
from array import array
from contextlib import ExitStack
from typing import Dict, NamedTuple

from .buffers import Lent, Words
from .opening import load

WHY: Dict[int, str] = {
    40: "a tag that counts points has the wanted kind already",
    41: "a coordinate is no whole number from -32768 to 32767, or is -0",
    42: "no room for the tags or the points",
    43: "a counted point word is not there",
}


class Moved(NamedTuple):
    """A sheet's tags and point words, moved."""

    tags: bytes
    points: "array[int]"


class NotMoved(Exception):
    """A sheet that the library refused to move.

    number  40 at a tag of the wanted kind, 43 where a counted word is missing, 41 at a coordinate that does not go back
    at      the index of that tag, or of that word among the points
    """

    def __init__(self, number: int, at: int) -> None:
        super().__init__(number, at)
        self.number, self.at = number, at

    def __str__(self) -> str:
        what = "tag" if self.number == 40 else "point word"
        return f"refused {self.number} at {what} {self.at:,}: {WHY.get(self.number, 'a refusal that this package does not know')}"


def to_f32(tags: bytes, points: Words) -> Moved:
    """Moves a sheet of i16 points to f32 points: bit 0x08 in each tag that counts points, and two words a point.

    tags    the tag bytes, as many as there are
    points  the point words: any buffer of them, or a sequence of numbers; those that no tag counts are left out

    Raises NotMoved where the library refuses.
    """
    return _moved("hinth_to_f32", tags, points, 2)


def to_i16(tags: bytes, points: Words) -> Moved:
    """Moves a sheet of f32 points back to i16 points, if each counted coordinate is a whole number from -32768 to 32767 and
    not -0: the bit is cleared, and a point is one word. Arguments and refusals are those of `to_f32`, and 41.
    """
    return _moved("hinth_to_i16", tags, points, 1)


def _moved(name: str, tags: bytes, points: Words, words_of_a_point: int) -> Moved:
    """Room is lent for all that tags can count: four points each, at most."""
    tags = bytes(tags)
    new_tags, new_points = bytearray(len(tags)), array("I", [0]) * (4 * words_of_a_point * len(tags))
    out = (ctypes.c_uint64 * 3)()
    with ExitStack() as stack:
        lent = Lent("tags", tags, False, 1), Lent("points", points, False), Lent("new_tags", new_tags, True, 1), \
            Lent("new_points", new_points, True)
        read, words, kept, moved = map(stack.enter_context, lent)
        number = getattr(load(), name)(read.address, read.size, words.address, words.size // 4, kept.address, kept.size,
                                       moved.address, moved.size // 4, out, len(out))
    if number:
        raise NotMoved(number, out[2])
    return Moved(bytes(new_tags), new_points[:out[1]])
