"""The check of a list of lines, as include/hinthevoun.h has it."""
import ctypes
from typing import Dict, NamedTuple

from .buffers import Lent, Words
from .opening import load

SOUND, BAD_NUMBER, UNBALANCED = 0, 1, 2

WHY: Dict[int, str] = {
    50: "more than 2,000 records",
    51: "the length is not a multiple of six",
}


class Verdict(NamedTuple):
    """What was found: SOUND, BAD_NUMBER or UNBALANCED, and the first such record, counted from 0."""

    kind: int
    record: int


class NotChecked(Exception):
    """A list that the library refused to look at.

    number  50 where it has more than 2,000 whole records, else 51 where its words are not whole records
    """

    def __init__(self, number: int) -> None:
        super().__init__(number)
        self.number = number

    def __str__(self) -> str:
        return f"refused {self.number}: {WHY.get(self.number, 'a refusal that this package does not know')}"


def check(lines: Words) -> Verdict:
    """Says whether a list of lines is sound: no coordinate is a NaN or an infinity and, for each path number separately,
    every point is a start as often as an end; +0 and -0 are one.

    lines  six words a line, as `flatten` stores them: any buffer of words, or a sequence of numbers; it is only read

    Raises NotChecked where the library refuses.
    """
    out = (ctypes.c_uint64 * 2)()
    with Lent("lines", lines, False) as span:
        number = load().hinth_check(span.address, span.size // 4, out, len(out))
    if number:
        raise NotChecked(number)
    return Verdict(*out)
