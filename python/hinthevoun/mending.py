"""The mending of a list of lines, as include/hinthevoun.h has it."""
import ctypes
from array import array
from contextlib import ExitStack
from typing import Dict, List, NamedTuple, Tuple

from .buffers import Buffer, Words
from .calls import WORDS_OF_A_LINE, lent_lists, word_for, words_of_span
from .opening import load

SOUND, MENDED, NOT_MENDED = 0, 1, 2
APPENDED = 0xffffffff  # the second word of an appended line

WHY: Dict[int, str] = {
    50: "more than 2,000 records",
    51: "the length is not a multiple of six",
    52: "a coordinate is a NaN or an infinity",
    53: "no room for the appended lines or the report, or more than 2,000 records afterwards",
}


class Mended(NamedTuple):
    """How many paths the report has, and how many lines were appended."""

    paths: int
    lines: int


class PathCase(NamedTuple):
    """What was done about a path: SOUND, MENDED or NOT_MENDED, and the bits of the appended line's points, or zeros."""

    path: int
    kind: int
    points: Tuple[int, ...]


class NotMendable(Exception):
    """A list that the library refused to mend; nothing was written.

    number  50 too many records, 51 words left over, 52 a bad number, 53 no room
    first   at 52 the record, counted from 0; at 53 how many paths the report would have
    second  at 53 how many lines would be appended
    """

    def __init__(self, number: int, first: int = 0, second: int = 0) -> None:
        super().__init__(number, first, second)
        self.number, self.first, self.second = number, first, second

    def __str__(self) -> str:
        place = f" in record {self.first:,}, counted from 0" if self.number == 52 else ""
        return f"refused {self.number}: {WHY.get(self.number, 'a refusal that this package does not know')}{place}"


def mend(lines: Words, within: int, room: Buffer, report: Buffer) -> Mended:
    """Appends to a list, in `room`, the line that each path lacks whose one gap is at most `within` units wide in x and in y,
    and writes the report, six words a path, in order of first appearance. `report_of` reads it.

    lines   six words a line, as `flatten` stores them: any buffer of words, or a sequence of numbers; it is only read
    room    a buffer for the appended lines, which may stand right behind the list; report  a buffer for the report

    Raises NotMendable where the library refuses, which changes nothing.
    """
    out = (ctypes.c_uint64 * 2)()
    with ExitStack() as stack:
        read, *written = lent_lists(stack, {"lines": lines}, {"room": room, "report": report})
        places = [part for span in written for part in words_of_span(span)]
        number = load().hinth_mend(*words_of_span(read), word_for("within", within), *places, out, len(out))
    if number:
        raise NotMendable(number, *out)
    return Mended(*out)


def report_of(report: Words) -> List[PathCase]:
    """The paths of a report."""
    rows = zip(*[iter(report)] * WORDS_OF_A_LINE)
    return [PathCase(path, kind, tuple(points)) for path, kind, *points in rows]


def mended_of(lines: "array[int]", within: int) -> Tuple["array[int]", List[PathCase]]:
    """The appended lines, and the report, with as much room as they need."""
    most = len(lines) // WORDS_OF_A_LINE
    room, report = (array("I", bytes(4 * WORDS_OF_A_LINE * most)) for _ in range(2))
    paths, count = mend(lines, within, room, report)
    return room[:WORDS_OF_A_LINE * count], report_of(report[:WORDS_OF_A_LINE * paths])
