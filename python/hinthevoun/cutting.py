"""Cuts for the knife table, as include/hinthevoun.h has them: a path's lines as HP-GL, and such a file back as lines."""
import ctypes
from array import array
from enum import IntEnum
from typing import Dict, NamedTuple, Optional

from .buffers import Buffer, Lent, Words
from .calls import WORDS_OF_A_LINE
from .opening import load

NUMBERS_OF_A_LINE = 4
START = b"IN;"
LONGEST = len(b"PU-8388608,-8388608;")


class Table(IntEnum):
    """The knife table that a reader is set to, as hinth_read_cut takes it."""

    OLD = 0
    NEW = 1


REACH = {Table.OLD: (-32767, 32767), Table.NEW: (-8388608, 8388607)}


def reach_of(table: Table) -> str:
    """`-32767 to 32767`."""
    least, greatest = REACH[table]
    return f"{least} to {greatest}"


class Stop(NamedTuple):
    """What is told of a refusal: what the place is, what stands, and why."""

    at: str
    stands: str
    why: str


STOPS: Dict[int, Stop] = {
    30: Stop("record", "bytes", f"a coordinate is not a number or, rounded, outside {reach_of(Table.NEW)}"),
    31: Stop("record", "bytes", "the whole command has no room"),
    32: Stop("byte", "lines", "a number is outside what the table takes"),
    33: Stop("byte", "lines", "it is not HP-GL as the knife table reads it"),
    34: Stop("byte", "lines", "a line has no room"),
}


class NotCut(Exception):
    """What the library refused to write or to read whole.

    number  the refusal: 30 or 31 of a writing, 32, 33 or 34 of a reading
    stands  how many bytes were written, or how many lines read
    place   the record, counted from 0, or the position in the file
    """

    def __init__(self, number: int, stands: int, place: int) -> None:
        super().__init__(number, stands, place)
        self.number, self.stands, self.place = number, stands, place

    def __str__(self) -> str:
        stop = STOPS.get(self.number, Stop("place", "parts", "a refusal that this package does not know"))
        return f"refused {self.number} at {stop.at} {self.place}: {stop.why}; {self.stands} {stop.stands} stand"


def cut(lines: Words, path: int, file: Buffer) -> int:
    """Writes the lines of one path as HP-GL, and returns how many bytes.

    lines  six words a line, as `flatten` stores them: any buffer of words, or a sequence of numbers; it is only read
    path   whose lines are written; all others do not matter
    file   a writable buffer of bytes; those behind the file stay as they are

    Raises NotCut where the library refuses. The commands before it stand then: `stands` says how many bytes.
    """
    if not 0 <= path < 2**32:
        raise ValueError(f"path is {path}, which is no word of 32 bits")
    out = (ctypes.c_uint64 * 2)()
    with Lent("lines", lines, False) as words, Lent("file", file, True, 1) as room:
        if room.overlaps(words):
            raise ValueError("file is written and overlaps lines")
        number = load().hinth_cut(words.address, words.size // 4, path, *room, out, len(out))
    if number:
        raise NotCut(number, *out)
    return out[0]


def read_cut(file: Words, table: int, lines: Buffer) -> int:
    """Reads the lines of such a file as a table does, and returns how many.

    file   its bytes: any buffer of them, or a sequence of numbers; it is only read
    table  Table.OLD takes -32767 to 32767, and Table.NEW -8388608 to 8388607
    lines  a writable buffer of signed words, as array('i') is, four a line: x and y of its start and of its end; those
           behind the last line stay as they are

    Raises NotCut where the library refuses. The lines before it stand then: `stands` says how many.
    """
    table = Table(table)
    out = (ctypes.c_uint64 * 2)()
    with Lent("file", file, False, 1) as data, Lent("lines", lines, True) as room:
        if room.overlaps(data):
            raise ValueError("lines is written and overlaps file")
        number = load().hinth_read_cut(*data, table, room.address, room.size // 4, out, len(out))
    if number:
        raise NotCut(number, *out)
    return out[0]


def hpgl_of(lines: "array[int]", path: int) -> bytes:
    """The file of a path, whole, with room for all its commands."""
    records = lines[0::WORDS_OF_A_LINE].count(path)
    file = bytearray(len(START) + 2 * LONGEST * records)
    return bytes(file[:cut(lines, path, file)])


def lines_of_hpgl(file: bytes, table: Table) -> "array[int]":
    """The lines of a file that a table takes, whole, four numbers each."""
    lines = array("i", bytes(4 * NUMBERS_OF_A_LINE * file.count(b"PD")))
    return lines[:NUMBERS_OF_A_LINE * read_cut(file, table, lines)]


def outside(file: bytes, table: Table) -> Optional[int]:
    """Where a file of the form has its first number that the table does not take, if it has one."""
    try:
        lines_of_hpgl(file, table)
    except NotCut as why:
        if why.number == 32:
            return why.place
        raise
    return None


def record_at(lines: "array[int]", path: int, position: int) -> int:
    """The record that wrote the byte at a position of the path's file: the first records alone write the file's beginning."""
    low, high = 0, len(lines) // WORDS_OF_A_LINE
    while high - low > 1:
        middle = (low + high) // 2
        if len(hpgl_of(lines[:middle * WORDS_OF_A_LINE], path)) > position:
            high = middle
        else:
            low = middle
    return low
