"""Sheets: six words and a scene, in flatlist's form or packed, of any size."""
import os
import sys
from array import array
from typing import NamedTuple, Protocol, Union

from .calls import Layout
from .errors import Wrong
from .saying import count, quoted
from .words import WORD, are_rows, in_order, is_text, words_of

HEAD = 6  # words before the scene
LINE = 9  # bytes: eight digits and the end
CHUNK = LINE << 16  # bytes read at once
FEWEST_BOXES = 16  # which flatlist lends to the smallest scene

Numbers = Union["array[int]", memoryview]


class Readable(Protocol):
    """A stream, or what reads one for us."""

    def read(self, size: int) -> bytes:
        """So many bytes, or less at the end."""


class Sheet(NamedTuple):
    """What a file holds: the numbers of the call, how many boxes are lent, and the words of the scene."""

    name: str
    layout: Layout
    boxes: int
    scene: memoryview
    packed: bool


def memory() -> int:
    """Half of this machine's memory, in bytes: no list is let grow past it."""
    return os.sysconf("SC_PAGE_SIZE") * os.sysconf("SC_PHYS_PAGES") // 2


def read_sheet(name: str, stream: Readable, first: bytes = b"") -> Sheet:
    """The sheet in a stream, of which some bytes may have been read before."""
    first = first or stream.read(CHUNK)
    packed = not is_text(first)
    words: Numbers = packed_words(name, stream, first) if packed else text_words(name, stream, first)
    if len(words) < HEAD:
        where = f"{name}:{len(words)}" if words and not packed else name
        raise Wrong(f"{where}: the sheet ends here, and six words stand before a scene; export it again"
                    if words else f"{where}: empty, and a sheet has at least six words; export it again")
    return sheet_of(name, words, packed)


def sheet_of(name: str, words: Numbers, packed: bool) -> Sheet:
    """The sheet that the words are. More boxes than the scene could have paths are a sign of damage."""
    layout, boxes, scene = Layout(*words[:5]), words[5], memoryview(words)[HEAD:]
    most = max(FEWEST_BOXES, 4 * len(scene))
    if boxes > most:
        where = f"{name}, word 6" if packed else f"{name}:6"
        raise Wrong(f"{where}: asks for {boxes:,} boxes, and {count(len(scene), 'word')} of a scene have at most {most:,} "
                    "paths; it is damaged, or no sheet: export it again")
    return Sheet(name, layout, boxes, scene, packed)


def packed_words(name: str, stream: Readable, first: bytes) -> memoryview:
    """Little-endian words, four bytes each."""
    data, most = bytearray(first), memory()
    while first and len(data) <= most:
        first = stream.read(CHUNK)
        data += first
    if len(data) > most:
        raise too_long(name, most)
    if len(data) % 4:
        raise Wrong(f"{name}: not a sheet: it is not text, and its {len(data):,} bytes are not whole words of four; "
                    "it is damaged or of another kind: export it again")
    words = memoryview(data).cast("I")
    return words if sys.byteorder == "little" else memoryview(in_order(array("I", words)))


def text_words(name: str, stream: Readable, text: bytes) -> "array[int]":
    """Words of eight lowercase hex digits, one a line; the last line's end may be missing."""
    words, most = array("I"), memory() // 4
    while text:
        more = stream.read(CHUNK) if len(text) == CHUNK else b""
        if not more and not text.endswith(b"\n"):
            text += b"\n"
        if not are_rows(text, 1):
            raise wrong_row(name, len(words), text + more[:100], not more)
        words.extend(words_of(text))
        if len(words) > most:
            raise too_long(name, 9 * most)
        text = more
    return words


def too_long(name: str, most: int) -> Wrong:
    return Wrong(f"{name}: longer than {most:,} bytes, and this machine has no memory for more; part the drawing")


def wrong_row(name: str, before: int, text: bytes, is_last: bool) -> Wrong:
    """What is wrong with the first row of text that is no word, behind so many rows."""
    rows = text.split(b"\n")
    at = next(i for i, row in enumerate(rows) if not WORD.fullmatch(row))
    ends = is_last and at == len(rows) - 2
    return Wrong(f"{name}:{before + at + 1}: {about_row(rows[at], ends)}")


def about_row(row: bytes, is_last: bool) -> str:
    """Why a row is no word, and the cure."""
    if b"\r" in row[:-1]:
        return r"the lines end in CR alone; `tr '\r' '\n'` makes that LF, as it must be"
    if row.endswith(b"\r"):
        return r"the line has Windows' end, CR LF; `tr -d '\r'` makes it LF, as it must be"
    if WORD.fullmatch(row.lower()):
        return f"not a word of eight lowercase hex digits: {quoted(row)}; `tr A-F a-f` makes them small, as they must be"
    if is_last and row and WORD.match(row + b"0" * 8):
        return f"not a word of eight lowercase hex digits: {quoted(row)}; the file was cut short here: export it again"
    if not row:
        return "not a word of eight lowercase hex digits: ''; the line is empty: take it out"
    return f"not a word of eight lowercase hex digits: {quoted(row)}; this is no sheet, or damaged: export it again"
