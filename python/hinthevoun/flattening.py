"""Flattening a sheet: one call of the library, with all the room that its lines need."""
import mmap
from array import array
from typing import NamedTuple, Optional

from .calls import WORDS_OF_A_LINE, WORDS_OF_A_PREFIX, empty_boxes, flatten, scan
from .refusals import Refusal
from .sheets import Sheet, memory

BYTES_OF_A_LINE = 4 * WORDS_OF_A_LINE
WORDS_OF_A_WORKGROUP = 64
MOST_LINES = 2**32 - 1  # the library counts no more
FEWEST_BYTES = 1000 * BYTES_OF_A_LINE  # with less there is no use in going on


class Answer(NamedTuple):
    """What a call left: its refusal if it was refused, the words of its lines, six each, and of its boxes."""

    refusal: Optional[Refusal]
    lines: memoryview
    boxes: "array[int]"
    room: int


def flattened(sheet: Sheet, most: Optional[int] = None) -> Answer:
    """What the library answers, with room for so many lines, or else for all that this machine has memory for."""
    boxes, lines = empty_boxes(sheet.boxes), room_for(memory() // BYTES_OF_A_LINE if most is None else most)
    refusal = None
    try:
        prefixes = prefixes_of(sheet)
        stored = flatten(*sheet.layout, sheet.scene, prefixes, boxes, lines)
    except Refusal as refused:
        refusal, stored = refused, refused.count
    return Answer(refusal, lines[:WORDS_OF_A_LINE * stored], boxes, len(lines) // WORDS_OF_A_LINE)


def prefixes_of(sheet: Sheet) -> "array[int]":
    """The sums over the tags: for each word of them, and for the word behind, where a stroke's next tag may stand."""
    wanted = WORDS_OF_A_WORKGROUP * sheet.layout.n_wg + 1
    there = max(0, len(sheet.scene) - sheet.layout.tag_base)
    prefixes = array("I", [0]) * (WORDS_OF_A_PREFIX * min(wanted, there))
    if sheet.layout.tag_base <= len(sheet.scene):  # else the call itself refuses
        scan(sheet.scene, sheet.layout.tag_base, prefixes)
    return prefixes


def room_for(lines: int) -> memoryview:
    """Room for so many lines, or for as many as the system gives. Memory is taken only as lines are stored there, so
    the library is called once, however many there will be."""
    lines = min(lines, MOST_LINES)
    if not lines:
        return memoryview(array("I"))
    pages = pages_for(BYTES_OF_A_LINE * lines)
    return pages[:len(pages) // BYTES_OF_A_LINE * BYTES_OF_A_LINE].cast("I")


def pages_for(size: int) -> memoryview:
    """Room for so many bytes, or for as many as the system gives, of which memory is taken as they are written."""
    try:
        return memoryview(mmap.mmap(-1, size, flags=mmap.MAP_PRIVATE | mmap.MAP_ANON))
    except (OSError, MemoryError, OverflowError):
        if size < FEWEST_BYTES:
            raise MemoryError from None
        return pages_for(size // 4)
