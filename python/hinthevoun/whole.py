"""The whole way in one call: path data of an SVG as a file for the knife table, as include/hinthevoun.h has it."""
import ctypes
from array import array
from contextlib import ExitStack
from enum import IntEnum
from typing import Dict, Sequence

from .buffers import Buffer
from .calls import WORDS_OF_A_LINE, WORDS_OF_A_PREFIX, lent_lists, words_of_span
from .cutting import Table
from .drawing import TAGS_OF_A_WORKGROUP, six
from .flattening import BYTES_OF_A_LINE, WORDS_OF_A_WORKGROUP, pages_for, room_for
from .importing import NOT_IMPORTED
from .opening import load
from .profiling import RULES
from .refusals import REASONS, UNKNOWN, Reason
from .sheets import memory

OWN_TAGS = 3  # of the sheet itself: before what the text drew 0x20 and 0x40, and behind it 0x10
TAGS_BEFORE = 2
OWN_WORDS = 8  # the transform and the style
OUT_OF_REACH = 30


class Stage(IntEnum):
    """The parts of the call, in their order."""

    TEXT = 1
    SHEET = 2
    SCAN = 3
    PROFILE = 4
    FLATTEN = 5
    CUT = 6


PLACES = {Stage.TEXT: "byte", Stage.SHEET: "words", Stage.SCAN: "tag", Stage.PROFILE: "tag", Stage.FLATTEN: "tag",
          Stage.CUT: "record"}
OF_CUT: Dict[int, Reason] = {
    OUT_OF_REACH: Reason("a coordinate is not a number or, rounded, outside what the table takes", "scale or move the drawing"),
    31: Reason("the whole command has no room", "lend a longer file"),
}
REASONS_OF: Dict[Stage, Dict[int, Reason]] = {
    Stage.TEXT: NOT_IMPORTED,
    Stage.SHEET: {80: Reason("the scene has no room for the sheet", "lend as many words as are told")},
    Stage.SCAN: REASONS,
    Stage.PROFILE: {**REASONS, **RULES},
    Stage.FLATTEN: REASONS,
    Stage.CUT: OF_CUT,
}


class NotCutText(Exception):
    """Path data of which the library made no file; `file` is as it was.

    number  the refusal: 60, 61 or 21 of the text, 80 of the sheet, 1 to 3 or 70 to 75 of the profile, 1 to 9 of the
            flattening, 30 or 31 of the cut
    stage   which part refused
    place   the byte of the text; the words that the sheet takes; the tag, counted from 0, of which the first two are the
            sheet's own; or the record, counted from 0
    """

    def __init__(self, number: int, stage: int, place: int) -> None:
        super().__init__(number, stage, place)
        self.number, self.stage, self.place = number, Stage(stage), place

    @property
    def reason(self) -> Reason:
        """Why, and what to mend."""
        return REASONS_OF[self.stage].get(self.number, UNKNOWN)

    def __str__(self) -> str:
        return f"refused {self.number} at {PLACES[self.stage]} {self.place}: {self.reason.why}"


def cut_text(text: bytes, transform: Sequence[float], table: int, tags: Buffer, points: Buffer, scene: Buffer, prefixes: Buffer,
             lines: Buffer, file: Buffer) -> int:
    """Makes a file for the knife table of path data, and returns how many bytes it has.

    text      absolute M, L, Q, C and Z of SVG 2, numbers without an exponent
    transform six numbers, each the nearest f32, as docs/SCENE.md has them; the second and third are zero
    table     Table.OLD takes -32767 to 32767, and Table.NEW -8388608 to 8388607
    tags      a writable buffer of bytes: what the text drew
    points    a writable buffer of words: its points
    scene     a writable buffer of words: the sheet
    prefixes  a writable buffer of words: those of `scan`
    lines     a writable buffer of words: the lines of path 0, as `flatten` stores them
    file      a writable buffer of bytes, which only a whole file changes

    Raises NotCutText where a part refuses.
    """
    numbers, table, out = six(transform), Table(table), (ctypes.c_uint64 * 3)()
    with ExitStack() as stack:
        written = {"tags": tags, "points": points, "scene": scene, "prefixes": prefixes, "lines": lines, "file": file}
        data, drawn, *words, room = lent_lists(stack, {"text": text}, written, ("text", "tags", "file"))
        lent = [number for span in words for number in words_of_span(span)]
        number = load().hinth_cut_text(*data, *numbers, table, *drawn, *lent, *room, out, len(out))
    count, stage, place = out
    if number:
        raise NotCutText(number, stage, place)
    return count


class Room:
    """Buffers with room for whatever a text can draw, so that none is refused for want of it while there is memory.

    A number takes two bytes of the text, with what parts it from the next, and the last one may take one. A segment has two
    numbers at least and writes one tag and a word for each number; the start of its subpath and a closing line may add
    four words and a tag. Of lines and bytes there is room for all that the machine has memory for, which is taken only as
    they are stored.
    """

    def __init__(self, text: bytes) -> None:
        numbers = len(text) // 2 + 1
        workgroups = -(-(numbers + OWN_TAGS) // TAGS_OF_A_WORKGROUP)
        words_of_tags = WORDS_OF_A_WORKGROUP * workgroups
        self.tags, self.points = bytearray(numbers), array("I", bytes(4 * 3 * numbers))
        self.scene = array("I", bytes(4 * (words_of_tags + 3 * numbers + OWN_WORDS)))
        self.prefixes = array("I", bytes(4 * WORDS_OF_A_PREFIX * words_of_tags))
        self.lines, self.file = room_for(memory() // BYTES_OF_A_LINE), pages_for(memory())

    def cut(self, text: bytes, transform: Sequence[float], table: int) -> bytes:
        """The file of a text. Raises NotCutText; the lines stand then, if there are any."""
        count = cut_text(text, transform, table, self.tags, self.points, self.scene, self.prefixes, self.lines, self.file)
        return bytes(self.file[:count])

    def line(self, record: int) -> memoryview:
        """The six words of a line that was stored."""
        return self.lines[WORDS_OF_A_LINE * record:WORDS_OF_A_LINE * (record + 1)]
