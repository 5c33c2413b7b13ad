"""Lists of lines: reading and writing what flatlist writes, and the same in packed words.

A packed list is little-endian words: a head of twelve, then six for each line, then six for each box. The head is the
letters HLST, the form's number 1, the refusal or 0, the end that it tells, the tag in turn in two words with the low one
first, the number of lines, the number of boxes, and four zeros.
"""
import re
import struct
import sys
from array import array
from typing import Callable, Iterable, List, NamedTuple, Tuple, Union

from .calls import EMPTY_BOX, WORDS_OF_A_LINE
from .columns import Lines, lines_of_numbers, lines_of_words, moves_between, no_lines
from .cutting import REACH, NotCut, Table, lines_of_hpgl, outside
from .errors import Wrong
from .flattening import Answer
from .refusals import REASONS, Refusal
from .saying import count, quoted
from .words import are_rows, in_order, rows_of, words_of

MAGIC, FORM = b"HLST", 1
HEAD = struct.Struct("<4s5I2I4I")
BOX = struct.Struct("<4i2I")
AGAIN = "the list was cut short or changed: flatten the sheet again"
LINES_AT_ONCE = 1 << 13  # what is worked on together stays in the processor's cache

RECORD_ROW = re.compile(b"[0-9a-f]{8}( [0-9a-f]{8}){5}")
BOX_ROW = re.compile(b"box( -?[0-9]{1,10}){4}( [0-9]{1,10}){2}")

Boxes = List[Tuple[int, ...]]


class Parts(NamedTuple):
    """What stands in a list: the refusal's sentence, empty where there is none; the words of the records; the boxes."""

    refusal: str
    words: "array[int]"
    boxes: Boxes


class Listing(NamedTuple):
    """A list as it is drawn. The refusal is empty where the call was accepted; a box is its six numbers; the moves are
    those of a knife with the pen up, `outside` its lines that the old table does not take, and `table` says which tables take
    its file."""

    name: str
    refusal: str
    lines: Lines
    boxes: Boxes
    moves: Lines = no_lines()
    outside: Lines = no_lines()
    table: str = ""


# ---- writing


def text_of(answer: Answer) -> Iterable[Union[bytes, bytearray]]:
    """The answer as flatlist writes it, in parts."""
    refusal, words = answer.refusal, answer.lines
    yield (f"refused {refusal.number} at {refusal.tag}\n" if refusal
           else f"lines {len(words) // WORDS_OF_A_LINE}\n").encode()
    step = LINES_AT_ONCE * WORDS_OF_A_LINE
    for first in range(0, len(words), step):
        yield rows_of(words[first:first + step], WORDS_OF_A_LINE)
    for first in range(0, len(answer.boxes), step):
        yield box_rows(answer.boxes[first:first + step])


def box_rows(boxes: "array[int]") -> bytes:
    """The rows of some boxes: four signed numbers each, and two that are not."""
    numbers, unsigned = boxes.tolist(), array("I", boxes.tobytes())
    for column in (4, 5):
        numbers[column::6] = unsigned[column::6]
    return ("box %d %d %d %d %d %d\n" * (len(numbers) // 6) % tuple(numbers)).encode()


def packed_of(answer: Answer) -> Iterable[Union[bytes, memoryview]]:
    """The answer as a packed list, in parts."""
    refusal = answer.refusal or Refusal(0)
    boxes = len(answer.boxes) // 6
    yield HEAD.pack(MAGIC, FORM, refusal.number, refusal.end, refusal.tag % 2**32, refusal.tag >> 32,
                    len(answer.lines) // WORDS_OF_A_LINE, boxes, 0, 0, 0, 0)
    for words in (answer.lines, memoryview(answer.boxes)):
        yield words if sys.byteorder == "little" else in_order(array("I", bytes(words))).tobytes()


def boxes_of(answer: Answer) -> Boxes:
    """The boxes of an answer, each its six numbers."""
    return list(struct.iter_unpack("=4i2I", answer.boxes))


# ---- reading


def listing_of_answer(name: str, answer: Answer) -> Listing:
    """The answer, as it is drawn."""
    refusal = answer.refusal.sentence if answer.refusal else ""
    return Listing(name, refusal, lines_of_words(answer.lines), boxes_of(answer))


def listing_of(name: str, data: bytes) -> Listing:
    """The list that a file's bytes are."""
    if data.startswith(MAGIC):
        return packed_listing(name, data)
    return cut_listing(name, data) if data.startswith(b"IN") else text_listing(name, data)


def wrong_at(name: str, number: int, why: str) -> Wrong:
    return Wrong(f"{name}:{number}: {why}")


def packed_listing(name: str, data: bytes) -> Listing:
    """A packed list, as it is drawn."""
    refusal, words, boxes = packed_parts(name, data)
    check_records(words, lambda row, why: Wrong(f"{name}: record {row + 1:,}: {why}"))
    return Listing(name, refusal, lines_of_words(words), boxes)


def cut_listing(name: str, data: bytes) -> Listing:
    """A file for the knife table, as it is drawn: its lines are those of one path, which it does not name."""
    try:
        numbers = lines_of_hpgl(data, Table.NEW)
        table = "both tables" if outside(data, Table.OLD) is None else "the new table only"
    except NotCut as why:
        raise Wrong(f"{name}: {why}; the file was cut short or changed: cut the list again") from None
    lines = lines_of_numbers(numbers)
    return Listing(name, "", lines, [], moves_between(lines), lines.at(lines_outside(numbers, Table.OLD)), table)


def lines_outside(numbers: "array[int]", table: Table) -> List[int]:
    """The indexes of the lines of four numbers that a table does not take."""
    least, greatest = REACH[table]
    ends = zip(numbers[0::4], numbers[1::4], numbers[2::4], numbers[3::4])
    return [index for index, line in enumerate(ends) if min(line) < least or max(line) > greatest]


def packed_parts(name: str, data: bytes) -> Parts:
    """What stands in a packed list, which is as long as its head says."""
    if len(data) < HEAD.size:
        raise Wrong(f"{name}: a packed list that ends in its head; {AGAIN}")
    _, form, number, end, low, high, lines, boxes, *_ = HEAD.unpack_from(data)
    if form != FORM:
        raise Wrong(f"{name}: a packed list of form {form}, and this version reads form {FORM}")
    size = HEAD.size + 24 * (lines + boxes)
    if len(data) != size:
        raise Wrong(f"{name}: a packed list of {size:,} bytes by its head, and {len(data):,} are there; {AGAIN}")
    behind = HEAD.size + 24 * lines
    refusal = Refusal(number, low + (high << 32), lines, end).sentence if number else ""
    return Parts(refusal, in_order(array("I", data[HEAD.size:behind])), list(BOX.iter_unpack(data[behind:])))


def text_listing(name: str, data: bytes) -> Listing:
    """The list that flatlist wrote, as it is drawn."""
    refusal, words, boxes = text_parts(name, data)
    check_records(words, lambda row, why: wrong_at(name, row + 2, why))
    return Listing(name, refusal, lines_of_words(words), boxes)


def text_parts(name: str, data: bytes) -> Parts:
    """What stands in the list that flatlist wrote."""
    if not data:
        raise wrong_at(name, 1, f"empty; {AGAIN}")
    check_ends(name, data)
    data = data if data.endswith(b"\n") else data + b"\n"
    behind_first = data.index(b"\n") + 1
    promised, refusal = answer_of(name, data[:behind_first - 1])
    place = data.find(b"\nbox ")
    behind = len(data) if place < 0 else place + 1
    words = records_of_text(name, data[behind_first:behind], 2)
    lines = len(words) // WORDS_OF_A_LINE
    boxes = [box_of(name, number, row) for number, row in enumerate(data[behind:].split(b"\n")[:-1], lines + 2)]
    if promised not in (None, lines):
        raise wrong_at(name, 1, f"promises {count(promised, 'line')}, and {lines} follow; {AGAIN}")
    return Parts(refusal, words, boxes)


def check_ends(name: str, data: bytes) -> None:
    place = data.find(b"\r\n")
    if place >= 0:
        number = data.count(b"\n", 0, place) + 1
        raise wrong_at(name, number, r"the line has Windows' end, CR LF; `tr -d '\r'` makes it LF, as it must be")


def answer_of(name: str, row: bytes) -> tuple:
    """How many lines the first row promises, None at a refusal; and the refusal."""
    counted = re.fullmatch(b"lines ([0-9]{1,10})", row)
    refused = re.fullmatch(b"refused ([0-9]{1,2}) at ([0-9]{1,20})", row)
    if counted:
        return int(counted[1]), ""
    if refused and int(refused[1]) in REASONS:
        return None, Refusal(*map(int, refused.groups())).sentence
    if row == b"bad input":
        raise wrong_at(name, 1, "flatlist's 'bad input': the sheet was not in the form, and there is no list; "
                                "`hinth info` on the sheet says where")
    raise wrong_at(name, 1, f"neither 'lines N', 'refused R at T' nor a sheet's first word: {quoted(row)}; "
                            "name a list or a sheet")


def wrong_row(name: str, number: int, row: bytes) -> Wrong:
    return wrong_at(name, number, f"neither a record of six words nor, behind the records, a box: {quoted(row)}; {AGAIN}")


def records_of_text(name: str, text: bytes, first: int) -> "array[int]":
    """The words of rows that are records, from the line `first` of a file on."""
    if not are_rows(text, WORDS_OF_A_LINE):
        rows = enumerate(text.split(b"\n")[:-1], first)
        raise wrong_row(name, *next((number, row) for number, row in rows if not RECORD_ROW.fullmatch(row)))
    return words_of(text)


def check_records(words: "array[int]", wrong: Callable[[int, str], Wrong]) -> None:
    """No coordinate is a NaN, or the first column's first that is one is told by its row."""
    for place in range(2, 6):
        column = words[place::6]
        if any(map(is_nan, column)):
            raise wrong(list(map(is_nan, column)).index(True),
                        f"a coordinate is not a number, which flatlist never writes; {AGAIN}")


def is_nan(bits: int) -> bool:
    """Its bits but the sign are above those of infinity."""
    return bits & 0x7fffffff > 0x7f800000


def box_of(name: str, number: int, row: bytes) -> Tuple[int, ...]:
    """A box, whose corners are in order unless it is the empty one."""
    if not BOX_ROW.fullmatch(row):
        raise wrong_row(name, number, row)
    box = tuple(int(field) for field in row.split(b" ")[1:])
    x0, y0, x1, y1 = box[:4]
    if not all(-2**31 <= corner < 2**31 for corner in box[:4]):
        raise wrong_at(name, number, f"a box's corner is past 32 bits; {AGAIN}")
    if box[:4] != EMPTY_BOX[:4] and (x0 > x1 or y0 > y1):
        raise wrong_at(name, number, f"a box's corners are out of order, which flatlist never writes; {AGAIN}")
    return box
