"""Reading the records of a list, whoever made it: what flatlist prints, its records alone, or packed words."""
from array import array
from typing import NamedTuple, Optional

from .calls import WORDS_OF_A_LINE
from .errors import Wrong
from .files import name_of, source
from .lists import BOX, FORM, HEAD, MAGIC, RECORD_ROW, Boxes, check_ends, packed_parts, text_parts
from .reading import FIRST_WORD, Limited
from .saying import quoted
from .sheets import CHUNK
from .words import are_rows, in_order, is_text, rows_of, words_of

ASK = "the list was cut short or changed: ask for it again"


class Records(NamedTuple):
    """The words of a list, the sentence of a refusal that stands before them, the file's line of the first record, 0 where
    the words are packed; and the boxes behind them, None where the file has records alone."""

    name: str
    refusal: str
    words: "array[int]"
    line: int
    boxes: Optional[Boxes]

    @property
    def rows(self) -> "list[tuple[int, ...]]":
        """The whole records, six words each."""
        return list(zip(*[iter(self.words)] * WORDS_OF_A_LINE))


def read_records(argument: str, done: str = "checked") -> Records:
    """The list that an argument names, in the form that its first bytes show; `done` is what is to be done with it."""
    return records_of(name_of(argument), read_bytes(argument, done))


def read_bytes(argument: str, done: str) -> bytes:
    """All of a file, up to the limit; `done` is what is to be done with it."""
    with source(argument) as stream:
        limited = Limited(name_of(argument), stream, done)
        return limited.rest(limited.read(CHUNK))


def records_of(name: str, data: bytes) -> Records:
    """The list that a file's bytes are."""
    if not data:
        raise Wrong(f"{name}: empty; a list without lines is the one row 'lines 0', so something was lost: ask for it again")
    if data.startswith(MAGIC):
        refusal, words, boxes = packed_parts(name, data)
        return Records(name, refusal, words, 0, boxes)
    return text_records(name, data) if is_text(data) else packed_records(name, data)


def packed_records(name: str, data: bytes) -> Records:
    """Little-endian words without a head."""
    if len(data) % 4:
        raise Wrong(f"{name}: it is not text, and its {len(data):,} bytes are not whole words of four; {ASK}")
    return Records(name, "", in_order(array("I", data)), 0, None)


def text_records(name: str, data: bytes) -> Records:
    """Rows of six words, or a whole answer of flatlist."""
    check_ends(name, data)
    if FIRST_WORD.match(data):
        raise Wrong(f"{name}: a sheet and not a list; `hinth flatten` makes its list, which this command takes from standard input")
    if RECORD_ROW.match(data):
        return Records(name, "", words_of_rows(name, data), 1, None)
    refusal, words, boxes = text_parts(name, data)
    return Records(name, refusal, words, 2, boxes)


def words_of_rows(name: str, data: bytes) -> "array[int]":
    """The words of records alone; the last line's end may be missing."""
    text = data if data.endswith(b"\n") else data + b"\n"
    if not are_rows(text, WORDS_OF_A_LINE):
        rows = enumerate(text.split(b"\n")[:-1], 1)
        number, row = next((number, row) for number, row in rows if not RECORD_ROW.fullmatch(row))
        raise Wrong(f"{name}:{number}: not a record, which is six words of eight lowercase hex digits: {quoted(row)}; {ASK}")
    return words_of(text)


def with_lines(records: Records, more: "array[int]") -> bytes:
    """The list with lines behind its own, in the form that it was read in; it has no refusal."""
    words, boxes = records.words + more, records.boxes
    lines = len(words) // WORDS_OF_A_LINE
    if records.line:
        head = b"" if boxes is None else f"lines {lines}\n".encode()
        return head + rows_of(words, WORDS_OF_A_LINE) + b"".join(b"box %d %d %d %d %d %d\n" % box for box in boxes or [])
    head = b"" if boxes is None else HEAD.pack(MAGIC, FORM, 0, 0, 0, 0, lines, len(boxes), 0, 0, 0, 0)
    return head + in_order(words).tobytes() + b"".join(BOX.pack(*box) for box in boxes or [])
