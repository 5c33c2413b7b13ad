"""hinth check: whether a list of lines is sound, whoever made it."""
import math
import struct
from typing import List, Tuple

from ..checking import BAD_NUMBER, SOUND, NotChecked, Verdict, check
from ..cli import DONE, REFUSED, Parser
from ..errors import Wrong
from ..files import target
from ..opening import load
from ..progress import Progress
from ..records import Records, read_records
from ..saying import count

HELP = """usage: hinth check LIST

Checks a list of lines, of this shop or another: no coordinate is a NaN or an infinity and, for each path number
separately, every point is a start as often as an end. +0 and -0 are one; the second word of a record, its tag, is ignored.

  LIST    the list: what flatlist or `hinth flatten` writes, as text or packed; or its records alone, six words of eight hex
          digits a line, or packed little-endian words without a head; - is standard input

Examples:

  hinth check samples/socket.lines                    a list in a file
  hinth flatten part.sheet | hinth check -            what a sheet draws
  grep -v box part.lines | tail -n +2 | hinth check - records alone

One sentence on standard output says that the list is sound; or what is wrong, in which record, counted from 0, and at which
point of which path: the first record with a bad number or, if there is none, the first whose start or end is out of balance.
A stroke may be out of balance by a last bit and still be well drawn; a closed fill never is (docs/WATERTIGHT.md).

The exit status is 0 for a sound list; 1 for one that is not, and for one that says that it was refused, since it is not
whole; 2 for bad input, and for a list that is not looked at: one of more than 2,000 records (refusal 50), or of words that
are not whole records (51).
"""

Point = Tuple[float, float]


def arguments(parser: Parser) -> None:
    """What the command takes."""
    parser.add_argument("list", metavar="LIST")


def ends_of(record: Tuple[int, ...]) -> List[Tuple[str, Point]]:
    """The start and the end of a record, as numbers."""
    x0, y0, x1, y1 = struct.unpack("=4f", struct.pack("=4I", *record[2:]))
    return [("start", (x0, y0)), ("end", (x1, y1))]


def told(point: Point) -> str:
    """A point in digits that lead back to it."""
    return "({:.9g}, {:.9g})".format(*point)


def times(n: int) -> str:
    """How often."""
    return ("never", "once")[n] if n < 2 else f"{n:,} times"


def bad_ends(record: Tuple[int, ...]) -> str:
    """Which point of a record has a bad number."""
    bad = [(end, point) for end, point in ends_of(record) if not all(map(math.isfinite, point))]
    return " and ".join(f"its {end} {told(point)}" for end, point in bad) + f" in path {record[0]:,}"


def open_ends(records: Records, record: Tuple[int, ...]) -> str:
    """Which point of a record is out of balance in its path, and by how much. Numbers are compared, so +0 and -0 are one."""
    ends = [[end for _, end in ends_of(row)] for row in records.rows if row[0] == record[0]]
    found = []
    for end, point in ends_of(record):
        starts, stops = (sum(pair[place] == point for pair in ends) for place in (0, 1))
        if starts != stops:
            found.append(f"its {end} {told(point)} in path {record[0]:,} is a start {times(starts)} and an end {times(stops)}")
    return ", and ".join(dict.fromkeys(found))


def sentence_of(records: Records, verdict: Verdict) -> str:
    """What the check found."""
    if verdict.kind == SOUND:
        paths = len({row[0] for row in records.rows})
        return f"sound: {count(len(records.rows), 'record')} in {count(paths, 'path')}"
    record = records.rows[verdict.record]
    line = f" (line {records.line + verdict.record:,})" if records.line else ""
    place = f"record {verdict.record:,}, counted from 0{line}"
    if verdict.kind == BAD_NUMBER:
        return f"{place}, has a bad number: {bad_ends(record)}"
    return f"{place}, is out of balance: {open_ends(records, record)}"


def run(options) -> int:
    """Reads, asks the library, and says what it found."""
    load()
    with Progress("checking"):
        records = read_records(options.list)
        try:
            verdict = check(records.words)
        except NotChecked as why:
            raise Wrong(f"{records.name}: {why}; nothing of it was looked at") from None
        sentence = f"{records.name}: {sentence_of(records, verdict)}"
    if records.refusal:
        sentence += f"; and the list is not whole: {records.refusal}"
    with target("-") as out:
        out.write(f"{sentence}\n".encode())
    return DONE if verdict.kind == SOUND and not records.refusal else REFUSED
