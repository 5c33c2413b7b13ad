"""hinth profile: whether a sheet keeps to the profile for lay-up sheets."""
import struct
from typing import Optional, Tuple

from ..cli import DONE, REFUSED, Parser
from ..contents import F32, PATH, TYPE, words_at
from ..converting import heads_of
from ..files import name_of, source, target
from ..flattening import prefixes_of
from ..opening import load
from ..profiling import NotPassed, profile
from ..progress import Progress
from ..saying import count
from ..sheets import Sheet, read_sheet
from .flatten import place_in

HELP = """usage: hinth profile SHEET

Tests a sheet, before it is flattened, against the profile for lay-up sheets. Nothing is written but one sentence.

  SHEET    the sheet, as text or packed; - is standard input

Examples:

  hinth profile new.sheet                             may it go to the table
  hinth convert --to f32 old.sheet | hinth profile -  the same of an old sheet, moved first
  hinth draw --tag 7 new.sheet -o seventh.svg         which lines the tag draws that was told

The rules, in the order in which they are told; of a tag that breaks two the first is told, of two tags the first:

  70  no stroke style on segments and path tags
  71  no even-odd bit on them
  72  f32 points only
  73  one transform for the sheet, with no shear: the same six words for all segments, the second and third number zero
  74  every subpath finished by an end bit on a segment, and ending on its first point; no end bit on other tags. An
      unfinished subpath is told at its last segment
  75  at most 4,096 segments

Before all of them come refusals 1, 2 and 3, wherever they arise, as `hinth flatten` tells them. A sheet that passes and
that `hinth flatten` accepts is watertight: in the lines of each subpath every point is a start as often as an end.

One sentence on standard output says that the sheet passes; or which rule is broken, by which tag, in which path and between
which points, with what to mend. The exit status is 0 if it passes, 1 if it does not, 2 for bad input.
"""

Point = Tuple[float, float]


def arguments(parser: Parser) -> None:
    """What the command takes."""
    parser.add_argument("sheet", metavar="SHEET")


def point_at(sheet: Sheet, tag: int, offset: int, k: int) -> Optional[Point]:
    """A tag's point k, if it is there."""
    wide = tag & F32
    words = words_at(sheet, sheet.layout.data_base + offset + k * (2 if wide else 1), 2 if wide else 1)
    if words is None:
        return None
    x, y = struct.unpack("=2f" if wide else "=2h", struct.pack(f"={len(words)}I", *words))
    return x, y


def where_of(sheet: Sheet, at: int) -> str:
    """A tag's path, and of a segment the points that it leads from and to."""
    first = sheet.layout.tag_base
    tags = bytes(sheet.scene[first:first + at // 4 + 1])[:at + 1]
    if len(tags) <= at:
        return "behind the sheet's end"
    path, head = sum(1 for tag in tags[:at] if tag & PATH), list(heads_of(tags))[at]
    ends = [point_at(sheet, head.tag, head.offset, k) for k in (0, head.tag & TYPE)] if head.tag & TYPE else []
    told = " to ".join("({:.9g}, {:.9g})".format(*end) for end in ends if end)
    return f"path {path:,}" + (f", from {told}" if told else ", no segment" if not ends else "")


def sentence_of(sheet: Sheet) -> Tuple[int, str]:
    """The status, and what the library found."""
    try:
        passed = profile(*sheet.layout, sheet.scene, prefixes_of(sheet))
    except NotPassed as why:
        place = "" if why.number == 1 else f" ({place_in(sheet, why.tag)}; {where_of(sheet, why.tag)})"
        return REFUSED, f"refused {why.number} at tag {why.tag:,}{place}: {why.reason.why}; {why.reason.cure}"
    return DONE, f"passes: {count(passed.segments, 'segment')} in {count(passed.subpaths, 'subpath')}"


def run(options) -> int:
    """Reads, asks the library, and says what it found."""
    load()
    name = name_of(options.sheet)
    with Progress(f"testing {name}"):
        with source(options.sheet) as stream:
            sheet = read_sheet(name, stream)
        status, sentence = sentence_of(sheet)
    with target("-") as out:
        out.write(f"{name}: {sentence}\n".encode())
    return status
