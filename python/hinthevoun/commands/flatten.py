"""hinth flatten: a sheet in, its lines and boxes out."""
import os
from typing import Optional

from ..cli import DONE, REFUSED, Parser
from ..errors import Wrong
from ..files import name_of, same, source, target
from ..flattening import flattened
from ..interrupting import stops_at_once
from ..lists import packed_of, text_of
from ..opening import load
from ..progress import Progress
from ..refusals import Refusal
from ..saying import say
from ..sheets import Sheet, read_sheet

HELP = """usage: hinth flatten [-o LIST] [--binary] [--keep] [--room LINES] SHEET

Flattens a sheet: writes its lines and boxes, as flatlist does, for a sheet of any size.

  SHEET         the sheet: words of eight hex digits, one a line, or packed little-endian words; - is standard input
  -o LIST       writes the list there, and only if it is whole: at a refusal or an error the file stays as it was
  --keep        writes a refused list there too: the lines up to where it stopped
  --binary      packed little-endian words in place of text
  --room LINES  stops with refusal 6 behind so many lines; else there is room for all that the memory holds

Examples:

  hinth flatten samples/socket.sheet                     the list on the terminal
  hinth flatten samples/socket.sheet -o socket.lines     the same in a file
  hinth flatten --binary big.sheet -o big.list           packed words: half the size
  encoder | hinth flatten - | hinth draw - -o a.svg      from one program to the next

On standard output the answer is flatlist's, byte for byte, refused or not: `lines N` or `refused R at T`, six words a
line, then the boxes. A packed list has the same numbers behind a head of twelve words, which docs/HINTH.md explains.

The exit status is 0 for a whole list, 1 if the sheet is refused, which a sentence explains, and 2 for bad input.
"""


def arguments(parser: Parser) -> None:
    """What the command takes."""
    parser.add_argument("sheet", metavar="SHEET")
    parser.add_argument("-o", dest="list", metavar="LIST", default="-")
    parser.add_argument("--binary", action="store_true")
    parser.add_argument("--keep", action="store_true")
    parser.add_argument("--room", type=lines_of, metavar="LINES")


def lines_of(word: str) -> int:
    """A number of lines."""
    if not (word.isascii() and word.isdigit()):
        raise ValueError
    return int(word)


lines_of.__name__ = "number of lines"  # as argparse tells it


def place_in(sheet: Sheet, tag: int) -> str:
    """Where a tag stands, for whoever mends the sheet by hand."""
    at, pair = divmod(tag, 4)
    word = sheet.layout.tag_base + at
    if word >= len(sheet.scene):
        return "behind the sheet's end"
    if sheet.packed:
        return f"byte {4 * (6 + word) + pair:,}"
    return f"line {7 + word:,}, {('last', 'third', 'second', 'first')[pair]} pair of digits"


def about_refusal(sheet: Sheet, refusal: Refusal, lent: int, room: Optional[int]) -> str:
    """What was refused, where, and the cure; how many lines there was room for, and how many were asked for."""
    where = "" if refusal.number == 1 else f" ({place_in(sheet, refusal.tag)})"
    if refusal.number == 6:
        why = f"more than the {lent:,} lines that " + (
            "this machine has memory for; part the drawing" if room is None else "--room gives; give more")
    else:
        why = f"{refusal.reason.why}; {refusal.reason.cure}"
    return f"{sheet.name}: refused {refusal.number} at tag {refusal.tag:,}{where}: {why}"


def check_target(options) -> None:
    """Packed words would spoil a terminal, and a list must not take its sheet's place."""
    if same(options.sheet, options.list):
        raise Wrong(f"{name_of(options.list)}: the list would take the place of its sheet; give -o another name")
    if options.binary and options.list == "-" and os.isatty(1):
        raise Wrong("packed words are not for a terminal; give a file with -o, or a pipe")


def run(options) -> int:
    """Reads, calls the library, writes."""
    check_target(options)
    load()
    name = name_of(options.sheet)
    with Progress(f"reading {name}") as progress:
        with source(options.sheet) as stream:
            sheet = read_sheet(name, stream)
        progress.doing = f"flattening {name}"
        with stops_at_once():
            answer = flattened(sheet, options.room)
        progress.doing = f"writing {name_of(options.list, 'standard output')}"
        if not answer.refusal or options.keep or options.list == "-":
            with target(options.list) as out:
                out.writelines((packed_of if options.binary else text_of)(answer))
    if answer.refusal:
        say(about_refusal(sheet, answer.refusal, answer.room, options.room))
        return REFUSED
    return DONE
