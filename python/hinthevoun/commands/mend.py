"""hinth mend: the list with the lines that its paths lack."""
import struct

from ..cli import DONE, REFUSED, Parser
from ..errors import Wrong
from ..files import name_of, same, target
from ..mending import MENDED, NOT_MENDED, NotMendable, PathCase, mended_of
from ..opening import load
from ..progress import Progress
from ..records import read_records, with_lines
from ..saying import say
from .check import told

HELP = """usage: hinth mend [-o MENDED] --within N LIST

Mends a list from which lines were dropped, at most one from each path, and says what was done. Within one path number, where
one point is an end once more than a start, one is a start once more than an end, no other is out of balance, and the two
differ by at most N units in x and in y, exactly, a line is appended from the first to the second. Nothing is altered or
removed, and no other path is touched.

  LIST        the list, in any form that `hinth check` takes; - is standard input
  --within N  how wide a gap may be: a whole number of units
  -o MENDED   writes the mended list there; else it goes to standard output

Examples:

  hinth mend old.lines --within 2 -o new.lines    close gaps of at most 2 units
  hinth draw new.lines -o new.svg                 appended lines have a colour of their own
  hinth mend old.lines --within 2 | hinth check - whether it is sound now

The list comes out in the form that it came in, with the appended lines behind its own and its boxes as they were. The second
word of an appended line is ffffffff, since no tag drew it. What was done about each path, in order of first appearance, is
said on standard error.

The exit status is 0 where no path is left unmended; 1 where one is; 2 for bad input, for a list that says that it was refused,
and for one that is not mended at all: of more than 2,000 records (refusal 50), of words that are not whole records (51), with a
NaN or an infinity (52), or that would have more than 2,000 records (53). Then nothing is written.
"""


def arguments(parser: Parser) -> None:
    """What the command takes."""
    parser.add_argument("list", metavar="LIST")
    parser.add_argument("--within", type=units_of, metavar="N", required=True)
    parser.add_argument("-o", dest="mended", metavar="MENDED", default="-")


def units_of(word: str) -> int:
    """A whole number of 32 bits."""
    if not (word.isascii() and word.isdigit() and int(word) < 2**32):
        raise ValueError
    return int(word)


units_of.__name__ = "whole number of units"  # as argparse tells it


def sentence_of(case: PathCase) -> str:
    """What was done about a path."""
    if case.kind == MENDED:
        x0, y0, x1, y1 = struct.unpack("=4f", struct.pack("=4I", *case.points))
        return f"path {case.path:,}: mended with a line from {told((x0, y0))} to {told((x1, y1))}"
    return f"path {case.path:,}: {'not mended' if case.kind == NOT_MENDED else 'sound'}"


def run(options) -> int:
    """Reads, has the library mend, writes, and says what was done."""
    if same(options.list, options.mended):
        raise Wrong(f"{name_of(options.mended)}: the mended list would take the place of its list; give -o another name")
    load()
    with Progress("mending"):
        records = read_records(options.list)
        if records.refusal:
            raise Wrong(f"{records.name}: the list is not whole, and nothing of it was mended: {records.refusal}")
        try:
            more, cases = mended_of(records.words, options.within)
        except NotMendable as why:
            raise Wrong(f"{records.name}: {why}; nothing of it was mended") from None
        with target(options.mended) as out:
            out.write(with_lines(records, more))
    for case in cases:
        say(f"{records.name}: {sentence_of(case)}")
    return REFUSED if any(case.kind == NOT_MENDED for case in cases) else DONE
