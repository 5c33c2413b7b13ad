"""hinth draw: a picture of a list or a sheet, or of one laid over another."""
import math

from ..cli import DONE, REFUSED, Parser
from ..errors import Wrong
from ..files import name_of, same, target
from ..picture.counting import found_in
from ..picture.paper import Wishes, picture_of
from ..picture.telling import lacks_of, sentences_of
from ..progress import Progress
from ..reading import read_listing
from ..saying import say

HELP = """usage: hinth draw [--ink] [--arrows] [--tag T] [--mm SIZE] [-o PICTURE] LIST [OVER]

Draws the lines of a list as an SVG picture. With a second list, lays that one over the first.

LIST and OVER are lists, as flatten writes them, or sheets, which are flattened first, or HP-GL files, as cut writes
them; - is standard input. The picture goes to the file PICTURE, if it is whole, or to standard output.

Examples:

  hinth draw samples/socket.sheet -o socket.svg              open it in any browser
  hinth draw --mm 0.5 --ink samples/socket.lines -o a.svg    a unit is 0.5 mm; shade what is inked
  hinth draw --arrows old.lines new.lines -o both.svg        what both have, what only one has
  hinth draw --tag 7 samples/socket.sheet -o seventh.svg     which lines tag 7 draws
  hinth draw samples/socket.lines brim.hpgl -o cut.svg       a cut over its drawing

One list    Each path has its colour, of six that repeat, and its box is dashed, with the path's number.
Two lists   The first is blue and wide, the second orange and narrow. A line that only one of them has is drawn
            stronger. Two lines are the same if path, start and end are, bit for bit; their order does not count.
Ink         With --ink, what a fill of each path covers is shaded, by the path's own rule: even-odd where its box's draw
            flags say so, else nonzero. So an opening is seen open, or solid where the rule makes it so. An outline
            that is open is shaded as if each open end went straight to the nearest open start.
Tags        Point at a line to read its path and its tag: the segment that drew it, counted from 0 over all tags of the
            sheet, as a refusal counts them. It stands on line 7 + tag base + T/4 of the sheet (docs/FLATLIST.md), and
            `hinth info` tells the tag base. With --tag T, tag T's lines are drawn strong and all others pale, and how
            many it drew is said. Lists of an older version do not tell tags: flatten the sheet again.
Mended      Lines that `hinth mend` appended, whose second word is ffffffff, are violet and wide, and counted in the legend.
Red rings   An open point: among the lines of its path it is not a start as often as an end. Points are compared by
            their bits, as in docs/WATERTIGHT.md, so +0 and -0 are two. Point at a ring to read it. Of two lists, the
            first has the larger rings. Closed fills have none; a stroke can have some where rounding leaves a last
            bit between its parts, so how near open points lie to each other is said too.
Cuts        An HP-GL file is drawn in plotter units, its lines as those of path 0; moves with the pen up are dashed. Which
            knife table takes the file is said, the old one or only the new one, and a line that the old one does not take
            is edged in red. Laid over its drawing, a line is the same as one of the list only where that one has whole
            coordinates, in path 0.
Red notes   What the picture lacks: a refused list is drawn up to where it stopped, and a line with an infinite
            coordinate cannot be drawn, nor its path's box and ink.
Scale bar   Under the drawing, in units, or in millimetres with --mm SIZE, the millimetres that a unit has.
Arrows      With --arrows, the way that lines run from start to end: one on each chain of lines, or more on a long one.

x grows to the right and y downward, as on Vello's screen and in SVG; on a table whose y grows upward the cut is the
picture's mirror image. The drawing's corner is taken off the coordinates, and they are scaled by a power of two; each
stands in the picture to a thousandth of its unit, and in the words of a ring in full.

Large lists: of more than 10,000 open points each is a red dot without words; of more than 40 paths 40 have a row of
their own, open ones first, the others share one, and boxes have no numbers; of more than 20,000 tags, neighbours share
their words, as `tags 12 to 950`, and --tag shows one of them. An input of more than 120,000,000 bytes, or a sheet of
more than 2,000,000 lines, is not drawn.

What was found is said on standard error. The exit status is 0 where the picture shows a whole drawing, with rings or
without; 1 where it lacks something; 2 where there is no picture, since the input is not in the form or the picture
could not be written whole.
"""


def arguments(parser: Parser) -> None:
    """What the command takes."""
    parser.add_argument("list", metavar="LIST")
    parser.add_argument("over", metavar="OVER", nargs="?")
    parser.add_argument("-o", dest="picture", metavar="PICTURE", default="-")
    parser.add_argument("--ink", action="store_true")
    parser.add_argument("--arrows", action="store_true")
    parser.add_argument("--tag", type=tag_of, metavar="T")
    parser.add_argument("--mm", type=size_of, metavar="SIZE")


def tag_of(word: str) -> int:
    """The index of a tag, as a line's record holds it."""
    if not (word.isascii() and word.isdigit() and int(word) < 2**32):
        raise ValueError
    return int(word)


tag_of.__name__ = "tag number"  # as argparse tells it


def size_of(word: str) -> float:
    """Millimetres."""
    size = float(word)
    if not 0 < size < math.inf:
        raise ValueError
    return size


size_of.__name__ = "size in millimetres"  # as argparse tells it


def run(options) -> int:
    """Reads, draws, and says what was found."""
    names = [options.list] if options.over is None else [options.list, options.over]
    if names == ["-", "-"]:
        raise Wrong("both lists would come from standard input; name a file for one of them")
    if any(same(name, options.picture) for name in names):
        raise Wrong(f"{name_of(options.picture)}: the picture would take the place of its list; give -o another name")
    with Progress("drawing") as progress:
        lists = []
        for name in names:
            progress.doing = f"reading {name}"
            lists.append(found_in(read_listing(name)))
        progress.doing = "drawing"
        picture = picture_of(lists, Wishes(options.mm, options.arrows, options.ink, options.tag))
        with target(options.picture) as out:
            out.write(picture.encode())
    for sentence in sentences_of(lists, options.tag):
        say(sentence)
    return REFUSED if any(map(lacks_of, lists)) else DONE
