"""hinth compare: a page that lays two folders of drawings over each other."""
from ..cli import DONE, REFUSED, Parser
from ..files import target
from ..picture.drawing import MOST_TAGS, Wishes
from ..progress import Progress
from ..report.judging import verdict_of
from ..report.page import Entry, page_of, summary_of
from ..report.pairs import files_in, pairs_of, side_of
from ..saying import printable, say
from .draw import size_of

HELP = """usage: hinth compare [--ink] [--mm SIZE] OLD NEW -o REPORT.html

Lays the drawings of one folder over those of another, and makes one page of it, which any browser opens without a network.

  OLD, NEW        folders of lists or sheets; sheets are flattened first
  -o REPORT.html  the page; - is standard output
  --ink           shades what a fill of each path inks, as in `hinth draw`
  --mm SIZE       the millimetres that a unit has

Example:

  hinth compare drawings-2025/ sheets/ -o report.html

Files are a pair if their names are the same, or the same but for what stands behind the last dot: brim.lines and brim.sheet.
Each pair is a picture, the old drawing blue and wide, the new one orange and narrow. The worst come first: what could not be
read; refusals; drawings that only one folder has; paths that are inked by another rule; the most lines that only one has;
boxes that differ; open points; and last what is the same.
A click on a picture shows it large, with all its words; Escape puts it back.

The exit status is 0 if all was compared, 1 if a drawing was refused or could not be read, which the page tells too, and 2 if
there is no page.
"""


def arguments(parser: Parser) -> None:
    """What the command takes."""
    parser.add_argument("old", metavar="OLD")
    parser.add_argument("new", metavar="NEW")
    parser.add_argument("-o", dest="report", metavar="REPORT.html", required=True)
    parser.add_argument("--ink", action="store_true")
    parser.add_argument("--mm", type=size_of, metavar="SIZE")


def entries_of(pairs, progress: Progress) -> list:
    """All drawings with what is to be said of them, the worst first."""
    entries = []
    for number, pair in enumerate(pairs, 1):
        progress.doing = f"comparing {pair.name}, {number} of {len(pairs)}"
        old, new = side_of(pair.old), side_of(pair.new)
        entries.append(Entry(pair.name, old, new, verdict_of(old, new)))
    return sorted(entries, key=lambda entry: (entry.verdict.order(), entry.name))


def run(options) -> int:
    """Reads both folders, compares, writes the page."""
    folders = printable(options.old), printable(options.new)
    (old, no_old), (new, no_new) = files_in(options.old), files_in(options.new)
    with Progress("comparing") as progress:
        entries = entries_of(pairs_of(old, new), progress)
        progress.doing = "writing the page"
        with target(options.report) as out:
            wishes = Wishes(options.mm, ink=options.ink, most_tags=MOST_TAGS // max(1, len(entries)))
            for part in page_of(folders, entries, no_old + no_new, wishes):
                out.write(part.encode())
    say(f"{summary_of(entries)}" + (f"; left out: {', '.join(no_old + no_new)}" if no_old + no_new else ""))
    return REFUSED if any(entry.verdict.kind in ("not read", "refused") for entry in entries) else DONE
