"""hinth convert: a sheet's points moved from i16 to f32, or back."""
from array import array

from ..cli import DONE, REFUSED, Parser
from ..converting import converted, points_of, tags_in, unmet
from ..errors import Wrong
from ..files import name_of, same, source, target
from ..flattening import Answer, flattened
from ..interrupting import stops_at_once
from ..moving import NotMoved, to_f32, to_i16
from ..opening import load
from ..progress import Progress
from ..saying import count, say
from ..sheets import Sheet, read_sheet
from ..words import in_order, rows_of
from .flatten import place_in

HELP = """usage: hinth convert --to KIND [--check] [-o NEW] SHEET

Converts a whole sheet to points of another kind: f32 points, two words each, or i16 points, one word each.

  --to KIND    f32 or i16
  SHEET        the sheet, as text or packed; - is standard input
  -o NEW       writes the new sheet there, in the same form; else it goes to standard output
  --check      flattens both sheets and compares all lines and boxes, bit for bit

Examples:

  hinth convert --to f32 old.sheet -o new.sheet               an old sheet for a program that knows f32 points alone
  hinth convert --to f32 --check old.sheet -o new.sheet       the same, and both are flattened and compared
  hinth convert --to i16 new.sheet -o old.sheet               and back, to the old bytes

Tags and points are moved by the proved library; the parts behind the points move with their bases, and everything else is
copied. Back go only whole numbers from -32768 to 32767, without -0.

Nothing is converted of which it is not proved that it draws the same lines and boxes: the sheet of i16 points must be
accepted, and meet the conditions that docs/SHEETS.md lists. Else a sentence says which tag stands in the way.

The exit status is 0 if it is done, 1 if the sheet is refused, 2 for bad input.
"""

KINDS = {"f32": to_f32, "i16": to_i16}
CURES = {
    40: "give --to the other kind, or part the drawing: all its points are of one kind",
    41: "it cannot be told in 16 bits: keep f32 points, or move it to a whole number",
    43: "the sheet was cut short: export it again",
}


def arguments(parser: Parser) -> None:
    """What the command takes."""
    parser.add_argument("sheet", metavar="SHEET")
    parser.add_argument("--to", choices=KINDS, required=True)
    parser.add_argument("--check", action="store_true")
    parser.add_argument("-o", dest="new", metavar="NEW", default="-")


def about_refusal(sheet: Sheet, why: NotMoved) -> str:
    """What the library refused, where it stands, and the cure."""
    at = sheet.layout.data_base + why.at
    where = place_in(sheet, why.at) if why.number == 40 else f"byte {4 * (6 + at):,}" if sheet.packed else f"line {7 + at:,}"
    return f"{sheet.name}: {why} ({where}); {CURES.get(why.number, 'part the drawing')}"


def moved(sheet: Sheet, kind: str) -> Sheet:
    """The sheet with its points moved. Raises NotMoved."""
    tags, points = tags_in(sheet), sheet.scene[sheet.layout.data_base:]
    new = KINDS[kind](tags, points)
    words_of_a_point = 1 if kind == "f32" else 2
    return converted(sheet, new, words_of_a_point * sum(map(points_of, tags)))


def not_promised(sheet: Sheet, new: Sheet, kind: str, answer: Answer) -> str:
    """Why it is not proved that both sheets draw the same, or nothing."""
    old, f32 = (sheet, new) if kind == "f32" else (new, sheet)
    if answer.refusal:
        return f"{sheet.name}: not converted, since it is no whole drawing: {answer.refusal.sentence}; mend it first"
    why = unmet(old, f32)
    return f"{sheet.name}: not converted, since its lines might differ: {why} (docs/SHEETS.md)" if why else ""


def written(sheet: Sheet) -> bytes:
    """The sheet's words, in its form."""
    words = array("I", [*sheet.layout, sheet.boxes, *sheet.scene])
    return in_order(words).tobytes() if sheet.packed else bytes(rows_of(words.tobytes(), 1))


def run(options) -> int:
    """Reads, moves, tests, writes."""
    if same(options.sheet, options.new):
        raise Wrong(f"{name_of(options.new)}: the new sheet would take the place of the old one; give -o another name")
    load()
    name = name_of(options.sheet)
    with Progress(f"reading {name}") as progress:
        with source(options.sheet) as stream:
            sheet = read_sheet(name, stream)
        progress.doing = f"converting {name}"
        try:
            new = moved(sheet, options.to)
        except NotMoved as why:
            say(about_refusal(sheet, why))
            return REFUSED
        with stops_at_once():
            answer = flattened(sheet if options.to == "f32" else new)
        sentence = not_promised(sheet, new, options.to, answer)
        if not sentence and options.check:
            with stops_at_once():
                other = flattened(new if options.to == "f32" else sheet)
            if other.refusal or bytes(other.lines) != bytes(answer.lines) or other.boxes != answer.boxes:
                sentence = f"{name}: not converted: both sheets were flattened, and they differ"
        if sentence:
            say(sentence)
            return REFUSED
        with target(options.new) as out:
            out.write(written(new))
    if options.check:
        say(f"{name}: both sheets were flattened: {count(len(answer.lines) // 6, 'line')} and all boxes are the same, bit for bit")
    return DONE
