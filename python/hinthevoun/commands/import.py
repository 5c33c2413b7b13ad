"""hinth import: the paths of an SVG as a sheet."""
from typing import List

from ..cli import DONE, REFUSED, Parser
from ..drawing import Sheet
from ..errors import Wrong
from ..files import name_of, same, source, target
from ..importing import NotImported
from ..opening import load
from ..progress import Progress
from ..saying import count, say
from ..svg.document import Found, found_in, is_svg
from ..svg.placing import IDENTITY, NotPlaced, floats_of
from ..svg.telling import about_path_data
from ..words import rows_of

HELP = """usage: hinth import FILE [--only ID ...] [-o SHEET]

Makes a sheet of the paths of an SVG: one path number each, in the order of the document, from 0.

  FILE         an SVG, or a text that is path data alone; - is standard input
  --only ID    takes only the elements with these ids, and what stands in groups with these ids
  -o SHEET     writes the sheet there, as text; else it goes to standard output

Examples:

  hinth import samples/import/inkscape.svg -o brim.sheet     a drawing as a sheet; which path has which number is said
  hinth draw --ink brim.sheet -o brim-inked.svg              look at it
  hinth import panel.svg --only brim seam -o panel.sheet     these two alone
  echo 'M0 0L30 0L0 60Z' | hinth import - | hinth flatten -  from path data to lines

Path data is read by the proved library: the absolute M, L, Q, C and Z of SVG 2, numbers without an exponent and with at most
nine digits before and after the point, each the nearest f32. A path's own transform and those of its groups (matrix, translate,
scale, rotate) become its transform in the sheet; units are those of the document, and width, height and viewBox are not
looked at. `fill-rule: evenodd` is kept. Colours and strokes are not looked at: each outline is a fill, and is closed.

Nothing is guessed, converted or left out: where something in the drawing is not imported, a sentence names it, with the byte
of its path data and what to do, and nothing is written. --only chooses what is meant.

The exit status is 0 if the sheet is written, 1 if something is refused, 2 for bad input.
"""


def arguments(parser: Parser) -> None:
    """What the command takes."""
    parser.add_argument("file", metavar="FILE")
    parser.add_argument("--only", nargs="+", metavar="ID", default=[])
    parser.add_argument("-o", dest="sheet", metavar="SHEET", default="-")


def chosen(name: str, document: bytes, only: List[str]) -> List[Found]:
    """The paths to import, each of which can be. Raises Wrong or NotPlaced."""
    if not is_svg(document):
        if only:
            raise Wrong(f"{name}: --only is for an SVG, and this is path data alone")
        return [Found("the path data", (), document, IDENTITY, False, "")]
    found = found_in(name, document)
    for wanted in only:
        if not any(wanted in shape.ids for shape in found):
            raise Wrong(f"{name}: no path has the id {wanted!r}, nor stands in a group that has it; the drawing program tells ids")
    taken = [shape for shape in found if not only or not set(only).isdisjoint(shape.ids)]
    for shape in taken:
        if shape.why:
            raise NotPlaced(f"{shape.name} is not imported: {shape.why}; or choose others with --only")
    if not taken:
        raise NotPlaced("it has no path")
    return taken


def draw(sheet: Sheet, shape: Found) -> None:
    """Draws one path into the sheet. Raises NotPlaced."""
    try:
        sheet.place(floats_of(shape.transform)).data(shape.data).path(shape.even_odd)
    except NotImported as refused:
        raise NotPlaced(f"{shape.name}: {about_path_data(refused.number, refused.byte, shape.data)}") from None
    except NotPlaced as why:
        raise NotPlaced(f"{shape.name} is not imported: {why}") from None


def run(options) -> int:
    """Reads, has the library read each path, and writes the sheet if all of it is imported."""
    if same(options.file, options.sheet):
        raise Wrong(f"{name_of(options.sheet)}: the sheet would take the place of the drawing; give -o another name")
    load()
    name, sheet = name_of(options.file), Sheet()
    with Progress(f"importing {name}"):
        with source(options.file) as stream:
            document = stream.read()
        try:
            shapes = chosen(name, document, options.only)
            for shape in shapes:
                draw(sheet, shape)
        except NotPlaced as why:
            say(f"{name}: {why}; nothing is written")
            return REFUSED
        with target(options.sheet) as out:
            out.write(rows_of(sheet.words().tobytes(), 1))
    for number, (shape, (outlines, segments)) in enumerate(zip(shapes, sheet.paths)):
        say(f"{name}: path {number:,} is {shape.name}: {count(outlines, 'outline')}, {count(segments, 'segment')}")
    return DONE
