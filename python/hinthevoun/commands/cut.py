"""hinth cut: one path of a drawing, or of a list of lines, as HP-GL for the knife table."""
from fractions import Fraction
from typing import Tuple

from ..cli import DONE, REFUSED, Parser
from ..cutting import NotCut, Table, hpgl_of, outside, reach_of, record_at
from ..errors import Wrong
from ..files import name_of, same, target
from ..opening import load
from ..pieces import picture_of_piece, piece_of, sentences_of
from ..progress import Progress
from ..records import Records, read_bytes, records_of
from ..saying import say
from ..svg.document import is_svg
from ..svg.page import scale_of
from ..svg.placing import NotPlaced

HELP = """usage: hinth cut LIST --path P [--table old|new] [-o FILE]
       hinth cut DRAWING.svg [--path ID] [--scale MM] [--table old|new] [-o FILE] [--picture PICTURE]

Writes one path as HP-GL, for the knife table: of a designer's drawing, or of a list of lines. A file is a drawing if its
name ends in .svg or if it begins as XML does, with a <; else it is a list.

  DRAWING.svg  the drawing; - is standard input
  --path ID    the id of the path to cut; it may be left out where the drawing has one path and no other shape
  --scale MM   how many millimetres a unit of the drawing has: 1, 0.5 or 25.4/96; where it is left out, the drawing's width,
               height and viewBox say it
  --picture    writes a picture there of what will be cut, read back from the file, over the outline of the drawing

  LIST         the list: what flatlist or `hinth flatten` writes, as text or packed; or its records alone, six words of
               eight hex digits a line, or packed little-endian words without a head; - is standard input
  --path P     the number of the path to cut

  --table      old or new, for which knife table; new, if it is not said
  -o FILE      writes the file there; else it goes to standard output

Examples:

  hinth cut samples/brim.svg -o brim.plt                              a drawing with its size in millimetres
  hinth cut panel.svg --path brim -o brim.plt --picture brim-cut.svg  one path of several, and look at it before it is cut
  hinth cut panel.svg --path pad --scale 25.4/96 -o pad.plt           a unit is a CSS pixel
  hinth cut samples/socket.lines --path 0 -o brim.hpgl                a path of a list
  hinth draw samples/socket.lines brim.hpgl -o both.svg               the cut laid over its list
  hinth flatten part.sheet | hinth cut - --path 1 -o seam.hpgl

Drawings    A plotter unit is 0.025 mm, 40 to a millimetre, and the scale is said: `1 unit = 1 mm = 40 plotter units`. The
            drawing says it where width and height have one of mm, cm, in, pt, pc and Q and there is a viewBox, and where both
            agree to one in a million; then the width counts. Else --scale is asked for: programs differ in what a px is.
            SVG's y points down and the table's up, so y is turned round: the piece is cut as it looks on the screen. The
            page's lower left corner is the table's 0,0; without a viewBox and a height in units or px the document's 0,0 is.
            Transforms of the path and its groups hold, and may move, scale and mirror it; one that turns or slants it is
            refused (73), and so is the fill rule evenodd. One path becomes one file, and paths are never put together. An
            outline that the drawing leaves open is closed by a straight cut, as a fill is, and that is said.
            Path data is read, tested against the profile for lay-up sheets, flattened and written by one call of the
            proved library. A refusal names the element, the byte of its path data or the coordinate, and what to do.
Lists       A unit of the list is a plotter unit, and nothing is turned round. Where a coordinate is no number or, rounded,
            outside what the table takes, the record is told, counted from 0 over the whole list.
Files       `IN;`, and for each chain of lines a `PU` to its start and a `PD` to each end, without a space or a line end.
            Coordinates are taken to the nearest whole number, ties to even. A new chain starts whenever a line does not
            begin on the bits where the last line of the path ended; so a closed fill is a closed cut.

A file is written only if it is whole and the table takes it: the new one takes -8388608 to 8388607, the old one -32767 to
32767. A file that both take is the same for both. A path without lines is `IN;` alone, and is told.

The exit status is 0 if the file is written; 1 if something is refused, or if a list says that it was refused itself, since it
is not whole; 2 for bad input.
"""


TABLES = {table.name.lower(): table for table in Table}


def arguments(parser: Parser) -> None:
    """What the command takes."""
    parser.add_argument("source", metavar="LIST or DRAWING.svg")
    parser.add_argument("--path", metavar="P")
    parser.add_argument("--scale", type=millimetres, metavar="MM")
    parser.add_argument("--table", choices=TABLES, default="new")
    parser.add_argument("-o", dest="file", metavar="FILE", default="-")
    parser.add_argument("--picture", metavar="PICTURE")


def millimetres(word: str) -> Fraction:
    """How many a unit has."""
    return scale_of(word)


millimetres.__name__ = "size in millimetres"  # as argparse tells it


def about_refusal(records: Records, number: int, place: int, why: str) -> str:
    """The record that was in turn, and what is wrong with it."""
    line = f" (line {records.line + place:,})" if records.line else ""
    return (f"{records.name}: refused {number} at record {place:,}, counted from 0{line}: {why}; scale or move the drawing; "
            "nothing is written")


def file_of(records: Records, path: int, table: Table) -> Tuple[bytes, str]:
    """The path's file; and why it is refused, which is empty where the table takes it."""
    try:
        file = hpgl_of(records.words, path)
    except NotCut as why:
        told = f"a coordinate is no number or, rounded, outside {reach_of(Table.NEW)}"
        return b"", about_refusal(records, why.number, why.place, told)
    position = outside(file, table)
    if position is None:
        return file, ""
    place = record_at(records.words, path, position)
    return b"", about_refusal(records, 32, place, f"a coordinate is, rounded, outside {reach_of(table)}, what the old table takes")


def path_of(options) -> int:
    """The number of a list's path, as a line's record holds it. Raises Wrong."""
    word, how = options.path, "`hinth cut --help` shows how it is used"
    if word is None:
        raise Wrong(f"a list is cut by path: --path is missing; {how}")
    if not (word.isascii() and word.isdigit() and int(word) < 2**32):
        raise Wrong(f"argument --path: invalid path number value: {word!r}; {how}")
    if options.scale is not None or options.picture is not None:
        raise Wrong(f"--scale and --picture are for a drawing, and {name_of(options.source)} is a list, whose unit is a plotter "
                    "unit and which `hinth draw` draws")
    return int(word)


def cut_list(name: str, data: bytes, options) -> int:
    """Has the library write a path of a list, and writes the file if it is whole."""
    path = path_of(options)
    with Progress("cutting"):
        records = records_of(name, data)
        if records.refusal:
            say(f"{records.name}: the list is not whole: {records.refusal}; nothing is written")
            return REFUSED
        file, refusal = file_of(records, path, TABLES[options.table])
        if refusal:
            say(refusal)
            return REFUSED
        with target(options.file) as out:
            out.write(file)
    if path not in records.words[0::6]:
        say(f"{records.name}: path {path:,} has no lines, so the file cuts nothing")
    return DONE


def cut_drawing(name: str, data: bytes, options) -> int:
    """Has the library cut a path of a drawing, and writes the file and its picture if both are whole."""
    with Progress("cutting"):
        try:
            piece = piece_of(name, data, options.path, options.scale, TABLES[options.table])
        except NotPlaced as why:
            say(f"{name}: {why}; nothing is written")
            return REFUSED
        if options.picture is None:
            with target(options.file) as out:
                out.write(piece.file)
        else:
            picture = picture_of_piece(name, piece).encode()
            with target(options.file) as out, target(options.picture) as drawn:
                drawn.write(picture)
                out.write(piece.file)
    for sentence in sentences_of(name, piece):
        say(sentence)
    return DONE


def check_names(options) -> None:
    """No file is written over another. Raises Wrong."""
    for place in (options.file, options.picture):
        if place is not None and same(options.source, place):
            raise Wrong(f"{name_of(place)}: it would take the place of what is cut; give it another name")
    if options.picture is not None and (options.picture == options.file or same(options.picture, options.file)):
        raise Wrong(f"{name_of(options.file, 'standard output')}: the file and its picture would be one; give one of them another name")


def run(options) -> int:
    """Reads, and cuts what was read."""
    check_names(options)
    load()
    name = name_of(options.source)
    with Progress(f"reading {name}"):
        data = read_bytes(options.source, "cut")
    is_drawing = options.source.lower().endswith(".svg") or is_svg(data)
    return cut_drawing(name, data, options) if is_drawing else cut_list(name, data, options)
