"""A piece for the knife table: one path of a drawing as HP-GL, or the sentence that says where it stopped and what to do."""
import math
import struct
from array import array
from fractions import Fraction
from typing import List, NamedTuple, Optional, Tuple

from .cutting import REACH, Table, lines_of_hpgl, reach_of
from .errors import Wrong
from .importing import NotImported, import_path
from .interrupting import stops_at_once
from .lists import cut_listing
from .pattern import Pen
from .picture.counting import found_in
from .picture.drawing import Under, Wishes
from .picture.paper import picture_of
from .saying import count, printable
from .svg.document import Document, Found, document_of
from .svg.outlines import left_open
from .svg.page import PLOTTER_UNITS, Page, decimal, page_of
from .svg.placing import Matrix, NotPlaced, floats_of
from .svg.telling import about_path_data, behind
from .whole import OUT_OF_REACH, TAGS_BEFORE, NotCutText, Room, Stage

MOST_IDS = 20  # that are told
SHEAR = 73
EVEN_ODD = ("its fill-rule is evenodd, which the profile for lay-up sheets refuses (71); choose the other fill rule, nonzero: in "
            "Inkscape, Fill and Stroke, the rightmost sign of Fill; the outlines that are cut stay the same")
TURNED = ("its transforms turn or slant it, and a lay-up sheet may only be moved, scaled and mirrored; apply them to the points: in "
          "Inkscape, ungroup it, or Path, Object to Path")


class Piece(NamedTuple):
    """A path with its page, where it lies on the table, and its file."""

    shape: Found
    page: Page
    placed: Matrix
    table: Table
    file: bytes


def piece_of(name: str, data: bytes, wanted: Optional[str], scale: Optional[Fraction], table: Table) -> Piece:
    """The piece that is asked for. Raises Wrong for a bad document, and NotPlaced with the sentence of a refusal."""
    document = document_of(name, data)
    shape = chosen(name, document, wanted)
    if shape.even_odd:
        raise NotPlaced(f"{shape.name} is not cut: {EVEN_ODD}")
    page = page_of(document, scale)
    placed = page.to_table().of(shape.transform)
    try:
        numbers = floats_of(placed)
    except NotPlaced as why:
        raise NotPlaced(f"{shape.name} is not cut: {why}") from None
    return Piece(shape, page, placed, table, file_of(shape, numbers, page, table))


def chosen(name: str, document: Document, wanted: Optional[str]) -> Found:
    """The one path that is meant. Raises Wrong or NotPlaced."""
    meant = [shape for shape in document.found if wanted is None or (wanted and shape.own_id == wanted)]
    if not meant and wanted is not None:
        raise Wrong(f"{name}: no path has the id {printable(wanted)!r}; {ids_told(document.found)}")
    if not meant:
        raise NotPlaced("it has no path")
    if len(meant) > 1 and wanted is None:
        raise NotPlaced(f"it has {len(meant):,} paths and shapes, and a file for the table holds one path: choose it with --path; "
                        f"{ids_told(meant)}")
    if len(meant) > 1:
        raise NotPlaced(f"{len(meant):,} elements have the id {printable(meant[0].own_id)!r}: {', '.join(s.name for s in meant)}; "
                        "give them different ids")
    if meant[0].why:
        raise NotPlaced(f"{meant[0].name} is not cut: {meant[0].why}")
    return meant[0]


def ids_told(shapes: List[Found]) -> str:
    """The ids among which one can choose."""
    paths = [shape for shape in shapes if not shape.why]
    ids = [printable(shape.own_id) for shape in paths if shape.own_id]
    nameless = [shape.name for shape in paths if not shape.own_id]
    parts = [f"the ids of its paths are {', '.join(ids[:MOST_IDS])}" if ids else "none of its paths has an id"]
    if len(ids) > MOST_IDS:
        parts.append(f"and {len(ids) - MOST_IDS:,} more")
    if nameless and ids:
        parts.append(f"without an id is {', '.join(nameless[:MOST_IDS])}")
    return ", ".join(parts)


def file_of(shape: Found, numbers: Tuple[float, ...], page: Page, table: Table) -> bytes:
    """The path's file, by one call of the library. Raises NotPlaced with the sentence of its refusal."""
    room = Room(shape.data)
    try:
        with stops_at_once():
            return room.cut(shape.data, numbers, table)
    except NotCutText as refused:
        raise NotPlaced(f"{shape.name}: {about_refusal(refused, shape.data, room, page, table)}") from None


def about_refusal(refused: NotCutText, data: bytes, room: Room, page: Page, table: Table) -> str:
    """Where the call stopped, why, and what to do."""
    if refused.stage == Stage.TEXT:
        return about_path_data(refused.number, refused.place, data)
    if refused.number == SHEAR and refused.stage == Stage.PROFILE:
        return f"refused {SHEAR}: {TURNED}"
    if refused.number == OUT_OF_REACH and refused.stage == Stage.CUT:
        return about_reach(room.line(refused.place), data, page, table)
    where = segment_told(data, refused.place) if refused.stage in (Stage.PROFILE, Stage.FLATTEN) else ""
    return f"refused {refused.number}{where}: {refused.reason.why}; {refused.reason.cure}"


def segment_told(data: bytes, tag: int) -> str:
    """Which segment of the path data a tag of the sheet is, and the byte at which it is over."""
    byte = byte_behind(data, tag)
    if byte is None:
        return f" at tag {tag:,} of its sheet"
    return f" at segment {tag - TAGS_BEFORE + 1:,} of its path data, which is over at byte {byte:,}, {behind(data, byte)}"


def byte_behind(data: bytes, tag: int) -> Optional[int]:
    """Where the command is over that draws a tag: with room for the tags before it alone, the library refuses it there."""
    if tag < TAGS_BEFORE:
        return None
    try:
        import_path(Pen(), data, bytearray(tag - TAGS_BEFORE), Room(data).points)
    except NotImported as full:
        return full.byte
    return None


def about_reach(line: memoryview, data: bytes, page: Page, table: Table) -> str:
    """Which coordinate of a line the table does not take, in plotter units and in the document's, and what to do."""
    tag = line[1]
    which, axis, value, point = outside_of(struct.unpack("=4f", bytes(line[2:6])), table)
    told = f"the {which} of a line has {axis} = {value:.9g} plotter units"
    if all(map(math.isfinite, point)):
        x, y = page.on_page(*map(Fraction, point))
        told += f", {value / PLOTTER_UNITS:.9g} mm, at ({decimal(x)}, {decimal(y)}) of the document"
    cure = "make the piece smaller, move it nearer to what is the table's 0,0"
    cure += ", or cut it for the new table" if table == Table.OLD else ", or part it"
    return (f"refused {OUT_OF_REACH}{segment_told(data, tag)}: {told}, and the {table.name.lower()} table takes "
            f"{reach_of(table)}; {cure}")


def outside_of(numbers: Tuple[float, ...], table: Table) -> Tuple[str, str, float, Tuple[float, ...]]:
    """The first coordinate of a line that a table does not take: of which end, x or y, its value, and that end."""
    least, greatest = REACH[table]
    return next((which, axis, value, end) for which, end in (("start", numbers[:2]), ("end", numbers[2:]))
                for axis, value in zip("xy", end) if not (math.isfinite(value) and least <= round(value) <= greatest))


def sentences_of(name: str, piece: Piece) -> List[str]:
    """What was cut, how large, at which scale, and where it lies."""
    lines = lines_of_hpgl(piece.file, piece.table)
    drawn = f"{count(len(lines) // 4, 'line')} in {count(piece.file.count(b'PU'), 'chain')}"
    size = f", {span_of(lines, 0)} mm wide and {span_of(lines, 1)} mm high" if lines else ", so the file cuts nothing"
    return [f"{name}: {piece.shape.name}: {drawn}{size}, for the {piece.table.name.lower()} table",
            *(f"{name}: {piece.shape.name}: {sentence}" for sentence in about_open(left_open(piece.shape.data.decode()))),
            f"{name}: {piece.page.sentence}; the table's 0,0 is {piece.page.corner}; the piece is cut as it looks on the screen"]


def about_open(outlines: int) -> List[str]:
    """That a cut was added which is not drawn, if one was."""
    if not outlines:
        return []
    return [f"{count(outlines, 'outline')} {'is' if outlines == 1 else 'are'} open in the drawing, and closed by a straight cut back to "
            f"{'its start' if outlines == 1 else 'the start of each'}"]


def span_of(lines: "array[int]", axis: int) -> str:
    """How far the lines reach along an axis, in millimetres."""
    values = lines[axis::2]
    return decimal(Fraction(max(values) - min(values), PLOTTER_UNITS))


def picture_of_piece(name: str, piece: Piece) -> str:
    """What the table will cut, read back from the file, with y upward as on the table, over the outline of the drawing."""
    title = f"{name}: {piece.shape.name}, as it is cut; {piece.page.sentence}"
    under = Under(piece.shape.data.decode(), tuple(map(float, piece.placed)))
    return picture_of([found_in(cut_listing(title, piece.file))], Wishes(1 / PLOTTER_UNITS, arrows=True, up=True, under=under))
