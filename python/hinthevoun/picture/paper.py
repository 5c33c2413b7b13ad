"""The sheet of paper: a head of sentences, the drawing with its scale bar, and beside it the legend."""
import math
from typing import Callable, List, NamedTuple, Optional, Tuple

from .counting import Found, Outline
from .drawing import (ALONE, GREY, INK, MENDED_COLOUR, MENDED_WIDTH, RED, SHARED, STRONG, UNDER_COLOUR, UNDER_WIDTH,
                      Wishes, frame_of, inked, one_drawn, pair, pale, path_colour, rectangle, text, two_drawn, way)
from .geometry import Frame, round_length
from .ink import is_inked, rule_of
from .telling import (about_appended, about_boxes, about_left, about_lines, about_outline, about_tag, lacks_of, notes_of,
                      shown, told_and_left)

MARGIN, ROW, SWATCH = 30, 20, 34
LONGEST_BAR = 200
STYLE = "path, circle { vector-effect: non-scaling-stroke }"


class Row(NamedTuple):
    """A row of text; the mark before it is drawn around the middle of its place."""

    words: str
    fill: str = INK
    weight: str = "normal"
    mark: str = ""


def sample(*inks: Tuple[str, float]) -> str:
    return "".join(inked([way((4, 0), (SWATCH - 10, 0))], colour, width) for colour, width in inks)


def head_of(lists: List[Found]) -> List[Row]:
    names = [found.name for found in lists]
    titles = names if len(names) == 1 else [f"first: {names[0]}", f"second: {names[1]}"]
    rows = []
    for side, (found, title) in enumerate(zip(lists, titles)):
        mark = sample(ALONE[side]) if len(lists) == 2 else ""
        rows.append(Row(title, weight="bold", mark=mark))
        rows += [Row(sentence, RED, "bold") for sentence in lacks_of(found)]
        rows += [Row(sentence, weight="bold") for sentence in notes_of(found)]
    return rows


def about_ink(found: Found, outline: Outline) -> str:
    """By which rule a path is shaded, behind what is said of its lines."""
    if not outline.lines.paths:
        return ""
    if not is_inked(outline):
        return "; no ink is shown, since a coordinate is infinite"
    return f"; ink by the {rule_of(found, outline.path)} rule" + (", as if it were closed" if outline.open else "")


def outline_rows(found: Found, wishes: Wishes, mark_of: Callable[[int], str], before: str = "") -> List[Row]:
    told, left = told_and_left(found.outlines)
    rows = [Row(before + about_outline(outline) + (about_ink(found, outline) if wishes.ink else ""),
                RED if outline.open else INK, mark=mark_of(outline.path)) for outline in told]
    if left:
        rows.append(Row(before + about_left(left), RED if any(outline.open for outline in left) else INK))
    return rows


def tag_rows(found: Found, wishes: Wishes, mark_of: Callable[[int], str], before: str = "") -> List[Row]:
    """What is said of the tag that is asked for, if there is one; a tag's lines are all of one path."""
    if wishes.tag is None:
        return []
    drawn = found.lines.drawn_by(wishes.tag)
    words = before + about_tag(found, wishes.tag)
    return [Row(words, weight="bold", mark=mark_of(found.lines.paths[drawn[0]]) if drawn else "")]


def appended_rows(found: Found, before: str = "") -> List[Row]:
    """What the colour of appended lines means, where there are any."""
    return [Row(before + words, mark=sample((MENDED_COLOUR, MENDED_WIDTH))) for words in about_appended(found)]


def one_rows(found: Found, wishes: Wishes) -> List[Row]:
    return (outline_rows(found, wishes, lambda path: sample((path_colour(path), 2)))
            + appended_rows(found)
            + tag_rows(found, wishes, lambda path: sample((path_colour(path), STRONG))))


def two_rows(first: Found, second: Found, wishes: Wishes) -> List[Row]:
    rows = outline_rows(first, wishes, lambda _: sample(ALONE[0]), "first, ")
    rows += outline_rows(second, wishes, lambda _: sample(ALONE[1]), "second, ")
    rows += appended_rows(first, "first, ") + appended_rows(second, "second, ")
    rows += tag_rows(first, wishes, lambda _: sample(ALONE[0]), "first, ")
    rows += tag_rows(second, wishes, lambda _: sample(ALONE[1]), "second, ")
    marks = sample(*SHARED), sample(ALONE[0]), sample(ALONE[1])
    rows += [Row(words, mark=mark) for words, mark in zip(about_lines(first, second), marks)]
    return rows + [Row(about_boxes(first, second)), Row("larger rings are the first's", GREY)]


def extent(axis: str, first: float, way_there: str, last: float, millimetres: Optional[float]) -> str:
    """How far the drawing goes, and how long that is where the unit is known."""
    words = f"{axis} from {shown(first)} {way_there} to {shown(last)}"
    return words if millimetres is None else f"{words}: {(last - first) * millimetres:.6g} mm"


def key_rows(frame: Frame, wishes: Wishes, moves: bool, outside: bool) -> List[Row]:
    """What the marks mean, and which way the axes point."""
    dashes = inked([rectangle((4, -5), (SWATCH - 10, 5))], GREY, 1, ' stroke-dasharray="4 4"')
    circle = inked([f'<circle cx="{SWATCH // 2 - 3}" cy="0" r="7"/>'], RED, 2)
    rows = [Row("box of a path", GREY, mark=dashes),
            Row("open point: not a start as often as an end", GREY, mark=circle)]
    if moves:
        mark = inked([way((4, 0), (SWATCH - 10, 0))], GREY, 1, ' stroke-dasharray="2 6"')
        rows.append(Row("move with the pen up", GREY, mark=mark))
    if outside:
        rows.append(Row("line that the old table does not take", GREY, mark=sample((RED, 1))))
    if wishes.under:
        rows.append(Row("the outline of the drawing", GREY, mark=sample((UNDER_COLOUR, UNDER_WIDTH))))
    if wishes.ink:
        mark = f'<g fill="{GREY}" fill-opacity="0.3">{rectangle((4, -6), (SWATCH - 10, 6))}</g>'
        rows.append(Row("ink: what a fill of the path covers, by its own rule", GREY, mark=mark))
    if wishes.tag is not None:
        rows.append(Row("pale: a line of another tag", GREY, mark=sample((pale(GREY), 2))))
    if wishes.arrows:
        head = f'<g fill="{GREY}">{way((20, 0), (8, 5), (8, -5), end="z")}</g>'
        rows.append(Row("the way a line runs, from start to end", GREY, mark=head))
    if not frame.is_empty:
        rows += [Row(extent("x", frame.x0, "rightward", frame.x1, wishes.millimetres), GREY),
                 Row(extent("y", frame.y0, "upward" if frame.up else "downward", frame.y1, wishes.millimetres), GREY)]
    return rows


def bar_drawn(frame: Frame, millimetres: Optional[float], x: float, y: float) -> str:
    """The scale bar, of a round number of units, or of millimetres where a unit's are known."""
    per_unit = 1 if millimetres is None else millimetres
    length = round_length(LONGEST_BAR / frame.scale * per_unit)
    across = length / per_unit * frame.scale
    unit = "mm" if millimetres is not None else "unit" if length == 1 else "units"
    marks = [way((x, y - 5), (x, y + 5)), way((x, y), (x + across, y)), way((x + across, y - 5), (x + across, y + 5))]
    label = text(x + across + 10, y + 5, f"{shown(length)} {unit}")
    return f'<g id="scale">{inked(marks, INK, 2)}{label}</g>'


def width_of(rows: List[Row]) -> float:
    """An estimate on the wide side: how wide a letter is depends on the viewer's font."""
    return max(8.2 * len(row.words) + SWATCH for row in rows)


def rows_drawn(rows: List[Row], x: float, y: float) -> List[str]:
    """Words begin behind the marks, where any row has one."""
    indent = SWATCH if any(row.mark for row in rows) else 0
    drawn = []
    for place, row in enumerate(rows):
        middle = y + ROW * place + ROW / 2
        drawn.append(f'<g transform="translate({pair((x, middle))})">{row.mark}'
                     f"{text(indent, 5, row.words, row.fill, row.weight)}</g>")
    return drawn


class Paper(NamedTuple):
    """A picture before it is one: its size, where the drawing lies on it, the drawing, and the words around it."""

    width: int
    height: int
    area: Tuple[float, float, float, float]
    drawing: List[str]
    words: List[str]


def paper_of(lists: List[Found], wishes: Wishes) -> Paper:
    """The paper of one list, or of two."""
    frame, head = frame_of(lists, wishes.up), head_of(lists)
    if len(lists) == 1:
        drawn, legend = one_drawn(lists[0], frame, wishes), one_rows(lists[0], wishes)
    else:
        first, second = lists
        drawn, legend = two_drawn(first, second, frame, wishes), two_rows(first, second, wishes)
    legend += key_rows(frame, wishes, any(found.moves.paths for found in lists), any(found.outside.paths for found in lists))
    top = MARGIN + ROW * len(head) + MARGIN
    below = top + frame.height + MARGIN
    bar = "" if frame.is_empty else bar_drawn(frame, wishes.millimetres, MARGIN, below)
    beside = MARGIN + max(frame.width, LONGEST_BAR + 3 * MARGIN) + 2 * MARGIN  # labels and the bar need room
    width = math.ceil(max(MARGIN + width_of(head), beside + width_of(legend)) + MARGIN)
    height = math.ceil(max(below, top + ROW * len(legend)) + MARGIN)
    area = MARGIN / 2, top - MARGIN, frame.width + MARGIN, frame.height + 2 * MARGIN
    drawing = [f'<g id="drawing" transform="translate({pair((MARGIN, top))})">', *drawn, "</g>", bar]
    return Paper(width, height, area, drawing, rows_drawn(head, MARGIN, MARGIN) + rows_drawn(legend, beside, top))


def picture_of(lists: List[Found], wishes: Wishes) -> str:
    """The picture of one list, or of two."""
    paper = paper_of(lists, wishes)
    width, height = paper.width, paper.height
    return "\n".join([
        f'<svg xmlns="http://www.w3.org/2000/svg" width="{width}" height="{height}" viewBox="0 0 {width} {height}">',
        f"<style>{STYLE}</style>", f'<rect width="{width}" height="{height}" fill="white"/>', *paper.drawing,
        *paper.words, "</svg>", ""])
