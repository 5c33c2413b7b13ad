"""hinth info: what a sheet holds."""
from collections import Counter
from itertools import chain
from typing import Iterable, Iterator, List, Tuple

from ..calls import EMPTY_BOX
from ..cli import DONE, Parser
from ..contents import CUBIC, F32, LINE, PATH, QUADRATIC, STYLE, TRANSFORM, TYPE, Subpath, styles_of, subpaths_of, \
    tags_of, transforms_of
from ..errors import NoLibrary
from ..files import name_of, source, target
from ..flattening import Answer, flattened
from ..interrupting import stops_at_once
from ..lists import boxes_of
from ..progress import Progress
from ..saying import count
from ..sheets import HEAD, Sheet, read_sheet

HELP = """usage: hinth info SHEET

Tells what a sheet holds: its size, its tags by kind, subpaths open and closed, styles, transforms, and what it is
flattened to.

  SHEET    the sheet, as text or packed; - is standard input

Examples:

  hinth info samples/socket.sheet
  hinth info - < samples/socket.sheet

A filled subpath is closed if it ends on the very point where it began; a stroked one if its marker says so (docs/SCENE.md).
The exit status is 0, also for a sheet that is refused, and 2 for a file that is no sheet: then a sentence says where.
"""

MOST_KINDS = 12  # of styles and of transforms, that are told
MOST_LINES = 10_000_000  # that are counted

Row = Tuple[str, str]


def arguments(parser: Parser) -> None:
    """What the command takes."""
    parser.add_argument("sheet", metavar="SHEET")


def size_rows(sheet: Sheet, tags: bytes) -> Iterator[Row]:
    """The size, and where the parts stand."""
    layout, words = sheet.layout, len(sheet.scene)
    yield "form", "packed words" if sheet.packed else "text, a word a line"
    yield "size", f"{count(words + HEAD, 'word')}: a head of {HEAD} and a scene of {words:,}"
    bases = [f"{part} at {base:,}" + ("" if base <= words else " (past the end)") for part, base in
             zip(("tags", "data", "transforms", "styles"), layout[1:])]
    yield "parts", ", ".join(bases)
    wanted, there = 256 * layout.n_wg, 4 * max(0, words - layout.tag_base)
    lack = f", of which {wanted - there:,} lie past the sheet's end" if there < wanted else ""
    yield "tags", f"{count(layout.n_wg, 'workgroup')} of 256{lack}; {len(tags):,} up to the last that is not zero"


def tag_rows(sheet: Sheet, kinds: "Counter[int]") -> Iterator[Row]:
    """The tags by kind."""
    def having(bits: int, value: int) -> int:
        return sum(n for tag, n in kinds.items() if tag & bits == value)
    segments = [count(having(TYPE, LINE), "line"), count(having(TYPE, QUADRATIC), "quadratic"),
                count(having(TYPE, CUBIC), "cubic")]
    yield "segments", ", ".join(segments)
    f32 = sum(n for tag, n in kinds.items() if tag & TYPE and tag & F32)
    i16 = sum(n for tag, n in kinds.items() if tag & TYPE and not tag & F32)
    yield "points", f"f32 in {count(f32, 'segment')}, i16 in {count(i16, 'segment')}"
    yield "paths", f"{having(PATH, PATH):,}; boxes: {sheet.boxes:,}"


def subpath_rows(sheet: Sheet, tags: bytes) -> Iterator[Row]:
    """The subpaths of fills and of strokes, closed and open."""
    found = Counter(subpaths_of(sheet, tags))
    for stroked, what in ((False, "filled"), (True, "stroked"), (None, "no style")):
        closed, opened, unknown = (found[Subpath(stroked, closed)] for closed in (True, False, None))
        if closed or opened or unknown:
            rest = f", {unknown:,} without an end or with points missing" if unknown else ""
            yield what, f"{count(closed + opened + unknown, 'subpath')}: {closed:,} closed, {opened:,} open{rest}"


def kind_rows(what: str, kinds: "Counter[str]") -> Iterator[Row]:
    """The kinds of styles or transforms, the most frequent first."""
    yield f"{what}s", f"{sum(kinds.values()):,}"
    for kind, n in kinds.most_common(MOST_KINDS):
        yield "", f"{n:,} × {kind}"
    if len(kinds) > MOST_KINDS:
        yield "", f"and {count(len(kinds) - MOST_KINDS, 'more kind')}"


def extent_of(answer: Answer) -> str:
    """What all boxes lie within."""
    boxes = [box for box in boxes_of(answer) if box[:4] != EMPTY_BOX[:4]]
    if not boxes:
        return ""
    x0, y0, x1, y1 = (end(column) for end, column in zip((min, min, max, max), zip(*boxes)))
    return f", x from {x0:,} to {x1:,}, y from {y0:,} to {y1:,}"


def drawn_rows(sheet: Sheet) -> Iterator[Row]:
    """What the library makes of it."""
    try:
        with stops_at_once():
            answer = flattened(sheet, MOST_LINES)
    except NoLibrary as why:
        yield "drawn", f"not known: {why}"
        return
    stored = count(len(answer.lines) // 6, "line")
    if answer.refusal and answer.refusal.number == 6:
        yield "drawn", f"more than {stored}{extent_of(answer)} so far"
    elif answer.refusal:
        yield "drawn", f"{answer.refusal.sentence}, behind {stored}"
    else:
        yield "drawn", stored + extent_of(answer)


def rows_of(sheet: Sheet) -> Iterable[Row]:
    """All that is told."""
    tags = tags_of(sheet)
    kinds = Counter(tags)
    styles, transforms = (sum(n for tag, n in kinds.items() if tag & bit) for bit in (STYLE, TRANSFORM))
    return chain(size_rows(sheet, tags), tag_rows(sheet, kinds), subpath_rows(sheet, tags),
                 kind_rows("style", styles_of(sheet, styles)),
                 kind_rows("transform", transforms_of(sheet, transforms)), drawn_rows(sheet))


def run(options) -> int:
    """Reads, and tells."""
    name = name_of(options.sheet)
    with Progress(f"reading {name}"):
        with source(options.sheet) as stream:
            sheet = read_sheet(name, stream)
        rows: List[str] = [f"{name}\n", *(f"  {what:<11} {told}\n" for what, told in rows_of(sheet))]
    with target("-") as out:
        out.write("".join(rows).encode())
    return DONE
