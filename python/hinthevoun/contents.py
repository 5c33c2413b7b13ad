"""What a sheet holds: its tags, subpaths, styles and transforms, read as docs/SCENE.md says."""
import struct
from collections import Counter
from typing import Iterator, List, NamedTuple, Optional, Tuple

from .sheets import Sheet

LINE, QUADRATIC, CUBIC = 1, 2, 3
TYPE, END, F32, PATH, TRANSFORM, STYLE = 0x03, 0x04, 0x08, 0x10, 0x20, 0x40
STROKE, EVEN_ODD = 0x80000000, 0x40000000
JOINS = ("bevel", "miter", "round", "no kind of")
CAPS = ("butt", "square", "round", "butt")


class Subpath(NamedTuple):
    """Whether it is stroked, and whether it is closed: None where a style or a point of it is missing, or where no tag
    has its end bit."""

    stroked: Optional[bool]
    closed: Optional[bool]


class Walk(NamedTuple):
    """Where a subpath began and where its last point stands, in words of the scene, its style, and its last tag."""

    first: int
    last: int
    style: int
    tag: int


def tags_of(sheet: Sheet) -> bytes:
    """The tags that a call looks at and that are there, up to the last that is not zero."""
    first = sheet.layout.tag_base
    return bytes(sheet.scene[first:first + 64 * sheet.layout.n_wg]).rstrip(b"\0")


def words_at(sheet: Sheet, at: int, count: int) -> Optional[Tuple[int, ...]]:
    """So many words of the scene, if they are there."""
    return tuple(sheet.scene[at:at + count]) if 0 <= at <= len(sheet.scene) - count else None


def walks_of(sheet: Sheet, tags: bytes) -> Iterator[Walk]:
    """The subpaths, as their tags and points lie one behind the other."""
    at, style = sheet.layout.data_base, -1
    walk: Optional[Walk] = None
    for tag in tags:
        width = 2 if tag & F32 else 1
        if tag & TYPE:
            walk = Walk(walk.first if walk else at, at + width * (tag & TYPE), style, tag)
        at += width * ((tag & TYPE) + (tag & END) // END)
        if walk and tag & (END | PATH):
            yield walk
            walk = None
        style += (tag & STYLE) // STYLE
    if walk:
        yield walk


def subpath_of(sheet: Sheet, walk: Walk) -> Subpath:
    """A stroked subpath says by its marker whether it is closed, a filled one by its first and last point."""
    flags = words_at(sheet, sheet.layout.style_base + 2 * walk.style, 1)
    stroked = None if flags is None else bool(flags[0] & STROKE)
    if stroked is None or not walk.tag & END:
        return Subpath(stroked, None)
    if stroked:
        return Subpath(True, walk.tag & TYPE == LINE)
    width = 2 if walk.tag & F32 else 1
    first, last = words_at(sheet, walk.first, width), words_at(sheet, walk.last, width)
    return Subpath(False, None if last is None else first == last)


def subpaths_of(sheet: Sheet, tags: bytes) -> List[Subpath]:
    """The subpaths, in order."""
    return [subpath_of(sheet, walk) for walk in walks_of(sheet, tags)]


def number(word: int) -> str:
    """An f32, told by nine digits, which tell it from every other."""
    return f"{struct.unpack('<f', struct.pack('<I', word))[0]:.9g}"


def limit(word: int) -> str:
    """A binary16."""
    return f"{struct.unpack('<e', struct.pack('<H', word & 0xffff))[0]:g}"


def about_style(flags: int, width: int) -> str:
    """A style in words."""
    if not flags & STROKE:
        return f"fill by the {'even-odd' if flags & EVEN_ODD else 'nonzero'} rule"
    join, start, end = flags >> 28 & 3, CAPS[flags >> 26 & 3], CAPS[flags >> 24 & 3]
    joined = f"{JOINS[join]} joins" + (f" up to {limit(flags)}" if join == 1 else "")
    return f"stroke of width {number(width)}, {joined}, caps {start} and {end}"


def styles_of(sheet: Sheet, count: int) -> "Counter[str]":
    """The kinds of styles that so many style tags begin, each with how many."""
    words = [words_at(sheet, sheet.layout.style_base + 2 * i, 2) for i in range(count)]
    return Counter("missing: behind the sheet's end" if pair is None else about_style(*pair) for pair in words)


def transforms_of(sheet: Sheet, count: int) -> "Counter[str]":
    """The same of transforms, as their six numbers."""
    words = [words_at(sheet, sheet.layout.transform_base + 6 * i, 6) for i in range(count)]
    return Counter("missing: behind the sheet's end" if six is None else ", ".join(map(number, six)) for six in words)
