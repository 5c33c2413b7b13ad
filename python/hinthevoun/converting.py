"""A whole sheet converted: its tags and points moved, its bases with them, and whether what is promised of the lines holds.

docs/SHEETS.md lists the conditions; each has a test here, so that no sheet is converted whose lines could differ.
"""
from array import array
from typing import Iterator, NamedTuple, Optional

from .calls import Layout
from .contents import END, F32, STROKE, STYLE, TRANSFORM, TYPE
from .errors import Wrong
from .moving import Moved
from .sheets import Sheet

MOST_TAGS = 2**28
WORDS_OF_A_TRANSFORM, WORDS_OF_A_STYLE = 6, 2


class Head(NamedTuple):
    """A tag, with the sums over the tags before it: transforms less one, style words less two, data words."""

    tag: int
    transform: int
    style: int
    offset: int


def tags_in(sheet: Sheet) -> bytes:
    """All tags that get a turn."""
    first, last = sheet.layout.tag_base, sheet.layout.tag_base + 64 * sheet.layout.n_wg
    if last > len(sheet.scene):
        raise Wrong(f"{sheet.name}: its tags go past the sheet's end; export it again")
    return bytes(sheet.scene[first:last])


def points_of(tag: int) -> int:
    """How many points a tag counts."""
    return (tag & TYPE) + (tag & END) // END


def heads_of(tags: bytes) -> Iterator[Head]:
    """Each tag with its sums. A zero byte has those of its own word of four tags alone."""
    whole, own = [0, 0, 0], [0, 0, 0]
    for i, tag in enumerate(tags):
        if i % 4 == 0:
            own = [0, 0, 0]
        transforms, styles, words = whole if tag else own
        yield Head(tag, transforms - 1, WORDS_OF_A_STYLE * (styles - 1), words)
        more = (tag & TRANSFORM) // TRANSFORM, (tag & STYLE) // STYLE, points_of(tag) * (2 if tag & F32 else 1)
        whole, own = [a + b for a, b in zip(whole, more)], [a + b for a, b in zip(own, more)]


def converted(sheet: Sheet, moved: Moved, counted: int) -> Sheet:
    """The sheet with its tags and its counted point words replaced, and the parts behind the points moved with their bases."""
    layout, old = sheet.layout, sheet.scene.tolist()
    data, behind = layout.data_base, layout.data_base + counted
    words = [int.from_bytes(moved.tags[i:i + 4], "little") for i in range(0, len(moved.tags), 4)]
    if layout.tag_base < behind and data < layout.tag_base + len(words):
        raise Wrong(f"{sheet.name}: its tags and its points share words; export it again")
    old[layout.tag_base:layout.tag_base + len(words)] = words
    scene = [*old[:data], *moved.points, *old[behind:]]
    more = len(moved.points) - counted

    def shifted(base: int) -> int:
        return base + more if base >= behind and base > data else base
    bases = Layout(layout.n_wg, shifted(layout.tag_base), data, shifted(layout.transform_base), shifted(layout.style_base))
    return Sheet(sheet.name, bases, sheet.boxes, memoryview(array("I", scene)), sheet.packed)


def read_at(sheet: Sheet, at: int, count: int) -> Optional[list]:
    """So many words of the scene, or None."""
    return sheet.scene[at:at + count].tolist() if 0 <= at <= len(sheet.scene) - count else None


def unmet(old: Sheet, new: Sheet) -> Optional[str]:
    """The condition that keeps an i16 sheet and its f32 sheet from what is promised, in words, or None. That the old sheet
    is accepted is asked of the library."""
    tags = tags_in(old)
    if len(tags) > MOST_TAGS:
        return f"it has {len(tags):,} tags, and {MOST_TAGS:,} are the most"
    heads = list(heads_of(tags))
    counted = sum(points_of(tag) for tag in tags)
    for i, head in enumerate(heads):
        why = unmet_by(old, new, head, counted, heads[i + 1] if i + 1 < len(heads) else None)
        if why:
            return f"tag {i:,} {why}"
    return None


def unmet_by(old: Sheet, new: Sheet, head: Head, counted: int, behind: Optional[Head]) -> Optional[str]:
    """The same of one tag, with the tag behind it."""
    flags = read_at(old, old.layout.style_base + head.style, 1)
    if read_at(new, new.layout.style_base + head.style, 1) != flags:
        return "would read other style words: no style stands before it, and the styles stand right behind the points"
    if not head.tag & TYPE:
        return None
    if head.offset + max((head.tag & TYPE) + 1, 2) > counted:
        return "reads a point word beyond those that the tags count"
    at = WORDS_OF_A_TRANSFORM * head.transform
    if read_at(old, old.layout.transform_base + at, 6) != read_at(new, new.layout.transform_base + at, 6):
        return "would read another transform: transforms and points share words"
    if flags is None or not flags[0] & STROKE:
        return None
    if read_at(old, old.layout.style_base + head.style + 1, 1) != read_at(new, new.layout.style_base + head.style + 1, 1):
        return "would read another line width: styles and points share words"
    if not head.tag & END and (behind is None or not behind.tag & TYPE):
        return "is a stroked segment without an end bit, and no segment stands directly behind it"
    return None
