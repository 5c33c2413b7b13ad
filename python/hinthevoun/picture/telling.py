"""Telling: what was found in lists, in sentences that go to the picture and to standard error."""
from itertools import zip_longest
from typing import Collection, List, Optional, Sequence, Tuple

from ..columns import finite_points, place_of
from ..cutting import Table, reach_of
from ..mending import APPENDED
from ..saying import count
from .counting import Found, Outline, shared_and_alone
from .geometry import greatest_gap

# Of more outlines than this those with open points have a sentence of their own first, and the rest share one.
MOST_OUTLINES = 40
MOST_GAPS = 2000  # both ends of flatlist's 1,000 lines; more would take long


def shown(x: float) -> str:
    """Nine digits tell every f32 from every other."""
    return f"{x:.9g}"


def spanned(thing: str, numbers: Sequence[int]) -> str:
    """`tag 12`, or `tags 12 to 950`."""
    least, greatest = min(numbers), max(numbers)
    return f"{thing} {least}" if least == greatest else f"{thing}s {least} to {greatest}"


def about_drawers(paths: Sequence[int], tags: Sequence[int]) -> str:
    """Whose lines these are. A tag of 0 is one that the list does not tell, and appended lines have none."""
    if set(tags) == {APPENDED}:
        return f"{spanned('path', paths)}, appended when the list was mended"
    return f"{spanned('path', paths)}, {spanned('tag', tags) if any(tags) else 'tag not told'}"


def about_tag(found: Found, tag: int) -> str:
    """How many lines a tag drew, and of how many that is not known."""
    drawn, untold = len(found.lines.drawn_by(tag)), found.lines.tags.count(0)
    rest = f"; of {count(untold, 'line')} the list does not tell the tag: flatten the sheet again" if untold else ""
    return f"tag {tag} drew {count(drawn, 'line') if drawn else 'no line'}{rest}"


def about_gaps(points: Collection[int]) -> str:
    """How near open points lie to each other, which tells a last bit from a lost line."""
    finite = finite_points(points)
    far = len(points) - len(finite)
    words = f", {far:,} of them at infinity" if far else ""
    if 2 <= len(finite) <= MOST_GAPS:
        which = "the others each" if far else "each"
        words += f", {which} within about {greatest_gap(map(place_of, finite)):.3g} of another"
    return words


def about_appended(found: Found) -> List[str]:
    """That the list was mended, if it was."""
    appended = found.lines.tags.count(APPENDED)
    return [f"{count(appended, 'line')} appended when the list was mended"] if appended else []


def about_outline(outline: Outline) -> str:
    points = count(len(outline.open), "open point") + about_gaps(outline.open)
    return f"path {outline.path}: {count(len(outline.lines.paths), 'line')}, {points}"


def told_and_left(outlines: List[Outline]) -> Tuple[List[Outline], List[Outline]]:
    """The outlines that have a sentence each, and those that share one."""
    if len(outlines) <= MOST_OUTLINES:
        return outlines, []
    by_weight = sorted(outlines, key=lambda outline: not outline.open)
    return sorted(by_weight[:MOST_OUTLINES]), by_weight[MOST_OUTLINES:]


def about_left(outlines: List[Outline]) -> str:
    lines = sum(len(outline.lines.paths) for outline in outlines)
    points = sum(len(outline.open) for outline in outlines)
    return f"and {count(len(outlines), 'more path')}: {count(lines, 'line')}, {count(points, 'open point')}"


def about_outlines(outlines: List[Outline]) -> List[str]:
    told, left = told_and_left(outlines)
    return [about_outline(outline) for outline in told] + ([about_left(left)] if left else [])


def lacks_of(found: Found) -> List[str]:
    """What a picture of the list lacks, a sentence each."""
    lacks = []
    if found.refusal:
        lacks.append(f"{found.refusal}; drawn up to there")
    if found.far:
        what = f"{count(len(found.far), 'line')} not drawn, nor the box of the path, since a coordinate is infinite"
        lacks.append(f"{what}; the first is record {found.far[0] + 1:,}")
    return lacks


def notes_of(found: Found) -> List[str]:
    """What a reader may miss, though the picture lacks nothing."""
    notes = [] if found.lines.paths else ["the list has no lines"]
    if found.table:
        beyond = len(found.outside.paths)
        notes.append(f"fits {found.table}" + (f": {count(beyond, 'line')} outside {reach_of(Table.OLD)}" if beyond else ""))
    return notes


def about_lines(first: Found, second: Found) -> Tuple[str, str, str]:
    """Of both lists together: the lines that both have, that only the first has, and that only the second has."""
    shared, alone = shared_and_alone(first.lines, second.lines)
    rest = len(second.lines.paths) - len(shared.paths)
    both = f"{count(len(shared.paths), 'line')} in both"
    return both, f"{len(alone.paths):,} only in the first", f"{rest:,} only in the second"


def about_boxes(first: Found, second: Found) -> str:
    pairs = enumerate(zip_longest(first.boxes, second.boxes))
    differ = [str(path) for path, (box, other) in pairs if box != other]
    return f"boxes differ at path {', '.join(differ)}" if differ else "the boxes are the same"


def sentences_of(lists: List[Found], tag: Optional[int]) -> List[str]:
    """All that is said of one list or two, where one tag may be asked for."""
    said = [f"{found.name}: {sentence}" for found in lists
            for sentence in [*about_outlines(found.outlines), *about_appended(found),
                             *([] if tag is None else [about_tag(found, tag)]), *lacks_of(found), *notes_of(found)]]
    return said + [", ".join(about_lines(*lists)), about_boxes(*lists)] if len(lists) == 2 else said
