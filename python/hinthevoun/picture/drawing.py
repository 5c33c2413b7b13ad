"""Drawing: the marks of a picture, as SVG."""
from collections import Counter
from itertools import accumulate, groupby, islice
from typing import Callable, Iterable, Iterator, List, NamedTuple, Optional, Sequence, Tuple
from xml.sax.saxutils import escape

from ..columns import Lines, finite_points, place_of, places_of
from ..mending import APPENDED
from ..saying import count
from ..svg.outlines import commands_of
from . import ink
from .counting import Found, Outline, boxes_shown, chains_of, kinds_of, runs_of, shared_and_alone
from .geometry import Frame, Place, heads_along
from .telling import MOST_OUTLINES, about_drawers, shown

# Okabe and Ito's colours, which people with colour blindness can tell apart, but for the yellow, which white paper
# hides, and the vermilion, which is too near to the red of the rings.
PALETTE = ["#0072b2", "#e69f00", "#009e73", "#cc79a7", "#000000", "#56b4e9"]
INK, GREY, RED = "#222222", "#555555", "#d00000"
# For each of two lists: colour and width of a line that both have, and of one that only this list has.
SHARED = [("#b5daf0", 6), ("#d97f26", 1.5)]
ALONE = [("#0072b2", 6), ("#b85c00", 3)]
# A line that was appended when the list was mended.
MENDED_COLOUR, MENDED_WIDTH = "#8a2be2", 4
# Of more open points each is a dot without words, so that the picture can still be opened.
MOST_RINGS = 10_000
# Lines in one element: viewers take very long for one with many more, and for very many elements.
MOST_LINES = 1000
# Elements with one tag's lines each. With more, lines of several tags share an element and its title.
MOST_TAGS = 20_000
# The outline of a drawing under its lines.
UNDER_COLOUR, UNDER_WIDTH = "#f5cf9a", 7
# Where one tag is asked for: how wide its lines are in one list, and how much is left of the colour of all others.
STRONG, PALE = 5, 0.45

Colours = Callable[[int], str]  # of a path


class Under(NamedTuple):
    """An outline that lies under the lines: path data that the library takes, and the six numbers that take it to the lines'
    units."""

    data: str
    matrix: Tuple[float, ...]


class Wishes(NamedTuple):
    """What is asked of a picture: how many millimetres a unit has, if that is known, whether arrows are drawn, whether
    what a fill inks is shaded, the tag whose lines are drawn strong, if there is one, for how many tags an element
    of its own is not too much, whether y grows upward, and what lies under the lines of one list."""

    millimetres: Optional[float] = None
    arrows: bool = False
    ink: bool = False
    tag: Optional[int] = None
    most_tags: int = MOST_TAGS
    up: bool = False
    under: Optional[Under] = None


class Layer(NamedTuple):
    """Lines that are drawn alike: their colour and width, and both where their tag is asked for; and what is said before
    and behind their path and tag."""

    lines: Lines
    colour: str
    width: float
    strong: Tuple[str, float]
    before: str = ""
    behind: str = ""


def digits(x: float) -> str:
    """Six digits, so at most 0.0005 off: no drawing is longer than 800 of the picture's units."""
    return f"{x:.6g}"


def pair(place: Place) -> str:
    return "%.6g %.6g" % place


def text(x: float, y: float, words: str, fill: str = INK, weight: str = "normal", size: int = 14) -> str:
    return (f'<text x="{digits(x)}" y="{digits(y)}" font-family="sans-serif" font-size="{size}" '
            f'font-weight="{weight}" fill="{fill}">{escape(words)}</text>')


def way(*places: Place, end: str = "") -> str:
    """A path through the places."""
    return f'<path d="M{" ".join(map(pair, places))}{end}"/>'


def rectangle(corner: Place, far_corner: Place) -> str:
    """A path, since SVG shows no rectangle that is flat."""
    (x0, y0), (x1, y1) = corner, far_corner
    return way((x0, y0), (x1, y0), (x1, y1), (x0, y1), end="z")


def inked(marks: Iterable[str], colour: str, width: float, more: str = "") -> str:
    """Ends are round, so a line whose ends meet is seen as a dot."""
    return (f'<g stroke="{colour}" stroke-width="{width}" fill="none" stroke-linecap="round" stroke-linejoin="round"'
            f'{more}>{"".join(marks)}</g>')


def frame_of(lists: List[Found], up: bool = False) -> Frame:
    xs: List[float] = []
    ys: List[float] = []
    for found in lists:
        lines = found.lines.drawable()
        corners = [box[i:i + 2] for box in boxes_shown(found).values() for i in (0, 2)]
        for column, more in ((xs, 0), (ys, 1)):
            column += [*places_of(lines.starts)[more], *places_of(lines.ends)[more], *(c[more] for c in corners)]
    return Frame(xs, ys, up)


def places_along(lines: Lines, chain: slice, frame: Frame) -> List[Place]:
    return frame.all_at([lines.starts[chain.start], *lines.ends[chain]])


def chains_drawn(layer: Layer, frame: Frame, by_tag: bool) -> Iterator[str]:
    """Of each chain the start, and every end. Those of about MOST_LINES together share an element, if they are of one tag
    or tags do not count; its title tells whose they are."""
    lines, kinds = layer.lines, kinds_of(layer.lines, by_tag)
    chains = chains_of(lines, kinds, MOST_LINES)
    starts = frame.all_at([lines.starts[chain.start] for chain in chains])
    ends = list(map(pair, frame.all_at(lines.ends)))
    parts = [f'M{pair(start)} {" ".join(ends[chain])}' for start, chain in zip(starts, chains)]
    behind = [0, *accumulate(part.count(" ") // 2 for part in parts)]  # the lines up to each chain
    shelves = [(total // MOST_LINES, kinds[total - 1] if by_tag else 0) for total in behind[1:]]
    for run in runs_of(shelves):
        held = slice(behind[run.start], behind[run.stop])
        title = f"{layer.before}{about_drawers(lines.paths[held], lines.tags[held])}{layer.behind}"
        yield f'<path d="{"".join(parts[run])}"><title>{title}</title></path>\n'


def head_drawn(place: Place, forth: Place, size: float) -> str:
    """A triangle around the place, its tip ahead."""
    (x, y), (u, v), half = place, forth, size / 2
    back = x - half * u, y - half * v
    side = 0.8 * half
    return way((x + half * u, y + half * v), (back[0] - side * v, back[1] + side * u),
               (back[0] + side * v, back[1] - side * u), end="z")


def heads_drawn(layer: Layer, frame: Frame) -> str:
    """Arrow heads, larger on wider lines. The pointer goes through them, to the line."""
    lines = layer.lines
    heads = [head_drawn(*head) for chain in chains_of(lines, lines.paths, MOST_LINES)
             for head in heads_along(places_along(lines, chain, frame), 7 + 2 * layer.width)]
    return f'<g fill="{layer.colour}" class="heads" pointer-events="none">{"".join(heads)}</g>'


def layer_drawn(layer: Layer, frame: Frame, by_tag: bool, arrows: bool) -> str:
    drawn = inked(chains_drawn(layer, frame, by_tag), layer.colour, layer.width, ' class="lines"')
    return drawn + ("\n" + heads_drawn(layer, frame) if arrows else "")


def are_few_tags(layers: List[Layer], most: int) -> bool:
    """Whether each tag's lines can have an element of their own."""
    drawers = (drawer for layer in layers for drawer in zip(layer.lines.paths, layer.lines.tags))
    return sum(1 for _ in islice(groupby(drawers), most + 1)) <= most


def pale(colour: str) -> str:
    """Mixed with white."""
    return "#" + "".join(f"{round(255 - PALE * (255 - int(colour[i:i + 2], 16))):02x}" for i in (1, 3, 5))


def with_tag_strong(layers: List[Layer], tag: int) -> List[Layer]:
    """The tag's lines strong, over all others, which are pale."""
    others, chosen = [], []
    for layer in layers:
        drawn = layer.lines.drawn_by(tag)
        others.append(layer._replace(lines=layer.lines.without(drawn), colour=pale(layer.colour)))
        if drawn:
            colour, width = layer.strong
            chosen.append(layer._replace(lines=layer.lines.at(drawn), colour=colour, width=width))
    return others + chosen


def with_appended_apart(layers: List[Layer]) -> List[Layer]:
    """Lines that no tag drew but the mending of the list, in their own colour over all others."""
    others, appended = [], []
    for layer in layers:
        drawn = layer.lines.drawn_by(APPENDED)
        others.append(layer._replace(lines=layer.lines.without(drawn)))
        if drawn:
            appended.append(layer._replace(lines=layer.lines.at(drawn), colour=MENDED_COLOUR, width=MENDED_WIDTH,
                                           strong=(MENDED_COLOUR, STRONG)))
    return others + appended


def layers_drawn(layers: List[Layer], frame: Frame, wishes: Wishes) -> List[str]:
    layers = with_appended_apart([layer._replace(lines=layer.lines.drawable()) for layer in layers])
    if wishes.tag is not None:
        layers = with_tag_strong(layers, wishes.tag)
    by_tag = are_few_tags(layers, wishes.most_tags)
    return [layer_drawn(layer, frame, by_tag, wishes.arrows) for layer in layers]


def box_drawn(box: Sequence[int], frame: Frame, colour: str, side: int) -> str:
    """The second list's dashes fill the gaps of the first's."""
    dashes = f' stroke-dasharray="4 8" stroke-dashoffset="{6 * side}" class="box"'
    return inked([rectangle(frame.at(box[:2]), frame.at(box[2:]))], colour, 1, dashes)


def boxes_drawn(found: Found, frame: Frame, colour_of: Colours, side: int, taken: "Counter[Place]") -> List[str]:
    """`taken` counts the labels at a corner, so that none lies on another. Many boxes have none: they would hide all."""
    boxes, drawn = boxes_shown(found), []
    for path, box in boxes.items():
        x, y = frame.at(box[:2])
        drawn.append(box_drawn(box, frame, colour_of(path), side))
        if len(boxes) <= MOST_OUTLINES:
            drawn.append(text(x + 60 * taken[x, y], y - 6, f"path {path}", colour_of(path), size=12))
        taken[x, y] += 1
    return drawn


def moves_drawn(found: Found, frame: Frame, colour: str) -> List[str]:
    """Where a knife goes with the pen up, dashed. The pointer goes through them, to a line."""
    starts, ends = frame.all_at(found.moves.starts), frame.all_at(found.moves.ends)
    moves = [way(start, end) for start, end in zip(starts, ends)]
    dashes = ' stroke-dasharray="2 6" class="moves" pointer-events="none"'
    return [inked(moves, colour, 1, dashes)] if moves else []


def outside_drawn(found: Found, frame: Frame) -> List[str]:
    """The lines of a cut that the old table does not take, edged in red. The pointer goes through them, to a line."""
    starts, ends = frame.all_at(found.outside.starts), frame.all_at(found.outside.ends)
    lines = [way(start, end) for start, end in zip(starts, ends)]
    return [inked(lines, RED, 1, ' class="outside" pointer-events="none"')] if lines else []


def under_drawn(under: Under, frame: Frame) -> str:
    """The outline under the lines. The pointer goes through it, to a line."""
    a, b, c, d, e, f = under.matrix
    parts: List[str] = []
    for letter, numbers in commands_of(under.data):
        places = [(a * x + c * y + e, b * x + d * y + f) for x, y in zip(numbers[0::2], numbers[1::2])]
        parts += [letter, *(pair(frame.at(place)) for place in places)]
    return inked([f'<path d="{" ".join(parts)}"/>'], UNDER_COLOUR, UNDER_WIDTH, ' class="under" pointer-events="none"')


def ring(outline: Outline, point: int, frame: Frame, radius: int) -> str:
    place, (starts, ends) = place_of(point), outline.open[point]
    cx, cy = map(digits, frame.at(place))
    where = ", ".join(map(shown, place))
    title = f"path {outline.path}, ({where}): {count(starts, 'start')}, {count(ends, 'end')}"
    return f'<circle cx="{cx}" cy="{cy}" r="{radius}"><title>{title}</title></circle>\n'


def rings_drawn(found: Found, frame: Frame, radius: int) -> str:
    finite = [(outline, finite_points(outline.open)) for outline in found.outlines]
    if sum(len(points) for _, points in finite) > MOST_RINGS:
        dots = [f"M{pair(place)}h0" for _, points in finite for place in frame.all_at(points)]
        parts = ["".join(dots[first:first + MOST_LINES]) for first in range(0, len(dots), MOST_LINES)]
        return inked([f'<path d="{part}"/>\n' for part in parts], RED, radius, ' class="dots" pointer-events="none"')
    rings = [ring(outline, point, frame, radius) for outline, points in finite for point in points]
    return inked(rings, RED, 2, ' pointer-events="all"')


def shade(outline: Outline, rule: str, frame: Frame, colour: str) -> str:
    """What a fill of the path inks. It is one element, since an opening is one only beside its outline."""
    loops = ink.loops_of(ink.chains_of(outline))
    parts = [f'M{" ".join(map(pair, frame.all_at(loop)))}z' for loop in loops]
    return (f'<g fill="{colour}" fill-opacity="0.3" class="ink"><path fill-rule="{rule.replace("-", "")}" '
            f'd="{"".join(parts)}"><title>path {outline.path}, ink by the {rule} rule</title></path></g>\n')


def ink_drawn(found: Found, frame: Frame, colour_of: Colours) -> List[str]:
    return [shade(outline, ink.rule_of(found, outline.path), frame, colour_of(outline.path))
            for outline in found.outlines if outline.lines.paths and ink.is_inked(outline)]


def path_colour(path: int) -> str:
    return PALETTE[path % len(PALETTE)]


def list_colours() -> List[Colours]:
    """Of each of two lists the colour of its paths, which is one for all."""
    return [lambda path: ALONE[0][0], lambda path: ALONE[1][0]]


def one_drawn(found: Found, frame: Frame, wishes: Wishes) -> List[str]:
    drawn = [under_drawn(wishes.under, frame)] if wishes.under else []
    drawn += ink_drawn(found, frame, path_colour) if wishes.ink else []
    drawn += boxes_drawn(found, frame, path_colour, 0, Counter())
    colours = [path_colour(outline.path) for outline in found.outlines]
    layers = [Layer(outline.lines, colour, 2, (colour, STRONG)) for outline, colour in zip(found.outlines, colours)]
    drawn += layers_drawn(layers, frame, wishes) + moves_drawn(found, frame, INK) + outside_drawn(found, frame)
    return drawn + [rings_drawn(found, frame, 8)]


def layers_of_two(first: Found, second: Found) -> Iterator[Layer]:
    """Of each list what both have, and what only it has."""
    for side, (found, other) in enumerate(((first, second), (second, first))):
        name = ("first", "second")[side]
        shared, alone = shared_and_alone(found.lines, other.lines)
        yield Layer(shared, *SHARED[side], ALONE[side], f"{name}, ", ": in both")
        yield Layer(alone, *ALONE[side], ALONE[side], f"{name}, ", f": only in the {name}")


def two_drawn(first: Found, second: Found, frame: Frame, wishes: Wishes) -> List[str]:
    drawn: List[str] = []
    taken: "Counter[Place]" = Counter()
    for found, colour in zip((first, second), list_colours()):
        drawn += ink_drawn(found, frame, colour) if wishes.ink else []
    for side, (found, colour) in enumerate(zip((first, second), list_colours())):
        drawn += boxes_drawn(found, frame, colour, side, taken)
    drawn += layers_drawn(list(layers_of_two(first, second)), frame, wishes)
    for found, (colour, _) in zip((first, second), ALONE):
        drawn += moves_drawn(found, frame, colour) + outside_drawn(found, frame)
    return drawn + [rings_drawn(first, frame, 11), rings_drawn(second, frame, 7)]
