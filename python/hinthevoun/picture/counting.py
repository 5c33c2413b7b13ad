"""Counting: chains, open points, and what two lists share."""
from array import array
from collections import Counter
from itertools import groupby
from typing import Dict, Iterable, List, NamedTuple, Tuple

from ..calls import EMPTY_BOX
from ..columns import Lines, no_lines
from ..lists import Boxes, Listing


class Outline(NamedTuple):
    """A path's number, its lines, and its open points, each with how often it is a start and how often an end."""

    path: int
    lines: Lines
    open: Dict[int, Tuple[int, int]]


class Found(NamedTuple):
    """A list with what was found in it: its outlines, and the indexes of lines that cannot be drawn."""

    name: str
    refusal: str
    lines: Lines
    boxes: Boxes
    moves: Lines
    outside: Lines
    table: str
    outlines: List[Outline]
    far: List[int]


def open_points(lines: Lines) -> Dict[int, Tuple[int, int]]:
    """The points that are not a start as often as an end."""
    starts, ends = Counter(lines.starts), Counter(lines.ends)
    points = dict.fromkeys([*starts, *ends])
    return {point: (starts[point], ends[point]) for point in points if starts[point] != ends[point]}


def runs_of(keys: Iterable[object]) -> List[slice]:
    """Neighbours with the same key, as slices."""
    runs, first = [], 0
    for _, run in groupby(keys):
        behind = first + sum(1 for _ in run)
        runs.append(slice(first, behind))
        first = behind
    return runs


def lines_by_path(lines: Lines) -> Dict[int, Lines]:
    """The lines of each path, which mostly stand together."""
    parts: Dict[int, Lines] = {}
    for run in runs_of(lines.paths):
        part = parts.setdefault(lines.paths[run.start], no_lines())
        for column, more in zip(part, lines.at(run)):
            column.extend(more)
    return parts


def found_in(listing: Listing) -> Found:
    """Every path that has a line or a box. Each is counted alone, so that no other path's lines hide its gap."""
    parts = {**dict.fromkeys(range(len(listing.boxes)), no_lines()), **lines_by_path(listing.lines)}
    outlines = [Outline(path, lines, open_points(lines)) for path, lines in sorted(parts.items())]
    return Found(*listing, outlines, listing.lines.far())


def kinds_of(lines: Lines, by_tag: bool) -> "array[int]":
    """Of each line a number that tells its path, or its path and tag."""
    if not by_tag:
        return lines.paths
    return array("Q", [path << 32 | tag for path, tag in zip(lines.paths, lines.tags)])


def links_of(lines: Lines, kinds: "array[int]") -> List[int]:
    """Of each line: 1 if the next one starts where it ends, -1 if the next one ends where it starts, else 0, and 0 if the
    next one is of another kind."""
    links = [0 if kind != next_kind else 1 if end == next_start else -1 if start == next_end else 0
             for kind, start, end, next_kind, next_start, next_end
             in zip(kinds, lines.starts, lines.ends, kinds[1:], lines.starts[1:], lines.ends[1:])]
    return [*links, 0]


def chains_of(lines: Lines, kinds: "array[int]", most: int) -> List[slice]:
    """The lines cut into chains, slices of one kind in which each line starts where the last ended; a side of a stroke
    that runs backward is a slice backward. A chain of more lines than `most` is cut."""
    links, chains, first = links_of(lines, kinds), [], 0
    while first < len(lines.paths):
        link, behind = links[first], first + 1
        while link and links[behind - 1] == link and behind - first < most:
            behind += 1
        chains.append(slice(behind - 1, first - 1 if first else None, -1) if link < 0 else slice(first, behind))
        first = behind
    return chains


def shared_and_alone(lines: Lines, others: Lines) -> Tuple[Lines, Lines]:
    """The lines that the others hold too, each as often as there, and those that are left. Tags do not count: a line is
    the same wherever its segment stands in the sheet."""
    left = Counter(zip(others.paths, others.starts, others.ends))
    shared: List[int] = []
    alone: List[int] = []
    for index, line in enumerate(zip(lines.paths, lines.starts, lines.ends)):
        (shared if left[line] > 0 else alone).append(index)
        left[line] -= 1
    return lines.at(shared), lines.at(alone)


def boxes_shown(found: Found) -> Dict[int, Tuple[int, ...]]:
    """The boxes to draw, by path: not the empty ones, nor one that a line to infinity has widened past all paper."""
    far = {found.lines.paths[index] for index in found.far}
    boxes = {path: box[:4] for path, box in enumerate(found.boxes) if path not in far}
    return {path: box for path, box in boxes.items() if box != EMPTY_BOX[:4]}
