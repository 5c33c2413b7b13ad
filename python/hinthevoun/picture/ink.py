"""Ink: what a fill would ink of a path, by the path's own rule."""
import math
from typing import Dict, List, Optional

from ..columns import Lines, place_of
from .counting import Found, Outline

# Of more open points the gaps are not searched for their nearest partners, which would take long.
MOST_GAPS = 600

Chain = List[int]  # its points


def rule_of(found: Found, path: int) -> str:
    """The rule by which a path inks: its box's draw flags say; nonzero where it has no box."""
    flags = found.boxes[path][4] if path < len(found.boxes) else 0
    return "even-odd" if flags & 1 else "nonzero"


def chains_of(outline: Outline) -> List[Chain]:
    """The lines one behind the other, each starting where the last one ended; those first that start at a gap, so that
    no chain is cut where none is."""
    lines = outline.lines
    waiting: Dict[int, List[int]] = {}
    for index in range(len(lines.starts) - 1, -1, -1):
        waiting.setdefault(lines.starts[index], []).append(index)
    gaps = [point for point, (starts, ends) in outline.open.items() for _ in range(starts - ends)]
    chains = [chain_from(point, lines, waiting) for point in gaps]
    for point in lines.starts:
        while waiting[point]:
            chains.append(chain_from(point, lines, waiting))
    return chains


def chain_from(point: int, lines: Lines, waiting: Dict[int, List[int]]) -> Chain:
    """From the point on, along lines that were not taken yet."""
    chain = [point]
    while waiting.get(point):
        point = lines.ends[waiting[point].pop()]
        chain.append(point)
    return chain


def loops_of(chains: List[Chain]) -> List[Chain]:
    """The chains, with each open end joined to a near open start, so that all are loops. A gap of a last bit between
    the parts of a stroke is so closed where it is, and not by a line across the drawing."""
    closed = [chain for chain in chains if chain[0] == chain[-1]]
    opened = [chain for chain in chains if chain[0] != chain[-1]]
    following = partners_of(opened) if len(opened) <= MOST_GAPS else list(range(len(opened)))
    left: List[Optional[Chain]] = list(opened)
    for first in range(len(opened)):
        loop: Chain = []
        index = first
        while left[index] is not None:
            loop += left[index] or []
            left[index] = None
            index = following[index]
        if loop:
            closed.append(loop)
    return closed


def partners_of(chains: List[Chain]) -> List[int]:
    """For each chain the one whose start its end is joined to: the nearest pairs first."""
    starts, ends = ([place_of(chain[at]) for chain in chains] for at in (0, -1))
    pairs = sorted((math.dist(end, start), i, j) for i, end in enumerate(ends) for j, start in enumerate(starts))
    following: Dict[int, int] = {}
    taken = set()
    for _, i, j in pairs:
        if i not in following and j not in taken:
            following[i] = j
            taken.add(j)
    return [following[i] for i in range(len(chains))]


def is_inked(outline: Outline) -> bool:
    """A path with a line to infinity has no ink that could be drawn."""
    return not outline.lines.far()
