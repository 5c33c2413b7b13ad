"""Geometry: where a point lies on the picture, how near points lie to each other, arrows on a chain, round lengths."""
import math
from array import array
from typing import Iterable, Iterator, List, Sequence, Tuple

from ..columns import places_of

Place = Tuple[float, float]

LONGEST = 800  # of the drawing, in the picture's units
STRIDE = 90  # from arrow to arrow


class Frame:
    """The part of the device that is drawn, and where its points lie on the picture.

    Its corner lies at 0, 0: far from the device's origin a point and a shift would both be large, and viewers, which
    count in f32, would cut off what their difference needs. The scale is a power of two. With `up`, y grows upward.
    """

    def __init__(self, xs: Sequence[float], ys: Sequence[float], up: bool = False) -> None:
        self.is_empty, self.up = not xs, up
        self.x0, self.x1 = (min(xs), max(xs)) if xs else (0, 0)
        self.y0, self.y1 = (min(ys), max(ys)) if ys else (0, 0)
        longest = max(self.x1 - self.x0, self.y1 - self.y0)
        self.scale = math.ldexp(1, math.frexp(LONGEST / longest)[1] - 1) if longest else 1.0
        self.width, self.height = (self.x1 - self.x0) * self.scale, (self.y1 - self.y0) * self.scale

    def at(self, place: Sequence[float]) -> Place:
        x, y = place
        return (x - self.x0) * self.scale, (self.y1 - y if self.up else y - self.y0) * self.scale

    def all_at(self, points: Iterable[int]) -> List[Place]:
        return [self.at(place) for place in zip(*places_of(array("Q", points)))]


def greatest_gap(places: Iterable[Place]) -> float:
    """The greatest of the distances from a place to the nearest other one."""
    ordered = sorted(places)
    return max(nearest_to(ordered, index) for index in range(len(ordered)))


def nearest_to(ordered: List[Place], index: int) -> float:
    """Looks to both sides, as far as x alone can be nearer."""
    best = math.inf
    for step in (1, -1):
        other = index + step
        while 0 <= other < len(ordered) and abs(ordered[other][0] - ordered[index][0]) < best:
            best = min(best, math.dist(ordered[other], ordered[index]))
            other += step
    return best


def heads_along(places: List[Place], most: float) -> Iterator[Tuple[Place, Place, float]]:
    """Arrow heads on a chain, in the middle of a line each: the place, the way as a unit, the size.

    There is one on each chain that has a length, and one about every STRIDE.
    """
    steps = list(zip(places, places[1:]))
    lengths = [math.dist(*step) for step in steps]
    size, walked, due = min(most, sum(lengths) / 2), 0.0, min(sum(lengths), STRIDE) / 2
    for ((x0, y0), (x1, y1)), length in zip(steps, lengths):
        walked += length
        if length and walked >= due:
            yield ((x0 + x1) / 2, (y0 + y1) / 2), ((x1 - x0) / length, (y1 - y0) / length), size
            due = walked + STRIDE


def round_length(most: float) -> float:
    """The greatest of 1, 2 and 5 times a power of ten that is not above most."""
    power = 10.0 ** math.floor(math.log10(most))
    return max(length for length in (power / 2, power, 2 * power, 5 * power) if length <= most)
