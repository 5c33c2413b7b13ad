"""Lines as columns: what is counted and drawn."""
import math
import struct
import sys
from array import array
from itertools import compress
from typing import Iterable, List, NamedTuple, Tuple, Union

from .words import in_reading_order


class Lines(NamedTuple):
    """Four columns, a line at each index. A point is one number: the bits of x above those of y. A tag of 0 is one that
    the list does not tell: no tag 0 draws, as no transform stands before it, and lists had 0 there once."""

    paths: "array[int]"
    tags: "array[int]"
    starts: "array[int]"
    ends: "array[int]"

    def at(self, indexes: Union[slice, List[int]]) -> "Lines":
        """The lines at these indexes, or in a slice."""
        if isinstance(indexes, slice):
            return Lines(*(column[indexes] for column in self))
        return Lines(*(array(column.typecode, [column[i] for i in indexes]) for column in self))

    def far(self) -> List[int]:
        """The indexes of those with an infinite coordinate, which cannot be drawn."""
        columns = [*places_of(self.starts), *places_of(self.ends)]
        if all(all(map(math.isfinite, column)) for column in columns):
            return []
        return [i for i, place in enumerate(zip(*columns)) if not all(map(math.isfinite, place))]

    def drawable(self) -> "Lines":
        """Those without an infinite coordinate."""
        return self.without(self.far())

    def without(self, indexes: List[int]) -> "Lines":
        """Those that are not at these indexes."""
        gone = set(indexes)
        return self.at([i for i in range(len(self.paths)) if i not in gone]) if gone else self

    def drawn_by(self, tag: int) -> List[int]:
        """The indexes of those that a tag drew."""
        return [i for i, drawer in enumerate(self.tags) if drawer == tag] if tag and tag in self.tags else []


def no_lines() -> Lines:
    return Lines(array("I"), array("I"), array("Q"), array("Q"))


def column_of(kind: str, data: bytes) -> array:
    """An array of the numbers that stand in the bytes, each with its highest byte first."""
    column = array(kind, data)
    if sys.byteorder == "little":
        column.byteswap()
    return column


def lines_of_words(words: Union["array[int]", memoryview]) -> Lines:
    """The columns of records of six words."""
    data = in_reading_order(array("I", bytes(words))).tobytes()
    singles, pairs = column_of("I", data), column_of("Q", data)
    return Lines(singles[0::6], singles[1::6], pairs[1::3], pairs[2::3])


def lines_of_numbers(numbers: "array[int]") -> Lines:
    """The columns of lines of four whole numbers that an f32 holds, of path 0 and no tag."""
    pairs = column_of("Q", struct.pack(f">{len(numbers)}f", *numbers))
    zeros = array("I", bytes(4 * (len(pairs) // 2)))
    return Lines(zeros, zeros[:], pairs[0::2], pairs[1::2])


def moves_between(lines: Lines) -> Lines:
    """From where a line ends to where the next one starts, if that is elsewhere."""
    ends, starts = lines.ends[:-1], lines.starts[1:]
    apart = [i for i, (end, start) in enumerate(zip(ends, starts)) if end != start]
    return Lines(lines.paths[:-1], lines.tags[:-1], ends, starts).at(apart)


def places_of(points: "array[int]") -> Tuple[array, array]:
    """The x of each point, and the y."""
    ordered = array("Q", points)
    if sys.byteorder == "little":
        ordered.byteswap()
    floats = column_of("f", ordered.tobytes())
    return floats[0::2], floats[1::2]


def place_of(point: int) -> Tuple[float, float]:
    """The x and y of one point."""
    x, y = struct.unpack(">2f", struct.pack(">Q", point))
    return x, y


def finite_points(points: Iterable[int]) -> List[int]:
    """Those with no infinite coordinate."""
    points = list(points)
    finite = [math.isfinite(x) and math.isfinite(y) for x, y in zip(*places_of(array("Q", points)))]
    return list(compress(points, finite))
