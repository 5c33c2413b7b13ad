"""The outlines of path data that the library has taken, so of absolute M, L, Q, C and Z without a fault."""
import re
import struct
from typing import List, Tuple

_COMMAND = re.compile(r"([MLQCZ])([^MLQCZ]*)")
_NUMBER = re.compile(r"[+-]?(?:\d*\.\d+|\d+)")


def commands_of(data: str) -> List[Tuple[str, List[float]]]:
    """Each letter with the numbers behind it."""
    return [(letter, list(map(float, _NUMBER.findall(numbers)))) for letter, numbers in _COMMAND.findall(data)]


def left_open(data: str) -> int:
    """How many outlines end neither with Z nor where they began; the library closes them with a line."""
    count, start, end = 0, b"", b""
    for letter, numbers in commands_of(data):
        if letter == "M":
            count += start != end
            start = point_of(numbers[:2])
        end = start if letter == "Z" else point_of(numbers[-2:])
    return count + (start != end)


def point_of(numbers: List[float]) -> bytes:
    """A point by its f32, with one zero."""
    return struct.pack("<2f", *(number + 0.0 for number in numbers))
