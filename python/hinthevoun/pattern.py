"""Drawing fills by commands of the library: moves, lines, quadratics, cubics and ends become tag bytes and point words."""
import ctypes
from contextlib import ExitStack
from typing import Dict, NamedTuple, Sequence

from .buffers import Buffer, Lent
from .opening import load
from .refusals import Reason

WORDS_OF_A_PEN = 7
NO_MOVE, NO_ROOM, NOT_FINITE = 20, 21, 22

NOT_DRAWN: Dict[int, Reason] = {
    NO_MOVE: Reason("a line, quad or cubic with no move since the start or the last end", "move to where the outline begins first"),
    NO_ROOM: Reason("no room for the tag and the points of this command", "lend longer buffers; the pen tells how much is written"),
    NOT_FINITE: Reason("a coordinate is a NaN or an infinity, or too large for an f32", "mend the number"),
}


class Counts(NamedTuple):
    """How many tag bytes and how many point words are written."""

    tags: int
    points: int


class NotDrawn(Exception):
    """A command that the library refused: 20, 21 or 22. The pen and the buffers are as they were."""

    def __init__(self, number: int) -> None:
        super().__init__(number)
        self.number = number

    @property
    def reason(self) -> Reason:
        """Why, and what to mend."""
        return NOT_DRAWN[self.number]

    def __str__(self) -> str:
        return f"refused {self.number}: {self.reason.why}"


class Pen:
    """What is open, its first and last point, and how much is written. A new one has drawn nothing.

    words  its seven words, as include/hinthevoun.h has them; any seven make a pen
    """

    def __init__(self, words: Sequence[int] = (0,) * WORDS_OF_A_PEN) -> None:
        if len(words) != WORDS_OF_A_PEN:
            raise ValueError(f"a pen has {WORDS_OF_A_PEN} words, not {len(words)}")
        self.words = (ctypes.c_uint64 * WORDS_OF_A_PEN)(*words)

    @property
    def counts(self) -> Counts:
        """How many tag bytes and point words are written."""
        return Counts(self.words[5], self.words[6])


def move(pen: Pen, x: float, y: float, tags: Buffer, points: Buffer) -> None:
    """Begins a subpath at (x, y); what is open is finished, with a line to its start where it ends elsewhere.

    pen     goes with every command, and is changed where the command is accepted
    tags    a writable buffer of bytes
    points  a writable buffer of words

    Coordinates become the nearest f32. Raises NotDrawn 22 or 21, and then nothing is changed.
    """
    _command("move", pen, (x, y), tags, points)


def line(pen: Pen, x: float, y: float, tags: Buffer, points: Buffer) -> None:
    """A line to (x, y). Arguments as of `move`. Raises NotDrawn 20, 22 or 21, and then nothing is changed."""
    _command("line", pen, (x, y), tags, points)


def quad(pen: Pen, x1: float, y1: float, x: float, y: float, tags: Buffer, points: Buffer) -> None:
    """A quadratic with the control point (x1, y1) to (x, y). Otherwise as `line`."""
    _command("quad", pen, (x1, y1, x, y), tags, points)


def cubic(pen: Pen, x1: float, y1: float, x2: float, y2: float, x: float, y: float, tags: Buffer, points: Buffer) -> None:
    """A cubic with the control points (x1, y1) and (x2, y2) to (x, y). Otherwise as `line`."""
    _command("cubic", pen, (x1, y1, x2, y2, x, y), tags, points)


def end(pen: Pen, tags: Buffer, points: Buffer) -> None:
    """Finishes what is open, as `move` does. With nothing open it writes nothing. Raises NotDrawn 21."""
    _command("end", pen, (), tags, points)


def _command(name: str, pen: Pen, coordinates: Sequence[float], tags: Buffer, points: Buffer) -> None:
    with ExitStack() as stack:
        bytes_ = stack.enter_context(Lent("tags", tags, True, 1))
        words = stack.enter_context(Lent("points", points, True))
        if bytes_.overlaps(words):
            raise ValueError("tags and points are both written, and overlap")
        lent = (bytes_.address, bytes_.size, words.address, words.size // 4)
        number = getattr(load(), f"hinth_{name}")(pen.words, WORDS_OF_A_PEN, *coordinates, *lent)
    if number:
        raise NotDrawn(number)
