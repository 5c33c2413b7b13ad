"""Drawing a whole sheet: outlines by commands, with the transform, style and path tags that stay with the caller."""
import struct
import sys
from array import array
from pathlib import Path
from typing import Callable, List, Optional, Sequence, Tuple, Union

from . import pattern
from .calls import Layout
from .contents import END, PATH, STYLE, TRANSFORM, TYPE
from .flattening import WORDS_OF_A_WORKGROUP, Answer, flattened
from .importing import NotImported, import_path
from .lists import listing_of_answer
from .pattern import NO_ROOM, NotDrawn, Pen
from .picture.counting import found_in
from .picture.paper import Wishes, picture_of
from .sheets import Sheet as Read
from .sheets import sheet_of

EVEN_ODD = 0x40000000
TAGS_OF_A_WORKGROUP = 256


class Sheet:
    """A sheet of filled paths. Draw outlines with move, line, quad, cubic and end; `path` makes a path of them.

        sheet = Sheet(scale=2)
        sheet.move(10, 20).line(10, 80).cubic(10, 110, 40, 120, 70, 120).end()
        sheet.path()
        sheet.write("part.sheet")

    A transform holds for all of it, six numbers as docs/SCENE.md has them, or a scale; `place` gives the paths behind it
    another one. Outlines are closed by themselves. Each command gives the sheet back, so that commands can be strung together.
    """

    def __init__(self, scale: float = 1.0, transform: Optional[Sequence[float]] = None) -> None:
        self._transforms = [six(transform if transform else (scale, 0.0, 0.0, scale, 0.0, 0.0))]
        self._placed = 0  # how many of them have their tag
        self._pen, self._tags, self._points = Pen(), bytearray(64), array("I", bytes(4 * 256))
        self._done: List[bytes] = []  # the tags of each path
        self._drawn = 0  # how many tags of the pen are in them
        self._styles: List[int] = []

    def move(self, x: float, y: float) -> "Sheet":
        """Begins an outline."""
        return self._command(pattern.move, x, y)

    def line(self, x: float, y: float) -> "Sheet":
        """A line to (x, y)."""
        return self._command(pattern.line, x, y)

    def quad(self, x1: float, y1: float, x: float, y: float) -> "Sheet":
        """A quadratic with one control point."""
        return self._command(pattern.quad, x1, y1, x, y)

    def cubic(self, x1: float, y1: float, x2: float, y2: float, x: float, y: float) -> "Sheet":
        """A cubic with two control points."""
        return self._command(pattern.cubic, x1, y1, x2, y2, x, y)

    def end(self) -> "Sheet":
        """Finishes the outline, with a line to its start where it ends elsewhere."""
        return self._command(pattern.end)

    def data(self, text: Union[str, bytes]) -> "Sheet":
        """Draws the path data of an SVG: absolute M, L, Q, C and Z. Raises NotImported, and then the sheet is as it was."""
        text = text.encode() if isinstance(text, str) else text
        before, tags = list(self._pen.words), bytes(self._tags)
        while True:
            try:
                import_path(self._pen, text, self._tags, self._points)
                return self
            except NotImported as refused:
                self._pen, self._tags[:len(tags)] = Pen(before), tags  # what was open may have got its end bit
                if refused.number != NO_ROOM:
                    raise
                self._grow()

    def place(self, transform: Sequence[float]) -> "Sheet":
        """Gives the paths from here on another transform, six numbers."""
        if len(self._transforms) > self._placed:
            self._transforms.pop()  # no path was made under it
        if self._transforms[-1:] != [six(transform)]:
            self._transforms.append(six(transform))
        return self

    def path(self, even_odd: bool = False) -> "Sheet":
        """Makes a path of the outlines since the last one; what is open is finished. With even_odd, an outline within
        another is an opening, whichever way it runs."""
        self.end()
        count = self._pen.counts.tags
        placing = bytes([TRANSFORM] * (len(self._transforms) - self._placed))
        self._done.append(placing + bytes([STYLE]) + bytes(self._tags[self._drawn:count]) + bytes([PATH]))
        self._drawn, self._placed = count, len(self._transforms)
        self._styles += [EVEN_ODD if even_odd else 0, 0]
        return self

    @property
    def paths(self) -> List[Tuple[int, int]]:
        """Of each path how many outlines and how many segments it has, closing lines among them."""
        return [(sum(tag & END != 0 for tag in tags), sum(tag & TYPE != 0 for tag in tags)) for tags in self._done]

    def read(self, name: str = "drawn") -> Read:
        """The sheet as if it were read from a file of that name. What is not in a path yet is not in it."""
        return sheet_of(name, self.words(), True)

    def flatten(self) -> Answer:
        """Its lines and boxes, and its refusal if it was refused."""
        return flattened(self.read())

    def words(self) -> "array[int]":
        """The words of the sheet: a head of six, and the scene: tags, points, transforms, styles."""
        tags = b"".join(self._done)
        workgroups = -(-len(tags) // TAGS_OF_A_WORKGROUP)
        packed = array("I", tags.ljust(TAGS_OF_A_WORKGROUP * workgroups, b"\0"))
        if sys.byteorder != "little":
            packed.byteswap()
        points = self._points[:self._pen.counts.points]
        transforms = array("I", b"".join(struct.pack("=6f", *numbers) for numbers in self._transforms[:self._placed]))
        data_base = WORDS_OF_A_WORKGROUP * workgroups
        transform_base = data_base + len(points)
        # a tag before the first style reads two words before the styles: there a transform stands
        layout = Layout(workgroups, 0, data_base, transform_base, transform_base + len(transforms))
        return array("I", [*layout, len(self._done)]) + packed + points + transforms + array("I", self._styles)

    def write(self, name: Union[str, Path]) -> None:
        """Writes the sheet as text, which `hinth` and `flatlist` read."""
        Path(name).write_text("".join(f"{word:08x}\n" for word in self.words()), encoding="ascii")

    def draw(self, name: Union[str, Path], mm: Optional[float] = None, ink: bool = True, arrows: bool = False) -> None:
        """Flattens the sheet and writes its picture, as `hinth draw` does: an SVG, with a red ring at each open point."""
        found = found_in(listing_of_answer(Path(name).stem, self.flatten()))
        Path(name).write_text(picture_of([found], Wishes(mm, arrows, ink)), encoding="utf-8")

    def _command(self, command: Callable[..., None], *coordinates: float) -> "Sheet":
        """The command, with twice the room where there is too little."""
        try:
            command(self._pen, *coordinates, self._tags, self._points)
        except NotDrawn as refused:
            if refused.number != NO_ROOM:
                raise
            self._grow()
            command(self._pen, *coordinates, self._tags, self._points)
        return self

    def _grow(self) -> None:
        """Twice the room."""
        self._tags.extend(bytes(len(self._tags)))
        self._points.extend(array("I", bytes(4 * len(self._points))))


def six(transform: Sequence[float]) -> Tuple[float, ...]:
    """The numbers of a transform."""
    if len(transform) != 6:
        raise ValueError(f"a transform has six numbers, not {len(transform)}")
    return tuple(transform)
