"""Path data of an SVG, read by the library: absolute M, L, Q, C and Z become the commands of a pen."""
import ctypes
from contextlib import ExitStack
from typing import Dict

from .buffers import Buffer, Lent
from .opening import load
from .pattern import NOT_DRAWN, WORDS_OF_A_PEN, Pen
from .refusals import UNKNOWN, Reason

NOT_PATH_DATA, TOO_MANY_DIGITS = 60, 61

NOT_IMPORTED: Dict[int, Reason] = {
    **NOT_DRAWN,
    NOT_PATH_DATA: Reason("no path data of absolute M, L, Q, C and Z goes on so", "save with absolute coordinates"),
    TOO_MANY_DIGITS: Reason("a number has more than nine digits before or after its point", "save with fewer digits"),
}


class NotImported(Exception):
    """Path data that the library did not read to its end. What the commands before it wrote stands.

    number  60, 61, or the refusal of a command: 20, 21 or 22, of which path data can only get 21
    byte    where: the first byte after which no path data can go on, the first byte of the number with too many digits, or
            the byte behind the refused command
    """

    def __init__(self, number: int, byte: int) -> None:
        super().__init__(number, byte)
        self.number, self.byte = number, byte

    @property
    def reason(self) -> Reason:
        """Why, and what to mend."""
        return NOT_IMPORTED.get(self.number, UNKNOWN)

    def __str__(self) -> str:
        return f"refused {self.number} at byte {self.byte}: {self.reason.why}"


def import_path(pen: Pen, text: bytes, tags: Buffer, points: Buffer) -> None:
    """Reads the path data of an SVG and draws it; the end of the text finishes what is open.

    pen     goes on from where it stands, and tells afterwards how far the drawing came
    text    bytes: absolute M, L, Q, C and Z of SVG 2, numbers without an exponent
    tags    a writable buffer of bytes
    points  a writable buffer of words

    Numbers become the nearest f32. Raises NotImported; what the commands before it wrote stands then.
    """
    out = (ctypes.c_uint64 * 1)()
    with ExitStack() as stack:
        data = stack.enter_context(Lent("text", text, False, 1))
        bytes_ = stack.enter_context(Lent("tags", tags, True, 1))
        words = stack.enter_context(Lent("points", points, True))
        if bytes_.overlaps(words) or bytes_.overlaps(data) or words.overlaps(data):
            raise ValueError("tags and points are written, and overlap each other or text")
        number = load().hinth_import(pen.words, WORDS_OF_A_PEN, data.address, data.size, bytes_.address, bytes_.size,
                                     words.address, words.size // 4, out, len(out))
    if number:
        raise NotImported(number, out[0])
