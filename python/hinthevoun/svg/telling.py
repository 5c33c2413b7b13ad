"""What is said of path data that the library did not read to its end, or of a piece of it: the place, why, and what to do."""
from ..importing import NOT_IMPORTED, NOT_PATH_DATA
from ..refusals import UNKNOWN
from ..saying import quoted

ABSOLUTE = ("save with absolute coordinates: in Inkscape, Preferences, Input/Output, SVG output, Path string format: Absolute")
CURVES = ("make that piece a curve: in Inkscape, select its nodes and press Shift+U, or Path, Object to Path")
EXPONENT = "save with fewer digits behind the point: an exponent is not taken"
CONTEXT = 12  # bytes that are shown before and behind the place


def cure_of(number: int, byte: bytes) -> str:
    """What to do about path data that was left at a byte, which is empty at the end."""
    if number != NOT_PATH_DATA:
        return NOT_IMPORTED.get(number, UNKNOWN).cure
    if byte in (b"e", b"E"):
        return EXPONENT
    return CURVES if byte and byte in b"HVSTA" else ABSOLUTE


def behind(data: bytes, at: int) -> str:
    """What stands before a place."""
    return f"behind {quoted(data[max(0, at - CONTEXT):at])}" if at else "at its beginning"


def about_path_data(number: int, at: int, data: bytes) -> str:
    """The place with what stands around it, why, and what to do."""
    there = f", at {quoted(data[at:at + CONTEXT])}" if at < len(data) else ", where it ends"
    return (f"refused {number} at byte {at:,} of its path data, {behind(data, at)}{there}: "
            f"{NOT_IMPORTED.get(number, UNKNOWN).why}; {cure_of(number, data[at:at + 1])}")
