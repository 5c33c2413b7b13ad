"""The page of a document: how many millimetres a unit has, and how its coordinates become those of the knife table.

SVG's y points down and the table's points up. So y is turned round at the lower edge of the page, and a piece is cut as it
looks on the screen, not as its mirror image.
"""
import math
import re
from fractions import Fraction
from typing import Dict, NamedTuple, Optional, Tuple

from ..saying import quoted
from .document import Document, style_of
from .placing import Matrix, NotPlaced

PLOTTER_UNITS = 40  # in a millimetre: one is 0.025 mm
MILLIMETRES = {"mm": Fraction(1), "cm": Fraction(10), "q": Fraction(1, 4), "in": Fraction("25.4"),
               "pt": Fraction("25.4") / 72, "pc": Fraction("25.4") / 6}
USER_UNITS = ("", "px")
# How much the width's scale and the height's may differ, as part of it: drawing programs write seven digits or more, and on
# a piece of one metre this is a micrometre, a twenty-fifth of a plotter unit.
AGREEING = Fraction(1, 1_000_000)

# As many digits as in a transform.
_DECIMAL = r"(?:\d{1,99}\.?\d{0,99}|\.\d{1,99})"
_NUMBER = rf"[+-]?{_DECIMAL}(?:[eE][+-]?\d{{1,3}})?"
_LENGTH = re.compile(rf"\s*({_NUMBER})\s*([A-Za-z%]*)\s*")
_SCALE = re.compile(rf"({_DECIMAL})(?:/({_DECIMAL}))?")
_SIZE_IN_CSS = re.compile(r"(?<![\w-])(width|height)\s*:", re.I)

ASK = "say how many millimetres a unit of it has, with --scale"


class Length(NamedTuple):
    """A number and its unit, in small letters."""

    number: Fraction
    unit: str


class View(NamedTuple):
    """The viewBox: the corner and the size of the page, in units of the document."""

    x: Fraction
    y: Fraction
    width: Fraction
    height: Fraction


class Page(NamedTuple):
    """How a document lies on the table.

    millimetres  how many a unit of the document has
    source       who says so
    left         the x that lies at the table's 0
    bottom       the y that lies at the table's 0
    corner       which place of the document that is, in words
    """

    millimetres: Fraction
    source: str
    left: Fraction
    bottom: Fraction
    corner: str

    @property
    def plotter_units(self) -> Fraction:
        """How many plotter units a unit has."""
        return PLOTTER_UNITS * self.millimetres

    def to_table(self) -> Matrix:
        """(x, y) goes to (k (x - left), k (bottom - y))."""
        k, nothing = self.plotter_units, Fraction(0)
        return Matrix(k, nothing, nothing, -k, -k * self.left, k * self.bottom)

    def on_page(self, x: Fraction, y: Fraction) -> Tuple[Fraction, Fraction]:
        """Where a point of the table lies in the document."""
        return self.left + x / self.plotter_units, self.bottom - y / self.plotter_units

    @property
    def sentence(self) -> str:
        """`1 unit = 1 mm = 40 plotter units`, and who says so."""
        return f"1 unit = {decimal(self.millimetres)} mm = {decimal(self.plotter_units)} plotter units, {self.source}"


def decimal(number: Fraction) -> str:
    """At most nine digits; more than any f64 is told as an infinity."""
    try:
        return f"{float(number):.9g}"
    except OverflowError:
        return f"{math.inf if number > 0 else -math.inf}"


def scale_of(word: str) -> Fraction:
    """Millimetres: a positive decimal number, or one over another. Raises ValueError."""
    found = _SCALE.fullmatch(word)
    if not found:
        raise ValueError(word)
    over = Fraction(found[2] or 1)
    if not over or not Fraction(found[1]):
        raise ValueError(word)
    return Fraction(found[1]) / over


def page_of(document: Document, scale: Optional[Fraction]) -> Page:
    """The page of a document, by a scale that is given or by its own. Raises NotPlaced."""
    view = view_of(document.attributes)
    millimetres = scale_said(document, view) if scale is None else scale
    source = "as its width, height and viewBox say" if scale is None else "as --scale says"
    if view:
        return Page(millimetres, source, view.x, view.y + view.height, "the page's lower left corner")
    height = height_of(document)
    if height is not None:
        return Page(millimetres, source, Fraction(0), height, "the page's lower left corner")
    return Page(millimetres, source, Fraction(0), Fraction(0),
                "the document's own 0,0, since it says no height, and what is below that in the drawing is below it on the table")


def length_of(said: str) -> Optional[Length]:
    """A length, if it is one."""
    found = _LENGTH.fullmatch(said)
    return Length(Fraction(found[1]), found[2].lower()) if found else None


def view_of(attributes: Dict[str, str]) -> Optional[View]:
    """The viewBox, if there is one. Raises NotPlaced where it is not four numbers, the last two above zero."""
    said = attributes.get("viewBox")
    if said is None:
        return None
    parts = re.split(r"\s*,\s*|\s+", said.strip())
    numbers = [Fraction(part) for part in parts if re.fullmatch(_NUMBER, part)]
    if len(parts) != 4 or len(numbers) != 4 or min(numbers[2:]) <= 0:
        raise NotPlaced(f"its viewBox {quoted(said.encode())} is not four numbers of which the last two are above zero")
    return View(*numbers)


def height_of(document: Document) -> Optional[Fraction]:
    """The height of a page without a viewBox in its own units, where it is said in these: a px is one."""
    height = length_of(document.attributes.get("height", ""))
    is_told = height is not None and height.unit in USER_UNITS and height.number > 0 and not says_size_in_css(document)
    return height.number if height is not None and is_told else None


def says_size_in_css(document: Document) -> bool:
    """Whether a style sheet or the attribute style may say another width or height than the attributes."""
    style = style_of(document.attributes)
    return "width" in style or "height" in style or bool(_SIZE_IN_CSS.search(document.sheets))


def scale_said(document: Document, view: Optional[View]) -> Fraction:
    """Millimetres of a unit, as width, height and viewBox say it. Raises NotPlaced."""
    if says_size_in_css(document):
        raise NotPlaced(f"its width or height is said in a style, which is not read; {ASK}")
    width, height = (millimetres_of(document.attributes, side) for side in ("width", "height"))
    if view is None:
        raise NotPlaced(f"it has no viewBox, and programs differ in how many of its units make an inch: 96, 90 or 72; {ASK}")
    across, down = width / view.width, height / view.height
    if abs(across - down) > AGREEING * across:
        raise NotPlaced(f"by its width and viewBox a unit is {decimal(across)} mm, and by its height {decimal(down)} mm; {ASK}")
    return across


def millimetres_of(attributes: Dict[str, str], side: str) -> Fraction:
    """The width or the height. Raises NotPlaced where it is not one with a unit of length."""
    said = attributes.get(side)
    if said is None:
        raise NotPlaced(f"it has no {side}; {ASK}")
    length = length_of(said)
    if length is None or length.unit not in MILLIMETRES:
        why = "programs differ in how many px make an inch: 96, 90 or 72" if length and length.unit in USER_UNITS else \
            "that is no length in mm, cm, in, pt, pc or Q"
        raise NotPlaced(f"its {side} is {quoted(said.encode())}, and {why}; {ASK}")
    if length.number <= 0:
        raise NotPlaced(f"its {side} is {quoted(said.encode())}, which is not above zero; {ASK}")
    return length.number * MILLIMETRES[length.unit]
