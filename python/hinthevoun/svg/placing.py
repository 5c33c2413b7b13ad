"""Transforms of SVG: a list of functions as one matrix, worked out exactly and rounded once."""
import math
import re
import struct
from fractions import Fraction
from typing import Callable, Dict, NamedTuple, Tuple

# No drawing needs a hundred digits, and Python itself reads no number of very many.
_NUMBER = r"[+-]?(?:\d{0,99}\.\d{1,99}|\d{1,99})(?:[eE][+-]?\d{1,3})?"
_NUMBERS = re.compile(rf"\s*{_NUMBER}(?:(?:\s*,\s*|\s+|(?=[+-])){_NUMBER})*\s*")
_FUNCTION = re.compile(r"\s*([A-Za-z]+)\s*\(([^()]*)\)\s*(,(?=\s*\w))?")


class NotPlaced(Exception):
    """Why a transform is not taken, in words."""


class Matrix(NamedTuple):
    """(x, y) goes to (a x + c y + e, b x + d y + f)."""

    a: Fraction
    b: Fraction
    c: Fraction
    d: Fraction
    e: Fraction
    f: Fraction

    def of(self, first: "Matrix") -> "Matrix":
        """This one behind another."""
        return Matrix(self.a * first.a + self.c * first.b, self.b * first.a + self.d * first.b,
                      self.a * first.c + self.c * first.d, self.b * first.c + self.d * first.d,
                      self.a * first.e + self.c * first.f + self.e, self.b * first.e + self.d * first.f + self.f)


IDENTITY = Matrix(*map(Fraction, (1, 0, 0, 1, 0, 0)))


def translate(x: Fraction, y: Fraction = Fraction(0)) -> Matrix:
    """By x and y."""
    return IDENTITY._replace(e=x, f=y)


def scale(*factors: Fraction) -> Matrix:
    """By one factor, or one for x and one for y."""
    return IDENTITY._replace(a=factors[0], d=factors[-1])


def rotate(degrees: Fraction, *centre: Fraction) -> Matrix:
    """Round the origin, or round a point."""
    cos, sin = turned(degrees)
    turn = Matrix(cos, sin, -sin, cos, Fraction(0), Fraction(0))
    if not centre:
        return turn
    x, y = centre
    return translate(x, y).of(turn).of(translate(-x, -y))


def turned(degrees: Fraction) -> Tuple[Fraction, Fraction]:
    """Cosine and sine: of quarter turns exact, else those of f64."""
    quarters = degrees / 90
    if quarters.denominator == 1:
        return ((Fraction(1), Fraction(0)), (Fraction(0), Fraction(1)),
                (Fraction(-1), Fraction(0)), (Fraction(0), Fraction(-1)))[quarters.numerator % 4]
    angle = math.radians(float(degrees % 360))
    return Fraction(math.cos(angle)), Fraction(math.sin(angle))


FUNCTIONS: Dict[str, Tuple[Callable[..., Matrix], Tuple[int, ...]]] = {
    "matrix": (Matrix, (6,)),
    "translate": (translate, (1, 2)),
    "scale": (scale, (1, 2)),
    "rotate": (rotate, (1, 3)),
}


def matrix_of(text: str) -> Matrix:
    """The matrix of a transform attribute. Raises NotPlaced."""
    matrix, at = IDENTITY, 0
    while text[at:].strip():
        found = _FUNCTION.match(text, at)
        if not found:
            raise NotPlaced(f"its transform {text!r} is not a list of functions")
        matrix, at = matrix.of(function_of(found[1], found[2])), found.end()
    return matrix


def function_of(name: str, arguments: str) -> Matrix:
    """The matrix of one function."""
    if name not in FUNCTIONS:
        raise NotPlaced(f"its transform has {name}, and only {', '.join(FUNCTIONS)} are taken")
    make, counts = FUNCTIONS[name]
    if not _NUMBERS.fullmatch(arguments):
        raise NotPlaced(f"its transform {name}({arguments}) has something else than plain numbers")
    numbers = [Fraction(number) for number in re.findall(_NUMBER, arguments)]
    if len(numbers) not in counts:
        raise NotPlaced(f"its transform {name}({arguments}) has {len(numbers)} numbers, and {name} takes "
                        f"{' or '.join(map(str, counts))}")
    return make(*numbers)


def floats_of(matrix: Matrix) -> Tuple[float, ...]:
    """Each number as the nearest f32, ties to even. Raises NotPlaced."""
    return tuple(map(nearest, matrix))


def nearest(number: Fraction) -> float:
    """The f32 nearest a number: what f64 rounds to may be a neighbour of it."""
    try:
        word, = struct.unpack("<i", struct.pack("<f", abs(float(number))))
    except OverflowError:
        raise NotPlaced("its transform has a number that is too large") from None
    near = [(abs(Fraction(of_word(w)) - abs(number)), w % 2, w) for w in (word - 1, word, word + 1) if 0 <= w < 0x7f800000]
    value = of_word(min(near)[2])
    return -value if number < 0 else value


def of_word(word: int) -> float:
    """The f32 with these bits."""
    return struct.unpack("<f", struct.pack("<i", word))[0]
