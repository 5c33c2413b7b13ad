"""The mathematics of the library: include/hinthevoun.h says of each function which float it gives.

An argument is rounded to the nearest f32 first, as C does when a double is handed over, and the answer is an f32: a
Python float that f32 holds exactly.
"""
from .opening import load


def sqrt(x: float) -> float:
    """The square root: the nearest f32, ties to even. Of -0 it is -0, of anything below zero NaN."""
    return load().hinth_sqrt(x)


def hypot(x: float, y: float) -> float:
    """The square root of x*x + y*y, with no overflow on the way; infinite if either is infinite, also beside a NaN."""
    return load().hinth_hypot(x, y)


def cbrt(x: float) -> float:
    """The cube root, with the sign of x."""
    return load().hinth_cbrt(x)


def two_thirds(x: float) -> float:
    """The cube root of x*x: 0 of either zero, NaN of anything below zero."""
    return load().hinth_two_thirds(x)


def half(word: int) -> float:
    """The value of the IEEE 754 binary16 in the low 16 bits of the word, exactly."""
    return load().hinth_half(word)


def sin(x: float) -> float:
    """The sine of an angle in radians, within 0.000001; NaN of an infinite one."""
    return load().hinth_sin(x)


def cos(x: float) -> float:
    """The cosine of an angle in radians, within 0.000001; NaN of an infinite one."""
    return load().hinth_cos(x)


def atan2(y: float, x: float) -> float:
    """The angle of the point (x, y), from -pi to pi, with the sign of y."""
    return load().hinth_atan2(y, x)


def asin(x: float) -> float:
    """The angle with that sine, from -pi/2 to pi/2; NaN outside -1 to 1."""
    return load().hinth_asin(x)


def acos(x: float) -> float:
    """The angle with that cosine, from 0 to pi; NaN outside -1 to 1."""
    return load().hinth_acos(x)
