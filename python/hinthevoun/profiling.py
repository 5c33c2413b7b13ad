"""The profile for lay-up sheets, as include/hinthevoun.h has it."""
import ctypes
from contextlib import ExitStack
from typing import Dict, NamedTuple

from .buffers import Words
from .calls import Layout, lent_lists, word_for, words_of_span
from .opening import load
from .refusals import REASONS, UNKNOWN, Reason

RULES: Dict[int, Reason] = {
    70: Reason("a segment or a path has a stroke style", "choose a fill style"),
    71: Reason("a segment or a path has the even-odd bit in its style", "choose the nonzero rule in the style"),
    72: Reason("a segment's points are not f32", "move the sheet: `hinth convert --to f32`"),
    73: Reason("a segment's transform is not that of the first segment, or has shear",
               "place the whole sheet by one transform whose second and third number are zero"),
    74: Reason("a subpath is not finished by an end bit on its first point, or a tag with no segment has an end bit",
               "draw the outline back to where it began, and end it there"),
    75: Reason("it is the 4,097th segment", "part the drawing: a sheet has 4,096 segments at most"),
}


class Passed(NamedTuple):
    """How many segments and subpaths a scene that passes has."""

    segments: int
    subpaths: int


class NotPassed(Exception):
    """A scene that does not pass.

    number  1, 2 or 3 where a read fails as it would when flattening, else the rule that is broken, 70 to 75
    tag     the index of the tag
    """

    def __init__(self, number: int, tag: int) -> None:
        super().__init__(number, tag)
        self.number, self.tag = number, tag

    @property
    def reason(self) -> Reason:
        """Why, and what to mend."""
        return RULES.get(self.number) or REASONS.get(self.number, UNKNOWN)

    def __str__(self) -> str:
        return f"refused {self.number} at tag {self.tag}: {self.reason.why}"


def profile(n_wg: int, tag_base: int, data_base: int, transform_base: int, style_base: int, scene: Words,
            prefixes: Words) -> Passed:
    """Tests a scene against the profile for lay-up sheets before it is flattened; nothing is written.

    n_wg to style_base  as in Layout, so that `profile(*layout, ...)` works
    scene, prefixes     any buffer of words, or a sequence of numbers; the prefixes are those of `scan`

    Raises NotPassed at the first read that fails or, if none does, at the first tag that breaks a rule.
    """
    numbers = zip(Layout._fields, (n_wg, tag_base, data_base, transform_base, style_base))
    out = (ctypes.c_uint64 * 3)()
    with ExitStack() as stack:
        lent = lent_lists(stack, {"scene": scene, "prefixes": prefixes}, {})
        number = load().hinth_profile(*[word_for(name, word) for name, word in numbers], *words_of_span(lent[0]),
                                      *words_of_span(lent[1]), out, len(out))
    if number:
        raise NotPassed(number, out[0])
    return Passed(out[1], out[2])
