"""The calls of the library, as include/hinthevoun.h has them: a list is a buffer, and a refusal is an exception."""
import ctypes
from array import array
from contextlib import ExitStack
from typing import Collection, List, NamedTuple

from .buffers import Buffer, Lent, Span, Words
from .opening import load
from .refusals import Refusal

# The box to begin with: every other one widens it.
EMPTY_BOX = (2**31 - 1, 2**31 - 1, -2**31, -2**31, 0, 0)
WORDS_OF_A_PREFIX, WORDS_OF_A_BOX, WORDS_OF_A_LINE = 4, 6, 6


class Layout(NamedTuple):
    """How many workgroups of 256 tags to take, and where in a scene its parts begin, in words."""

    n_wg: int
    tag_base: int
    data_base: int
    transform_base: int
    style_base: int


def empty_boxes(count: int) -> "array[int]":
    """So many boxes to begin with, six signed words each: x0, y0, x1, y1, draw flags, transform."""
    return array("i", EMPTY_BOX) * count


def scan(scene: Words, tag_base: int, prefixes: Buffer) -> int:
    """Fills the prefixes that `flatten` needs, four words each, and returns how many.

    scene     its words: any buffer of them, or a sequence of numbers, which is copied
    tag_base  the word of the scene at which the tags begin
    prefixes  a writable buffer of words; those behind the last prefix stay as they are

    Raises Refusal 1 where the tag base lies past the scene's end.
    """
    out = (ctypes.c_uint64 * 1)()
    with ExitStack() as stack:
        lent = lent_lists(stack, {"scene": scene}, {"prefixes": prefixes})
        number = load().hinth_scan(*words_of_span(lent[0]), word_for("tag_base", tag_base), *words_of_span(lent[1]), out, len(out))
    if number:
        raise Refusal(number, 0, out[0])
    return out[0]


def flatten(n_wg: int, tag_base: int, data_base: int, transform_base: int, style_base: int, scene: Words,
            prefixes: Words, boxes: Buffer, lines: Buffer) -> int:
    """Stores the lines of 256 * n_wg tags, widens the boxes of their paths, and returns how many lines.

    n_wg to style_base  as in Layout, so that `flatten(*layout, ...)` works
    scene, prefixes     any buffer of words, or a sequence of numbers; the prefixes are those of `scan`
    boxes               a writable buffer, six words a box; `empty_boxes` makes them
    lines               a writable buffer, six words a line; those behind the last line stay as they are

    Raises Refusal where the library refuses. The lines before it stand then: `count` says how many.
    """
    numbers = zip(Layout._fields, (n_wg, tag_base, data_base, transform_base, style_base))
    out = (ctypes.c_uint64 * 3)()
    with ExitStack() as stack:
        lent = lent_lists(stack, {"scene": scene, "prefixes": prefixes}, {"boxes": boxes, "lines": lines})
        room = [*words_of_span(lent[0]), *words_of_span(lent[1]), lent[2].address, lent[2].size // 4 // WORDS_OF_A_BOX,
                *words_of_span(lent[3])]
        number = load().hinth_flatten(*[word_for(name, word) for name, word in numbers], *room, out, len(out))
    tag, count, end = out
    if number:
        raise Refusal(number, tag, count, end)
    return count


def word_for(name: str, value: int) -> int:
    """The number, if it is one of 32 bits: ctypes would cut it off."""
    if not 0 <= value < 2**32:
        raise ValueError(f"{name} is {value}, which is no word of 32 bits")
    return value


def lent_lists(stack: ExitStack, read: dict, written: dict, of_bytes: Collection[str] = ()) -> List[Span]:
    """The memory of the lists, in their order; those that `of_bytes` names are lists of bytes. None that is written may
    overlap another."""
    width = {name: 1 if name in of_bytes else 4 for name in (*read, *written)}
    spans = {name: stack.enter_context(Lent(name, words, False, width[name])) for name, words in read.items()}
    for name, words in written.items():
        span = stack.enter_context(Lent(name, words, True, width[name]))
        for other, taken in spans.items():
            if span.overlaps(taken):
                raise ValueError(f"{name} is written and overlaps {other}")
        spans[name] = span
    return list(spans.values())


def words_of_span(span: Span) -> List[int]:
    return [span.address, span.size // 4]
