"""Words there and back: lines of eight hex digits, packed bytes, and arrays of 32-bit words."""
import re
import sys
from array import array
from typing import Union

Bytes = Union[bytes, bytearray, memoryview]

DIGITS = b"0123456789abcdef"
WORD = re.compile(b"[0-9a-f]{8}")
# The bytes of text: what is written by hand, or by a program of another system, has no others.
TEXT = bytes([9, 10, 13, *range(32, 127)])


def is_text(first: bytes) -> bool:
    """Whether a file that begins so is meant as text. Packed words begin with a small number, which has a zero byte."""
    return not first[:4].translate(None, TEXT)


def in_order(words: "array[int]") -> "array[int]":
    """Turns words between the order of this machine and little-endian, in place."""
    if sys.byteorder == "big":
        words.byteswap()
    return words


def in_reading_order(words: "array[int]") -> "array[int]":
    """Turns words between the order of this machine and that of digits on paper, in place."""
    if sys.byteorder == "little":
        words.byteswap()
    return words


def are_rows(text: bytes, words: int) -> bool:
    """Whether text is whole rows of so many words: separators in their columns, and else only digits."""
    width = 9 * words
    rows, rest = divmod(len(text), width)
    separators = b" " * (words - 1) + b"\n"
    return (rest == 0 and text.translate(None, DIGITS) == separators * rows
            and all(text[9 * i + 8::width] == separators[i:i + 1] * rows for i in range(words)))


def words_of(text: bytes) -> "array[int]":
    """The words of rows of digits."""
    words = array("I")
    words.frombytes(bytes.fromhex(text.decode()))
    return in_reading_order(words)


def rows_of(words: Bytes, in_a_row: int) -> bytearray:
    """The words as rows of digits, so many in a row."""
    turned = in_reading_order(array("I", bytes(words)))
    text = bytearray(turned.tobytes().hex(" ", 4), "ascii")
    if text:
        text.append(10)
    width = 9 * in_a_row
    text[width - 1::width] = b"\n" * (len(text) // width)
    return text
