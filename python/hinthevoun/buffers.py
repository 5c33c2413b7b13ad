"""Lending: the memory of a list of Python's, as the library takes it, without a copy where the layout allows it."""
import ctypes
from array import array
from typing import Any, NamedTuple, Sequence, Union

Buffer = Union[bytes, bytearray, memoryview, "array[int]"]
Words = Union[Buffer, Sequence[int]]

_WRITABLE = 1  # PyBUF_WRITABLE


class _View(ctypes.Structure):
    """CPython's Py_buffer."""

    _fields_ = [("address", ctypes.c_void_p), ("owner", ctypes.c_void_p), ("length", ctypes.c_ssize_t),
                ("itemsize", ctypes.c_ssize_t), ("readonly", ctypes.c_int), ("ndim", ctypes.c_int),
                ("format", ctypes.c_char_p), ("shape", ctypes.c_void_p), ("strides", ctypes.c_void_p),
                ("suboffsets", ctypes.c_void_p), ("internal", ctypes.c_void_p)]


_get_buffer = ctypes.pythonapi.PyObject_GetBuffer
_get_buffer.argtypes = [ctypes.py_object, ctypes.POINTER(_View), ctypes.c_int]
_get_buffer.restype = ctypes.c_int
_release = ctypes.pythonapi.PyBuffer_Release
_release.argtypes = [ctypes.POINTER(_View)]
_release.restype = None

# An empty list still needs an aligned address.
_NOWHERE = (ctypes.c_uint64 * 1)()


class Span(NamedTuple):
    """Where a lent list begins, and how many bytes it has."""

    address: int
    size: int

    def overlaps(self, other: "Span") -> bool:
        """Whether both have a byte."""
        return self.address < other.address + other.size and other.address < self.address + self.size


class Lent:
    """A list while it is lent. Within the `with`, `span` is its memory, which stays where it is."""

    def __init__(self, name: str, words: Words, written: bool, width: int = 4) -> None:
        view = _written(name, words, width) if written else _read(name, words, width)
        self._held, self._flags, self._view = view, _WRITABLE if written else 0, _View()

    def __enter__(self) -> Span:
        _get_buffer(self._held, self._view, self._flags)
        size = self._view.length
        return Span(self._view.address if size else ctypes.addressof(_NOWHERE), size)

    def __exit__(self, *_: object) -> None:
        _release(self._view)


def _view_of(name: str, words: Any, width: int) -> memoryview:
    """The buffer's own memory, if its items are words or bytes that make whole words."""
    view = memoryview(words)
    if view.itemsize not in (1, width):
        raise TypeError(f"{name} has items of {view.itemsize} bytes, not words of {width}")
    if view.nbytes % width:
        raise ValueError(f"{name} has {view.nbytes} bytes, which are no whole words of {width}")
    return view


def _is_aligned(view: memoryview, width: int) -> bool:
    if not view.c_contiguous:
        return False
    raw = _View()
    _get_buffer(view, raw, 0)
    try:
        return not raw.length or raw.address % width == 0
    finally:
        _release(raw)


def _written(name: str, words: Any, width: int) -> memoryview:
    try:
        view = _view_of(name, words, width)
    except TypeError as error:
        raise TypeError(f"{name} is written, so it must be a buffer of words, as array('I') is: {error}") from None
    if view.readonly:
        raise TypeError(f"{name} is written, and this buffer is only for reading")
    if not _is_aligned(view, width):
        raise ValueError(f"{name} is written, so its words must lie one behind another and aligned")
    return view


def _read(name: str, words: Any, width: int) -> memoryview:
    """The buffer itself, or a copy where its words do not lie one behind another, or where it is no buffer."""
    try:
        view = memoryview(words)
    except TypeError:
        return memoryview(array({1: "B", 4: "I", 8: "Q"}[width], words))
    view = _view_of(name, view, width)
    return view if _is_aligned(view, width) else memoryview(view.tobytes())
