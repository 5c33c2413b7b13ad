"""Where the proved library is, and how it is opened."""
import ctypes
import functools
import os
import shutil
import subprocess
import sys
from pathlib import Path
from typing import Any, Dict, List, Optional

from .errors import NoLibrary
from .progress import silent
from .saying import say

NAME = "libhinthevoun.so"
VARIABLE = "HINTHEVOUN_LIBRARY"
HERE = Path(__file__).resolve().parent

# The script of a checkout that writes the library; tools/hinth sets it, an installation has none.
builder: Optional[Path] = None

_WORD, _SIZE, _LIST, _FLOAT = ctypes.c_uint32, ctypes.c_size_t, ctypes.c_void_p, ctypes.c_float
_LENT: List[Any] = [_LIST, _SIZE]
# include/hinthevoun.h, argument by argument.
_CALLS: Dict[str, List[Any]] = {
    "hinth_scan": [*_LENT, _WORD, *_LENT, *_LENT],
    "hinth_flatten": [*[_WORD] * 5, *_LENT, *_LENT, *_LENT, *_LENT, *_LENT],
    "hinth_profile": [*[_WORD] * 5, *_LENT, *_LENT, *_LENT],
    "hinth_check": [*_LENT, *_LENT],
    **{name: _LENT * 5 for name in ("hinth_to_f32", "hinth_to_i16")},
    **{f"hinth_{name}": [*_LENT, *[_FLOAT] * floats, *_LENT, *_LENT]
       for name, floats in (("move", 2), ("line", 2), ("quad", 4), ("cubic", 6), ("end", 0))},
    "hinth_import": _LENT * 5,
    "hinth_cut": [*_LENT, _WORD, *_LENT, *_LENT],
    "hinth_read_cut": [*_LENT, _WORD, *_LENT, *_LENT],
    "hinth_cut_text": [*_LENT, *[_FLOAT] * 6, _WORD, *_LENT * 7],
    "hinth_mend": [*_LENT, _WORD, *_LENT, *_LENT, *_LENT],
}
_MATHS: Dict[str, List[Any]] = {
    **{name: [_FLOAT] for name in ("sqrt", "cbrt", "two_thirds", "sin", "cos", "asin", "acos")},
    **{name: [_FLOAT, _FLOAT] for name in ("hypot", "atan2")},
    "half": [_WORD],
}


def places() -> List[Path]:
    """Where the library is looked for: what the variable names, or else beside the package, or in a checkout's target/."""
    named = os.environ.get(VARIABLE)
    if named:
        return [Path(named)]
    return [HERE / NAME, HERE.parent.parent / "target" / "staticlib" / NAME]


def find() -> Optional[Path]:
    """The first of these places that has it."""
    return next((place for place in places() if place.is_file()), None)


def build() -> None:
    """Has the checkout's script write the library, if there is one and it is missing or the kit can tell whether it is
    current. The script says what it does."""
    if builder is None or os.environ.get(VARIABLE):
        return
    missing = find() is None
    if missing:
        say("the library is not there yet, so it is proved and built first, which takes some minutes")
    if missing or shutil.which("rt"):
        out = sys.stderr or subprocess.DEVNULL
        with silent():
            done = subprocess.run([str(builder)], stdin=subprocess.DEVNULL, stdout=out, check=False)
        if done.returncode:
            raise NoLibrary(f"the library could not be built: {builder} ended with {done.returncode}")


@functools.lru_cache(maxsize=None)
def load() -> ctypes.CDLL:
    """The library, opened once, with the types of its functions."""
    build()
    place = find()
    if place is None:
        looked = " nor ".join(map(str, places()))
        raise NoLibrary(f"there is no library at {looked}: run tools/library in a checkout of Hinthevoun, "
                        f"and let {VARIABLE} name the {NAME} that it writes, or install the package again")
    try:
        return _typed(ctypes.CDLL(str(place)))
    except (OSError, AttributeError) as error:
        raise NoLibrary(f"{place} is not this package's library for this machine ({error}): run tools/library, "
                        "and install the package again if it is installed") from None


def _typed(library: ctypes.CDLL) -> ctypes.CDLL:
    for name, arguments in _CALLS.items():
        function = getattr(library, name)
        function.argtypes, function.restype = arguments, _WORD
    for name, arguments in _MATHS.items():
        function = getattr(library, f"hinth_{name}")
        function.argtypes, function.restype = arguments, _FLOAT
    return library
