"""Pairs: which drawings of two folders belong together, and reading them."""
import os
from collections import Counter
from pathlib import Path
from typing import Dict, List, NamedTuple, Optional, Tuple

from ..errors import NoLibrary, Wrong
from ..files import failed
from ..lists import MAGIC
from ..picture.counting import Found, found_in
from ..reading import is_sheet, read_listing
from ..saying import printable

SUFFIXES = (".sheet", ".lines", ".list", ".packed")
BEGINNINGS = (b"lines ", b"refused ", b"bad input", MAGIC)


class Side(NamedTuple):
    """One folder's drawing: what was found in it, or why it is not read. Neither where the folder has none."""

    found: Optional[Found] = None
    wrong: str = ""


class Pair(NamedTuple):
    """A drawing's name and its two files, either of which may be missing."""

    name: str
    old: Optional[Path]
    new: Optional[Path]


def files_in(folder: str) -> Tuple[List[Path], List[str]]:
    """The drawings in a folder, and the names of other files, which are left out."""
    try:
        entries = sorted(os.listdir(folder))
        places = [Path(folder, name) for name in entries if not name.startswith(".")]
        places = [place for place in places if place.is_file()]
        drawings = [place for place in places if is_drawing(place)]
    except NotADirectoryError:
        raise Wrong(f"{printable(folder)}: not a folder; `hinth draw` lays one file over another") from None
    except OSError as error:
        raise failed(printable(folder), error) from None
    return drawings, [printable(str(place)) for place in places if place not in drawings]


def is_drawing(place: Path) -> bool:
    """Whether a file is meant as a sheet or a list, by its name or by how it begins."""
    if place.suffix.lower() in SUFFIXES:
        return True
    try:
        with open(place, "rb") as stream:
            first = stream.read(12)
    except OSError:
        return True  # that it cannot be read is told of it
    return not first or is_sheet(first) or first.startswith(BEGINNINGS)


def pairs_of(old: List[Path], new: List[Path]) -> List[Pair]:
    """Files with one name, or else with one name but for what stands behind its last dot, such as brim.lines and
    brim.sheet, if no other file of either folder has that name."""
    stems = [Counter(place.stem for place in places) for places in (old, new)]

    def key(place: Path) -> str:
        alone = all(counted[place.stem] < 2 for counted in stems)
        return place.stem if alone else place.name
    sides: List[Dict[str, Path]] = [{key(place): place for place in places} for places in (old, new)]
    return [Pair(printable(name), *(side.get(name) for side in sides)) for name in sorted({*sides[0], *sides[1]})]


def side_of(place: Optional[Path]) -> Side:
    """What a file holds. A file that is wrong is told and does not end the comparison; a missing library does."""
    if place is None:
        return Side()
    try:
        return Side(found_in(read_listing(str(place))))
    except NoLibrary:
        raise
    except Wrong as why:
        return Side(wrong=str(why))
