"""Files: what is read, and what is written whole or not at all."""
import errno
import os
import stat
import tempfile
from contextlib import contextmanager
from typing import BinaryIO, Iterator

from .errors import Wrong
from .saying import printable

CURES = {
    errno.ENOENT: "is the name right?",
    errno.EACCES: "ask whoever owns it, or give the right with chmod",
    errno.ENOSPC: "make room on the disk",
    errno.EPIPE: "whoever read it has stopped",
}


def name_of(argument: str, standard: str = "standard input") -> str:
    """What a file is called in sentences; - is standard input or output."""
    return standard if argument == "-" else printable(argument)


def failed(name: str, error: OSError, what: str = "") -> Wrong:
    """Why a file is not read or written, and what to do."""
    why = error.strerror or type(error).__name__
    cure = CURES.get(error.errno or 0)
    return Wrong(f"{name}: {what}{why}" + (f"; {cure}" if cure else ""))


@contextmanager
def source(argument: str) -> Iterator[BinaryIO]:
    """The file to read. What goes wrong while it is open is told with its name."""
    name = name_of(argument)
    if argument != "-" and os.path.isdir(argument):
        raise Wrong(f"{name}: is a folder; name a file in it")
    try:
        with open(0 if argument == "-" else argument, "rb", closefd=argument != "-") as stream:
            yield stream
    except OSError as error:
        raise failed(name, error) from None


@contextmanager
def target(argument: str) -> Iterator[BinaryIO]:
    """The file to write. A plain file comes to be when all is written, and is as it was if anything fails."""
    name = name_of(argument, "standard output")
    if argument != "-" and os.path.isdir(argument):
        raise Wrong(f"{name}: is a folder; name a file in it")
    try:
        if argument == "-":
            with open(1, "wb", closefd=False) as stream:
                yield stream
        elif os.path.exists(argument) and not os.path.isfile(argument):
            with open(argument, "wb") as stream:  # a device or a pipe, which stays what it is
                yield stream
        else:
            with beside(os.path.realpath(argument)) as stream:
                yield stream
    except OSError as error:
        raise failed(name, error, "not written whole: " if argument == "-" else "not written: ") from None


@contextmanager
def beside(place: str) -> Iterator[BinaryIO]:
    """A new file in the folder of a file, which takes that one's place once it is whole."""
    folder, name = os.path.split(place)
    handle, new = tempfile.mkstemp(prefix=f".{name[:100]}.", dir=folder)
    try:
        with open(handle, "wb") as stream:
            os.fchmod(handle, mode_of(place))
            yield stream
        os.replace(new, place)
    except BaseException:
        os.unlink(new)
        raise


def mode_of(place: str) -> int:
    """The rights of a file that is there, or of a new one."""
    if os.path.exists(place):
        return stat.S_IMODE(os.stat(place).st_mode)
    mask = os.umask(0)
    os.umask(mask)
    return 0o666 & ~mask


def same(one: str, other: str) -> bool:
    """Whether both arguments name one file."""
    try:
        return "-" not in (one, other) and os.path.samefile(one, other)
    except OSError:
        return False
