"""Sentences: how numbers, names and what stands in a file are told."""
import sys


def say(sentence: object) -> None:
    """One sentence on standard error, if there is one."""
    if sys.stderr is None:
        return
    try:
        print(f"hinth: {sentence}", file=sys.stderr, flush=True)
    except OSError:
        pass  # no one reads it


def count(n: int, thing: str) -> str:
    """`1 line`, `1,000 lines`."""
    return f"{n:,} {thing}" if n == 1 else f"{n:,} {thing}s"


def printable(words: str) -> str:
    """A name that a terminal and a page can show."""
    return "".join(c if c.isprintable() else "?" for c in words)


def quoted(row: bytes) -> str:
    """The beginning of a row, as it can be shown."""
    words = printable(row[:60].decode("ascii", "replace"))
    return f"'{words}'" + ("..." if len(row) > 60 else "")
