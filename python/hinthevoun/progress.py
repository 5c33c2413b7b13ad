"""A progress line on standard error, where that is a terminal and something takes over a second."""
import sys
import threading
import time
from contextlib import contextmanager
from typing import Iterator, Optional

FIRST, NEXT = 1.0, 0.5  # seconds before the line is shown, and until it changes
_silent = threading.Event()


@contextmanager
def silent() -> Iterator[None]:
    """Within the `with`, no progress is told, since another program tells its own."""
    _silent.set()
    try:
        yield
    finally:
        _silent.clear()


class Progress:
    """Within the `with`, a line says what is being done and for how long. `doing` may be set anew."""

    def __init__(self, doing: str) -> None:
        self.doing = doing
        self._over = threading.Event()
        self._thread: Optional[threading.Thread] = None

    def __enter__(self) -> "Progress":
        if sys.stderr is not None and sys.stderr.isatty():
            self._thread = threading.Thread(target=self._tell, daemon=True)
            self._thread.start()
        return self

    def __exit__(self, *_: object) -> None:
        self._over.set()
        if self._thread:
            self._thread.join()

    def _tell(self) -> None:
        began, told = time.monotonic(), False
        wait = FIRST
        while not self._over.wait(wait):
            if _silent.is_set():
                continue
            sys.stderr.write(f"\r\033[Khinth: {self.doing}, {time.monotonic() - began:.0f} s")
            sys.stderr.flush()
            wait, told = NEXT, True
        if told:
            sys.stderr.write("\r\033[K")
            sys.stderr.flush()
