"""Ctrl-C while the library works."""
import signal
import threading
from contextlib import contextmanager
from typing import Iterator


@contextmanager
def stops_at_once() -> Iterator[None]:
    """Within the `with`, Ctrl-C ends the program: Python itself would wait for the library's call to return. Where it was
    ignored, as in the background of a script, it stays so."""
    if threading.current_thread() is not threading.main_thread() or signal.getsignal(signal.SIGINT) == signal.SIG_IGN:
        yield
        return
    before = signal.signal(signal.SIGINT, signal.SIG_DFL)
    try:
        yield
    finally:
        signal.signal(signal.SIGINT, before)
