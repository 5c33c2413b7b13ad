"""What the tests share: running hinth, lists and sheets as text, what is held against what."""
import os
import struct
import subprocess
import sys
import tempfile
from pathlib import Path

ROOT = Path(__file__).resolve().parent.parent.parent
PACKAGE = ROOT / "python"
TRIANGLE_SHEET = ROOT / "samples/triangle.sheet"
SOCKET_SHEET, SOCKET_LINES = ROOT / "samples/socket.sheet", ROOT / "samples/socket.lines"
EMPTY_BOX = "box 2147483647 2147483647 -2147483648 -2147483648 0 0"


class Result:
    """How a command ended, and what it wrote and said."""

    def __init__(self, done):
        self.status, self.out, self.said = done.returncode, done.stdout, done.stderr.decode()


def hinth(*arguments, data=b"", env=None, **more):
    """Runs the package's command, as an installation would."""
    command = [sys.executable, "-m", "hinthevoun", *map(str, arguments)]
    surroundings = {**os.environ, "PYTHONPATH": str(PACKAGE), "PYTHONDONTWRITEBYTECODE": "1", **(env or {})}
    more.setdefault("stdout", subprocess.PIPE)
    if "stdin" not in more:
        more["input"] = data
    return Result(subprocess.run(command, stderr=subprocess.PIPE, cwd=ROOT, env=surroundings, check=False, **more))


def in_folder(function):
    """Runs a test with a new folder, which is its last argument and goes away behind it."""
    def test(self):
        with tempfile.TemporaryDirectory() as folder:
            function(self, Path(folder))
    test.__name__, test.__doc__ = function.__name__, function.__doc__
    return test


def same(got, expected):
    assert got == expected, f"expected {expected!r}, got {got!r}"


def holds(text, part):
    assert part in text, f"{part!r} is not in {text!r}"


def word(x):
    return f"{struct.unpack('<I', struct.pack('<f', x))[0]:08x}"


def f32(x):
    return struct.unpack("<f", struct.pack("<f", x))[0]


def record(path, *coordinates, tag=0):
    return " ".join([f"{path:08x}", f"{tag:08x}", *map(word, coordinates)])


def listed(records, *boxes):
    """A list in flatlist's form."""
    return "".join(row + "\n" for row in [f"lines {len(records)}", *records, *boxes])


def packed(sheet):
    """A sheet's text as packed words."""
    return b"".join(struct.pack("<I", int(row, 16)) for row in sheet.split())


def triangle(tags="01014020", boxes=1, flags="00000000", width="00000000"):
    """The sheet of the scope paper's triangle, with a first tag word, a box count, a style's flags and a width."""
    rows = TRIANGLE_SHEET.read_text().split("\n")
    rows[6], rows[5], rows[80], rows[81] = tags, f"{boxes:08x}", flags, width
    return "\n".join(rows)
