"""Drawing by commands, and the sheet that is made of them."""
import math
import os
import struct
import subprocess
import sys
import unittest
from array import array

import hinthevoun
from hinthevoun import NotDrawn, Pen, Sheet
from hinthevoun.flattening import flattened
from hinthevoun.sheets import read_sheet
from support import PACKAGE, ROOT, SOCKET_SHEET, hinth, in_folder, same

BRIM = ROOT / "samples/drawn/brim.py"


def words(*floats):
    return list(struct.unpack(f"={len(floats)}I", struct.pack(f"={len(floats)}f", *floats)))


def refused(function, *arguments):
    """The number of the refusal."""
    try:
        function(*arguments)
    except NotDrawn as why:
        assert str(why).startswith(f"refused {why.number}: "), why
        return why.number
    raise AssertionError("it was not refused")


class Room:
    """A pen, and buffers with marks in them."""

    def __init__(self, tags, points, pen=None):
        self.pen, self.tags, self.points = pen or Pen(), bytearray(b"\xa5" * tags), array("I", [0xa5a5a5a5]) * points

    def run(self, command, *coordinates):
        command(self.pen, *coordinates, self.tags, self.points)

    def refused(self, command, *coordinates):
        before = (list(self.pen.words), bytes(self.tags), self.points.tolist())
        number = refused(self.run, command, *coordinates)
        same((list(self.pen.words), bytes(self.tags), self.points.tolist()), before)
        return number


class Commands(unittest.TestCase):
    """move, line, quad, cubic and end."""

    def test_a_closing_line_is_written_and_ends_the_subpath(self):
        room = Room(4, 9)
        room.run(hinthevoun.move, 0, 0)
        same(room.pen.counts, (0, 0))
        room.run(hinthevoun.line, 3, 0)
        room.run(hinthevoun.line, 0, 6)
        room.run(hinthevoun.end)
        same(room.pen.counts, (3, 8))
        same(room.tags, b"\x09\x09\x0d\xa5")
        same(room.points.tolist(), words(0, 0, 3, 0, 0, 6, 0, 0) + [0xa5a5a5a5])

    def test_a_last_point_on_the_other_zero_needs_no_line(self):
        room = Room(2, 8)
        room.run(hinthevoun.move, 0, 1)
        room.run(hinthevoun.quad, 1, 1, 2, 2)
        room.run(hinthevoun.line, -0.0, 1)
        room.run(hinthevoun.move, 7, 7)
        same(room.tags, b"\x0a\x0d")
        same(room.points.tolist(), words(0, 1, 1, 1, 2, 2, -0.0, 1))

    def test_refusals_in_their_order(self):
        room = Room(0, 0)
        same(room.refused(hinthevoun.line, math.nan, 0), 20)
        same(room.refused(hinthevoun.move, 0, math.inf), 22)
        room.run(hinthevoun.move, 0, 0)
        same(room.refused(hinthevoun.cubic, 0, 0, -math.inf, 0, 0, 0), 22)
        same(room.refused(hinthevoun.cubic, 0, 0, 0, 0, 0, 0), 21)
        same(room.refused(hinthevoun.line, 1e39, 0), 22)  # no f32 is as large

    def test_one_short(self):
        for tags, points in ((0, 8), (1, 7)):
            room = Room(tags, points)
            room.run(hinthevoun.move, 1, 2)
            same(room.refused(hinthevoun.cubic, 0, 0, 0, 0, 0, 0), 21)

    def test_a_pen_that_is_made_up(self):
        for opened, tags, points in ((1, 2**64 - 1, 0), (2, 0, 2**64 - 1), (2, 4, 0)):
            room = Room(3, 3, Pen((opened, 0, 0, 1, 0, tags, points)))
            same(room.refused(hinthevoun.line, 1, 1), 21)
        same(Room(3, 3, Pen((2, 0, 0, 0, 0, 0, 0))).refused(hinthevoun.end), 21)
        self.assertRaises(ValueError, Pen, (0, 0))

    def test_buffers_that_cannot_be_lent(self):
        self.assertRaises(TypeError, hinthevoun.end, Pen(), b"read", array("I", [0]))
        shared = bytearray(8)
        self.assertRaises(ValueError, hinthevoun.end, Pen(), memoryview(shared), memoryview(shared).cast("I"))


class Sheets(unittest.TestCase):
    """The class Sheet."""

    def test_the_words_of_a_triangle(self):
        sheet = Sheet().move(0, 0).line(3, 0).line(0, 6).path()
        head = [1, 0, 64, 72, 78, 1]
        tags = [0x09094020, 0x0000100d] + [0] * 62
        same(sheet.words().tolist(), head + tags + words(0, 0, 3, 0, 0, 6, 0, 0) + words(1, 0, 0, 1, 0, 0) + [0, 0])
        answer = sheet.flatten()
        same((answer.refusal, answer.boxes.tolist()), (None, [0, 0, 3, 6, 0, 0]))
        same(answer.lines.tolist()[:6], [0, 2] + words(0, 0, 3, 0))

    def test_what_is_in_no_path_is_not_in_it(self):
        sheet = Sheet().move(0, 0).line(3, 0).line(0, 6).path()
        before = sheet.words().tolist()
        same(sheet.move(9, 9).words().tolist(), before)

    def test_a_refused_command_leaves_the_sheet(self):
        sheet = Sheet().move(0, 0).line(3, 0)
        same(refused(sheet.line, math.nan, 0), 22)
        same(refused(sheet.end().line, 1, 1), 20)
        same(sheet.path().flatten().lines.nbytes // 24, 2)

    def test_more_tags_than_a_workgroup_and_more_than_the_first_room(self):
        sheet = Sheet()
        for row in range(90):
            sheet.move(0, row).line(5, row).line(5, row + 0.5)
            if row % 30 == 29:
                sheet.path(even_odd=row == 59)
        answer = sheet.flatten()
        same((answer.refusal, len(answer.lines) // 6), (None, 270))
        same(answer.boxes.tolist(), [0, 0, 5, 30, 0, 0, 0, 30, 5, 60, 1, 0, 0, 60, 5, 90, 0, 0])

    def test_no_path_at_all(self):
        same(Sheet().flatten().lines.nbytes, 0)
        self.assertRaises(ValueError, Sheet, transform=(1, 0))


class Sample(unittest.TestCase):
    """samples/drawn/brim.py, run as a pattern maker would."""

    @in_folder
    def test_it_draws_the_brim(self, folder):
        surroundings = {**os.environ, "PYTHONPATH": str(PACKAGE), "PYTHONDONTWRITEBYTECODE": "1"}
        subprocess.run([sys.executable, BRIM], cwd=folder, env=surroundings, check=True)
        same((folder / "brim.sheet").read_text(), (ROOT / "samples/brim.sheet").read_text())
        same((folder / "brim.svg").read_text(), (ROOT / "docs/figures/brim.svg").read_text())

    def test_its_lines_are_those_of_the_socket(self):
        with open(ROOT / "samples/brim.sheet", "rb") as stream:
            brim = flattened(read_sheet("brim", stream))
        with open(SOCKET_SHEET, "rb") as stream:
            socket = flattened(read_sheet("socket", stream))
        drawn = brim.lines.tolist()
        same((brim.refusal, brim.boxes.tolist()), (None, socket.boxes.tolist()[:6]))
        assert len(drawn) > 300
        same(drawn, socket.lines.tolist()[:len(drawn)])
        same(socket.lines[len(drawn)], 1)  # the next line is the seam's

    def test_its_picture_has_no_open_point(self):
        drawn = hinth("draw", "samples/brim.sheet")
        same((drawn.status, drawn.said), (0, "hinth: samples/brim.sheet: path 0: 74 lines, 0 open points\n"))


class Example(unittest.TestCase):
    """The examples in the class's own words, and in docs/DRAWING.md."""

    @in_folder
    def test_they_run(self, folder):
        text = (ROOT / "docs/DRAWING.md").read_text()
        code = "\n".join(part.split("\n```")[0] for part in text.split("```python\n")[1:])
        assert "brim.path(even_odd=True)" in code
        subprocess.run([sys.executable, "-c", code], cwd=folder, check=True,
                       env={**os.environ, "PYTHONPATH": str(PACKAGE), "PYTHONDONTWRITEBYTECODE": "1"})
        same((folder / "brim.sheet").read_text(), (ROOT / "samples/brim.sheet").read_text())


if __name__ == "__main__":
    unittest.main()
