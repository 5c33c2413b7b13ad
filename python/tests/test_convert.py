"""hinth convert and the functions to_f32 and to_i16: a sheet's points moved, and back."""
import struct
import sys
import unittest
from array import array
from pathlib import Path

from support import PACKAGE, ROOT, SOCKET_LINES, SOCKET_SHEET, TRIANGLE_SHEET, hinth, holds, in_folder, packed, same, triangle

sys.path.insert(0, str(PACKAGE))

from hinthevoun import Moved, NotMoved, to_f32, to_i16  # noqa: E402
from hinthevoun.converting import Head, heads_of  # noqa: E402

OLD = Moved(b"\x21\x05\x10\x18\0", array("I", [0x00020001, 0x8000ffff, 0x00007fff]))
NEW = Moved(b"\x29\x0d\x10\x18\0", array("I", struct.pack("=6f", 1, 2, -1, -32768, 32767, 0)))


def refusal_of(function, tags, points):
    """The number and the index of the refusal that a sheet gets."""
    try:
        function(tags, points)
    except NotMoved as why:
        return why.number, why.at
    raise AssertionError("it was not refused")


def turned(sheet, kind, *more):
    """The sheet converted, as text."""
    result = hinth("convert", "--to", kind, *more, "-", data=sheet if isinstance(sheet, bytes) else sheet.encode())
    return result.status, result.out, result.said


def with_word(sheet, row, word):
    """The text of a sheet with another word in a row, counted from 1."""
    rows = sheet.split("\n")
    rows[row - 1] = word
    return "\n".join(rows)


class Functions(unittest.TestCase):
    """to_f32 and to_i16 on Python's own lists."""

    def test_there_and_back(self):
        same(to_f32(*OLD), NEW)
        same(to_i16(*NEW), OLD)
        same(to_f32(OLD.tags, [*OLD.points, 7]), NEW)
        same(to_f32(b"", []), Moved(b"", array("I")))

    def test_the_refusals_in_their_order(self):
        same(refusal_of(to_f32, b"\x01\x09", []), (40, 1))
        same(refusal_of(to_i16, b"\x09\x01", []), (40, 1))
        same(refusal_of(to_f32, OLD.tags, OLD.points[:2]), (43, 2))
        same(refusal_of(to_i16, NEW.tags, NEW.points[:5]), (43, 5))
        for bad in (-0.0, 0.5, 32768.0, -32769.0, float("inf"), float("nan")):
            points = array("I", NEW.points)
            points[3] = struct.unpack("=I", struct.pack("=f", bad))[0]
            same(refusal_of(to_i16, NEW.tags, points), (41, 3))

    def test_what_a_refusal_says(self):
        same(str(NotMoved(43, 1000)), "refused 43 at point word 1,000: a counted point word is not there")
        holds(str(NotMoved(40, 2)), "refused 40 at tag 2")


class Sums(unittest.TestCase):
    """The sums before each tag, by which a sheet is tested."""

    def test_a_zero_byte_has_the_sums_of_its_word(self):
        heads = list(heads_of(b"\x20\x40\x01\x05" b"\x0a\x00\x40\x00"))
        same(heads[2:5], [Head(0x01, 0, 0, 0), Head(0x05, 0, 0, 1), Head(0x0a, 0, 0, 3)])
        same(heads[5:], [Head(0, -1, -2, 4), Head(0x40, 0, 0, 7), Head(0, -1, 0, 4)])


class Command(unittest.TestCase):
    """hinth convert."""

    def test_samples_go_there_and_back(self):
        for sheet in (TRIANGLE_SHEET.read_text(), (ROOT / "samples/bevel-gap.sheet").read_text()):
            status, new, said = turned(sheet, "f32", "--check")
            same(status, 0)
            holds(said, "are the same, bit for bit")
            same(turned(new, "i16"), (0, sheet.encode(), ""))

    def test_the_socket_goes_back_and_there(self):
        status, old, said = turned(SOCKET_SHEET.read_text(), "i16", "--check")
        same(status, 0)
        holds(said, "112 lines")
        same(hinth("flatten", "-", data=old).out, SOCKET_LINES.read_bytes())
        same(turned(old, "f32"), (0, SOCKET_SHEET.read_bytes(), ""))

    def test_packed_stays_packed(self):
        sheet = packed(TRIANGLE_SHEET.read_text())
        status, new, _ = turned(sheet, "f32")
        same((status, turned(new, "i16")), (0, (0, sheet, "")))

    @in_folder
    def test_the_new_sheet_is_written_whole_or_not(self, folder):
        place = Path(folder) / "new.sheet"
        place.write_text("as it was")
        same(hinth("convert", "--to", "i16", TRIANGLE_SHEET, "-o", place).status, 1)
        same(place.read_text(), "as it was")
        same(hinth("convert", "--to", "f32", TRIANGLE_SHEET, "-o", place).status, 0)
        same(hinth("flatten", place).out, hinth("flatten", TRIANGLE_SHEET).out)
        result = hinth("convert", "--to", "i16", place, "-o", place)
        same(result.status, 2)
        holds(result.said, "give -o another name")

    def test_a_refusal_says_where(self):
        status, out, said = turned(SOCKET_SHEET.read_text(), "f32")
        same((status, out), (1, b""))
        holds(said, "refused 40 at tag 2")
        holds(said, "line 7, second pair of digits")
        _, new, _ = turned(TRIANGLE_SHEET.read_text(), "f32")
        status, _, said = turned(with_word(new.decode(), 73, "3f000000"), "i16")
        same(status, 1)
        holds(said, "refused 41 at point word 2")
        holds(said, "(line 73)")

    def test_what_is_not_proved_is_not_converted(self):
        cases = {
            "no whole drawing: refused 4": triangle(boxes=0),
            "tag 4 reads a point word beyond": triangle("01014020").replace("00001005", "00001001"),
        }
        for words, sheet in cases.items():
            status, out, said = turned(sheet, "f32")
            same((status, out), (1, b""))
            holds(said, words)

    def test_styles_right_behind_the_points(self):
        rows = TRIANGLE_SHEET.read_text().split("\n")
        head, tags, points, transform, style = rows[:6], rows[6:70], rows[70:74], rows[74:80], rows[80:82]
        head[3], head[4] = "00000046", "00000044"
        status, _, said = turned("\n".join([*head, *tags, *points, *style, *transform, ""]), "f32")
        same(status, 1)
        holds(said, "tag 0 would read other style words")

    def test_a_stroke_that_nothing_follows(self):
        sheet = (ROOT / "samples/bevel-gap.sheet").read_text().replace("34000000", "40000000")
        status, _, said = turned(sheet.replace("00001006", "00001000"), "f32")
        same(status, 1)
        holds(said, "tag 3 ")

    def test_wrong_usage(self):
        same(hinth("convert", TRIANGLE_SHEET).status, 2)
        same(hinth("convert", "--to", "i32", TRIANGLE_SHEET).status, 2)


if __name__ == "__main__":
    unittest.main()
