"""The functions of the package: those of include/hinthevoun.h on Python's own lists."""
import ctypes
import math
import mmap
import re
import struct
import subprocess
import sys
import unittest
from array import array

from support import PACKAGE, ROOT, TRIANGLE_SHEET, holds, same, triangle

sys.path.insert(0, str(PACKAGE))

import hinthevoun  # noqa: E402
from hinthevoun import Layout, Refusal  # noqa: E402
from hinthevoun.buffers import Lent  # noqa: E402
from hinthevoun.opening import load  # noqa: E402
from hinthevoun.refusals import ENDS, REASONS  # noqa: E402


LIBRARY = ROOT / "target/staticlib/libhinthevoun.so"


def parts_of(sheet):
    """The numbers of the call, the boxes and the scene of a sheet's text."""
    words = array("I", [int(row, 16) for row in sheet.split()])
    return Layout(*words[:5]), words[5], words[6:]


def called(sheet, room=10, prefix_words=None):
    """Both calls on a sheet: how many lines, the boxes, the lines lent."""
    layout, boxes, scene = parts_of(sheet)
    prefixes, lent = array("I", bytes(16 * 64)), hinthevoun.empty_boxes(boxes)
    lines = array("I", [0xa5a5a5a5]) * (6 * room)
    hinthevoun.scan(scene, layout.tag_base, prefixes)
    return hinthevoun.flatten(*layout, scene, prefixes[:prefix_words], lent, lines), lent, lines


def header_names():
    """The functions that the header declares, without what their names have in common."""
    names = re.findall(r"^\w[\w ]*\bhinth_(\w+)\(", (ROOT / "include/hinthevoun.h").read_text(), re.M)
    assert len(names) >= 12, names
    return names


def refused(function, *arguments):
    """The refusal that a function raises."""
    try:
        function(*arguments)
    except Refusal as refusal:
        return refusal
    raise AssertionError("it was not refused")


TRIANGLE = TRIANGLE_SHEET.read_text()
RECORDS = [0, 2, 0, 0, 0x40400000, 0, 0, 3, 0x40400000, 0, 0, 0x40c00000, 0, 4, 0, 0x40c00000, 0, 0]


class Calls(unittest.TestCase):
    """scan and flatten."""

    def test_the_triangle(self):
        count, boxes, lines = called(TRIANGLE)
        same((count, list(boxes)), (3, [0, 0, 3, 6, 0, 0]))
        same(list(lines), RECORDS + [0xa5a5a5a5] * 42)

    def test_every_buffer_gives_the_same(self):
        layout, _, scene = parts_of(TRIANGLE)
        data = scene.tobytes()
        pages = mmap.mmap(-1, len(data))
        pages[:] = data
        odd = memoryview(b"?" + data)[1:]
        apart = memoryview(array("I", [word for pair in zip(scene, scene) for word in pair]))[::2]
        for given in (scene, data, bytearray(data), memoryview(data), pages, odd, apart, list(scene), tuple(scene),
                      memoryview(data).cast("I"), array("f", data)):
            prefixes, boxes, lines = bytearray(16 * 64), bytearray(hinthevoun.empty_boxes(1)), bytearray(24 * 3)
            same(hinthevoun.scan(given, 0, prefixes), 64)
            same(hinthevoun.flatten(*layout, given, prefixes, boxes, memoryview(lines)), 3)
            same(list(struct.unpack("=18I", lines)), RECORDS)
            same(struct.unpack("=6i", boxes), (0, 0, 3, 6, 0, 0))

    def test_a_buffer_is_lent_without_a_copy(self):
        words = array("I", range(10))
        for view, at in ((words, 0), (memoryview(words), 0), (memoryview(words)[3:], 12)):
            with Lent("words", view, False) as span:
                same(span.address, words.buffer_info()[0] + at)
        read_only = memoryview(words).toreadonly()
        with Lent("words", read_only, False) as span:
            same(span, (words.buffer_info()[0], 40))

    def test_a_list_cannot_move_while_it_is_lent(self):
        words = array("I", range(10))
        with Lent("words", words, True):
            self.assertRaises(BufferError, words.append, 1)
        words.append(1)

    def test_an_empty_list_has_an_aligned_address(self):
        for empty in (array("I"), b"", bytearray(), [], memoryview(b"")):
            with Lent("words", empty, False) as span:
                assert span.address and span.address % 8 == 0 and span.size == 0, span
        same(hinthevoun.flatten(0, 0, 0, 0, 0, [], [], array("I"), array("I")), 0)

    def test_what_cannot_be_lent_is_told(self):
        layout, _, scene = parts_of(TRIANGLE)
        prefixes = array("I", bytes(1024))
        for wrong, error in ((array("H", [1, 2]), TypeError), (b"123", ValueError), ([-1], OverflowError),
                             ([2**32], OverflowError), ("words", TypeError), (None, TypeError), (5, TypeError)):
            self.assertRaises(error, hinthevoun.scan, wrong, 0, prefixes)
        for wrong, error in ((bytes(16), TypeError), ([0] * 4, TypeError), (memoryview(b"1234"), TypeError),
                             (memoryview(prefixes)[::2], ValueError), (memoryview(bytearray(9))[1:], ValueError)):
            self.assertRaises(error, hinthevoun.scan, scene, 0, wrong)
        for wrong in (-1, 2**32):
            self.assertRaises(ValueError, hinthevoun.scan, scene, wrong, prefixes)
            self.assertRaises(ValueError, hinthevoun.flatten, wrong, *layout[1:], scene, prefixes, array("I"), array("I"))

    def test_lists_that_overlap_are_not_lent(self):
        layout, _, scene = parts_of(TRIANGLE)
        both = array("I", bytes(1024))
        halves = memoryview(both)[:128], memoryview(both)[127:]
        self.assertRaises(ValueError, hinthevoun.scan, scene, 0, scene)
        self.assertRaises(ValueError, hinthevoun.scan, *(halves[0], 0, halves[1]))
        self.assertRaises(ValueError, hinthevoun.flatten, *layout, scene, [], both, both)
        same(hinthevoun.scan(halves[0][:127], 0, halves[1]), 32)


class Refusals(unittest.TestCase):
    """Each number, with its tag, its count and its sentence."""

    def test_each_is_raised_with_what_the_call_told(self):
        layout, _, scene = parts_of(TRIANGLE)
        past = refused(hinthevoun.scan, scene, 77, array("I", [0] * 8))
        same((past.number, past.tag, past.count), (1, 0, 0))
        nan = "7fc00000"
        for sheet, more, expected in (
                (TRIANGLE.replace("00000040", "0000004d", 1), {}, (1, 0, 0)),
                (triangle(tags="01014000"), {}, (2, 2, 0)),
                (TRIANGLE, {"prefix_words": 3}, (3, 0, 0)),
                (triangle(boxes=0), {}, (4, 5, 3)),
                (triangle(flags="80000000", width=nan), {}, (8, 2, 0)),
                ((ROOT / "samples/broken-marker.sheet").read_text(), {}, (5, 3, 3)),
                ((ROOT / "samples/broken-transform.sheet").read_text(), {}, (9, 2, 0)),
                (TRIANGLE, {"room": 2}, (6, 4, 2)),
                (triangle(flags="b0000000", width="3f800000"), {}, (7, 2, 2))):
            refusal = refused(lambda sheet=sheet, more=more: called(sheet, **more))
            same((refusal.number, refusal.tag, refusal.count), expected)
            why = (REASONS[refusal.number] if refusal.number != 5 else ENDS[1]).why
            same(str(refusal), f"refused {refusal.number} at tag {refusal.tag}: {why}")

    def test_the_sentences_are_those_of_the_paper(self):
        page = (ROOT / "docs/FLATLIST.md").read_text()
        table = {int(number): why for number, why in re.findall(r"^\| ([0-9]+) \| (.*) \|$", page, re.M)}
        same({number: reason.why for number, reason in REASONS.items()}, table)

    def test_each_has_a_cure(self):
        for number, reason in REASONS.items():
            assert reason.why and reason.cure, number
            same(Refusal(number, 7).reason, reason)

    def test_the_end_at_fault_is_told(self):
        for name, number, tag, end, why in (("marker", 5, 3, 1, "the start of a line is not a number"),
                                            ("point", 5, 2, 2, "the end of a line is not a number"),
                                            ("curve", 8, 2, 0, "the count of a curve's pieces is not a number"),
                                            ("width", 8, 2, 0, "the count of a curve's pieces is not a number"),
                                            ("transform", 9, 2, 0, REASONS[9].why)):
            sheet = (ROOT / f"samples/broken-{name}.sheet").read_text()
            refusal = refused(lambda sheet=sheet: called(sheet))
            same((name, refusal.number, refusal.tag, refusal.end), (name, number, tag, end))
            same(str(refusal), f"refused {number} at tag {tag}: {why}")
            assert refusal.reason.cure

    def test_one_that_is_not_known_is_still_told(self):
        holds(str(Refusal(99, 1)), "refused 99 at tag 1: ")


class Mathematics(unittest.TestCase):
    """Every function once at an ordinary place and at a corner; the harness compares them over every word."""

    def test_the_functions(self):
        f32 = [("sqrt", (2.0,), 0x3fb504f3), ("hypot", (3.0, 4.0), 0x40a00000), ("cbrt", (-8.0,), 0xc0000000),
               ("two_thirds", (8.0,), 0x40800000), ("half", (0x3c00,), 0x3f800000), ("sin", (0.0,), 0),
               ("cos", (0.0,), 0x3f800000), ("atan2", (0.0, -1.0), 0x40490fdb), ("asin", (1.0,), 0x3fc90fdb),
               ("acos", (-1.0,), 0x40490fdb), ("sqrt", (-0.0,), 0x80000000), ("hypot", (math.inf, math.nan), 0x7f800000),
               ("half", (0xffff8000,), 0x80000000), ("sin", (1e30,), None), ("cbrt", (math.inf,), 0x7f800000)]
        for name, given, bits in f32:
            answer = getattr(hinthevoun, name)(*given)
            if bits is None:
                assert abs(answer - math.sin(struct.unpack("f", struct.pack("f", *given))[0])) < 1e-6, (name, answer)
            else:
                same((name, struct.unpack("=I", struct.pack("=f", answer))[0]), (name, bits))
        for name in ("sqrt", "two_thirds"):
            assert math.isnan(getattr(hinthevoun, name)(-1.0)), name
        for name in ("asin", "acos"):
            assert math.isnan(getattr(hinthevoun, name)(1.5)), name

    def test_every_function_of_the_header_has_one(self):
        for name in header_names():
            function = getattr(hinthevoun, "import_path" if name == "import" else name)  # a word of Python's own
            assert callable(function), name
            assert function.__doc__, name
            assert getattr(load(), f"hinth_{name}").argtypes, name

    def test_the_library_has_these_functions_and_asks_for_none(self):
        listed = subprocess.run(["nm", "-D", "-P", LIBRARY], stdout=subprocess.PIPE, check=True, text=True).stdout
        symbols = [row.split()[:2] for row in listed.split("\n") if row]
        same(sorted(name for name, kind in symbols if kind == "T"), sorted(f"hinth_{name}" for name in header_names()))
        same([name for name, kind in symbols if kind in "Uw"], [])

    def test_numbers_that_are_none_are_told(self):
        for function in (hinthevoun.half, hinthevoun.sqrt):
            self.assertRaises(ctypes.ArgumentError, function, "2")


class Example(unittest.TestCase):
    """The example in the package's own words."""

    def test_it_runs(self):
        rows = hinthevoun.__doc__.split("The triangle of docs/FLATLIST.md:\n\n")[1].split("\n")
        code = "\n".join(row[4:] for row in rows if row.startswith("    ")).replace("samples/", f"{ROOT}/samples/")
        names = {}
        exec(code, names)  # pylint: disable=exec-used
        same(list(names["lines"][:18]), RECORDS)


if __name__ == "__main__":
    unittest.main()
