"""The whole way: path data to HP-GL in one call, and `hinth cut` from a designer's drawing to a file for the knife table."""
import math
import random
import re
import unittest
from array import array
from fractions import Fraction

from hinthevoun import NotCutText, Stage, Table, cut_text, read_cut
from hinthevoun.svg.outlines import left_open
from hinthevoun.svg.page import scale_of
from hinthevoun.whole import Room
from parts import cut_text_by_parts
from support import ROOT, hinth, holds, in_folder, same

BRIM = "samples/brim.svg"
IDENTITY = (1, 0, 0, 1, 0, 0)
TRIANGLE = b"M0 0L3 0L0 6Z"
MILLIMETRES = "width='100mm' height='50mm' viewBox='0 0 100 50'"


def document(*elements, attributes=MILLIMETRES):
    return f'<svg xmlns="http://www.w3.org/2000/svg" {attributes}>{"".join(elements)}</svg>'.encode()


def path(data="M10 10L30 10L10 40Z", more="id='p'"):
    return f'<path {more} d="{data}"/>'


class Lent:
    """Buffers of one call, marked so that what is written is seen."""

    def __init__(self, tags=8, points=40, scene=200, prefixes=256, lines=60, file=100):
        self.tags, self.file = bytearray(b"\xa5" * tags), bytearray(b"\xa5" * file)
        self.points, self.scene, self.prefixes, self.lines = (array("I", [0xa5a5a5a5]) * n for n in (points, scene, prefixes, lines))

    def cut(self, text, transform=IDENTITY, table=Table.NEW):
        """The file, or the refusal's number, stage and place, with a file that is as it was."""
        try:
            count = cut_text(text, transform, table, self.tags, self.points, self.scene, self.prefixes, self.lines, self.file)
        except NotCutText as why:
            same(set(self.file) - {0xa5}, set())
            assert str(why).startswith(f"refused {why.number} at "), why
            assert why.reason.why and why.reason.cure, why
            return why.number, why.stage, why.place
        same(set(self.file[count:]) - {0xa5}, set())
        return bytes(self.file[:count])


class Function(unittest.TestCase):
    """cut_text on Python's own buffers."""

    def test_a_triangle_with_all_that_it_leaves(self):
        lent = Lent()
        same(lent.cut(TRIANGLE, (2, 0, 0, -2, 10, 20)), b"IN;PU10,20;PD16,20;PD10,8;PD10,20;")
        same(bytes(lent.tags[:4]), b"\x09\x09\x0d\xa5")
        same(lent.scene[:2].tolist(), [0x09094020, 0x0000100d])
        same(lent.scene[2:64].tolist(), [0] * 62)
        same(lent.scene[64:72].tolist(), lent.points[:8].tolist())
        same(lent.scene[78:81].tolist(), [0, 0, 0xa5a5a5a5])
        same(lent.lines[0::6].tolist(), [0, 0, 0] + [0xa5a5a5a5] * 7)
        same(lent.lines[1:18:6].tolist(), [2, 3, 4])

    def test_each_stage_refuses_with_its_place(self):
        for text, how, more, told in (
                (b"M0 0H3", {}, {}, (60, Stage.TEXT, 4)), (b"M0 0L1234567890 1", {}, {}, (61, Stage.TEXT, 5)),
                (TRIANGLE, {"tags": 2}, {}, (21, Stage.TEXT, 12)), (TRIANGLE, {"points": 7}, {}, (21, Stage.TEXT, 12)),
                (TRIANGLE, {"scene": 79}, {}, (80, Stage.SHEET, 80)), (b"", {"scene": 0}, {}, (80, Stage.SHEET, 72)),
                (TRIANGLE, {"prefixes": 7}, {}, (3, Stage.PROFILE, 4)),
                (TRIANGLE, {}, {"transform": (1, 1, 0, 1, 0, 0)}, (73, Stage.PROFILE, 2)),
                (TRIANGLE, {}, {"transform": (1, 0, math.nan, 1, 0, 0)}, (73, Stage.PROFILE, 2)),
                (TRIANGLE, {}, {"transform": (math.inf, 0, 0, 1, 0, 0)}, (9, Stage.FLATTEN, 2)),
                (TRIANGLE, {"lines": 17}, {}, (6, Stage.FLATTEN, 4)),
                (b"M0 0L1 1L8388608 0Z", {}, {}, (30, Stage.CUT, 1)),
                (b"M0 0L1 1L32768 0Z", {}, {"table": Table.OLD}, (30, Stage.CUT, 1)),
                (TRIANGLE, {"file": 26}, {}, (31, Stage.CUT, 2)), (TRIANGLE, {"file": 2}, {}, (31, Stage.CUT, 0))):
            same((text, how, more, Lent(**how).cut(text, **more)), (text, how, more, told))
        long = b"M0 0" + b"L1 1L0 0" * 2048 + b"L1 0"
        lent = Lent(tags=5000, points=20_000, scene=40_000, prefixes=5000, lines=30_000, file=100_000)
        same(lent.cut(long), (75, Stage.PROFILE, 2 + 4096))
        same(len(lent.cut(long[:-4])), 3 + len("PU0,0;") + 4096 * len("PD1,1;"))

    def test_exactly_enough_room(self):
        file = Lent().cut(TRIANGLE)
        same(Lent(tags=3, points=8, scene=80, prefixes=8, lines=18, file=len(file)).cut(TRIANGLE), file)
        same(Lent(tags=0, points=0, scene=72, prefixes=4, lines=0, file=3).cut(b" "), b"IN;")

    def test_the_old_table_has_its_own_reach(self):
        text = b"M0 0L32767 0L-32767 1Z"
        same(Lent().cut(text, table=Table.OLD), Lent().cut(text))
        same(Lent().cut(b"M0 0L32767.5 0Z", table=Table.OLD), (30, Stage.CUT, 0))
        same(Lent().cut(b"M0 0L32767.5 0Z"), b"IN;PU0,0;PD32768,0;PD0,0;")
        self.assertRaises(ValueError, Lent().cut, TRIANGLE, table=2)
        self.assertRaises(ValueError, Lent().cut, TRIANGLE, transform=(1, 0, 0, 1, 0))


def random_text(chance):
    """Path data with small numbers, sometimes damaged."""
    def pair():
        return f"{chance.randrange(-40, 40) / 4:g} {chance.randrange(-40, 40) / 4:g}"
    text = f"M{pair()}" + "".join(f"{kind}{' '.join(pair() for _ in range(points))}" for kind, points in chance.choices(
        [("L", 1), ("Q", 2), ("C", 3), ("Z", 0), ("M", 1)], k=chance.randrange(8)))
    if chance.randrange(4) == 0:
        at = chance.randrange(len(text))
        text = text[:at] + chance.choice("hV,.-1e ") + text[at + 1:]
    return text.encode()


class Parts(unittest.TestCase):
    """The call leaves and tells what its parts do, one after the other."""

    def test_random_texts_with_little_room(self):
        chance, seen = random.Random(31), set()
        for _ in range(2000):
            text, table = random_text(chance), chance.choice(list(Table))
            transform = [chance.choice((1, -3, 0.5, 40000)), *chance.choices((0, 1), (20, 1), k=2), chance.choice((1, -2)), 7, 0.5]
            room = {name: chance.choice((most, most, chance.randrange(most))) for name, most in
                    (("tags", 12), ("points", 80), ("scene", 160), ("prefixes", 256), ("lines", 3000), ("file", 9000))}
            ours, theirs = Lent(**room), Lent(**room)
            told = ours.cut(text, transform, table)
            by_parts = cut_text_by_parts(text, transform, table, **vars(theirs))
            file = bytes(theirs.file[:by_parts.count])
            same((text, room, told), (text, room, (by_parts.number, by_parts.stage, by_parts.place) if by_parts.number else file))
            same({name: bytes(buffer) for name, buffer in vars(ours).items()},
                 {name: bytes(buffer) for name, buffer in vars(theirs).items()})
            seen.add((by_parts.stage, by_parts.number))
        assert seen >= {(0, 0), (1, 60), (1, 21), (2, 80), (4, 3), (4, 73), (5, 6), (6, 30), (6, 31)}, seen


class Rooms(unittest.TestCase):
    """The room that the package lends."""

    def test_no_text_is_refused_for_want_of_room(self):
        for part in (b"L1-1Z", b"L.5.5", b"-1-1", b"M1 1 2 2", b"M1-1-2-2Z", b"Q1-1-2-2Z", b"C1-1-2-2-3-3Z", b"L1 2\n", b"Z"):
            for times in (0, 1, 2, 63, 64, 126, 127, 128, 1000):
                text = b"M0-0" + part * times
                file = Room(text).cut(text, IDENTITY, Table.NEW)
                same(file.count(b"PU") > 0, times > 0 and part != b"Z")


class Sample(unittest.TestCase):
    """The brim, from the drawing to the file and its picture."""

    @in_folder
    def test_the_brim_is_cut_as_the_samples_have_it(self, folder):
        result = hinth("cut", BRIM, "-o", folder / "brim.plt", "--picture", folder / "brim.svg")
        same((result.status, result.out), (0, b""))
        same((folder / "brim.plt").read_bytes(), (ROOT / "samples/brim.plt").read_bytes())
        same((folder / "brim.svg").read_bytes(), (ROOT / "docs/figures/brim-cut.svg").read_bytes())
        same(result.said, f"hinth: {BRIM}: path 'brim' (line 7): 309 lines in 2 chains, 113.325 mm wide and 110 mm high, for the new "
                          f"table\nhinth: {BRIM}: 1 unit = 1 mm = 40 plotter units, as its width, height and viewBox say; the table's "
                          "0,0 is the page's lower left corner; the piece is cut as it looks on the screen\n")

    def test_the_file_is_closed_and_the_same_for_both_tables(self):
        file = hinth("cut", BRIM).out
        same(hinth("cut", BRIM, "--table", "old").out, file)
        lines = array("i", bytes(16 * file.count(b"PD")))
        same(read_cut(file, Table.OLD, lines), 309)
        same(sorted(zip(lines[0::4], lines[1::4])), sorted(zip(lines[2::4], lines[3::4])))

    def test_it_is_the_way_by_sheet_and_list(self):
        text = re.search(rb'\bd="([^"]*)"', (ROOT / BRIM).read_bytes())[1]
        turned = document(f"<g transform='matrix(40 0 0 -40 200 5100)'>{path(text.decode())}</g>")
        sheet = hinth("import", "-", data=turned).out
        lines = hinth("flatten", "-", data=sheet).out
        same(hinth("cut", "-", "--path", 0, data=lines).out, hinth("cut", BRIM).out)


    def test_the_drawings_of_the_import(self):
        for name, options, status, said in (
                ("inkscape", ("--path", "pad"), 0, "60 lines in 1 chain, 8 mm wide and 8 mm high"),
                ("inkscape", (), 1, "the ids of its paths are brim, pad"), ("inkscape", ("--path", "brim"), 1, "evenodd"),
                ("illustrator", ("--path", "liner_1_"), 1, "its width is '425.2px'"),
                ("illustrator", ("--path", "liner_1_", "--scale", "25.4/72"), 0, "112.525 mm wide and 110.05 mm high"),
                ("relative", ("--scale", 1), 1, "path 'strap' (line 3): refused 60 at byte 16 of its path data")):
            result = hinth("cut", f"samples/import/{name}.svg", *options)
            same((name, options, result.status, result.out[:3]), (name, options, status, b"" if status else b"IN;"))
            holds(result.said, said)


class Drawings(unittest.TestCase):
    """What hinth cut makes of drawings, and says."""

    def cuts(self, *elements, options=(), attributes=MILLIMETRES):
        """The file and what is said of it."""
        result = hinth("cut", "-", *options, data=document(*elements, attributes=attributes))
        same((result.status, result.said.count("\n")), (0, 2))
        return result.out, result.said

    def refuses(self, *elements, options=(), attributes=MILLIMETRES):
        """The one sentence; nothing is written."""
        result = hinth("cut", "-", *options, data=document(*elements, attributes=attributes))
        same((result.status, result.out, result.said.count("\n")), (1, b"", 1))
        assert result.said.endswith("; nothing is written\n"), result.said
        return result.said

    def test_y_points_up_so_no_piece_is_mirrored(self):
        # an L: upright stroke on the left, foot to the right at the bottom of the screen
        file, _ = self.cuts(path("M10 10L15 10L15 35L30 35L30 40L10 40Z"))
        same(file, b"IN;PU400,1600;PD600,1600;PD600,600;PD1200,600;PD1200,400;PD400,400;PD400,1600;")

    def test_the_scale_of_the_document(self):
        for attributes, said, start in (
                (MILLIMETRES, "1 unit = 1 mm = 40 plotter units", b"IN;PU400,1600;"),
                ("width='10cm' height='5CM' viewBox='0,0,100,50'", "1 unit = 1 mm = 40 plotter units", b"IN;PU400,1600;"),
                ("width='100in' height='50in' viewBox='0 0 100 50'", "1 unit = 25.4 mm = 1016 plotter units", b"IN;PU10160,40640;"),
                ("width='72pt' height='36pt' viewBox='0 0 72 36'", "1 unit = 0.352777778 mm = 14.1111111 plotter units", b"IN;PU141,367;"),
                ("width='6pc' height='72pt' viewBox='0 0 12 12'", "1 unit = 2.11666667 mm = 84.6666667 plotter units", b"IN;PU847,169;"),
                ("width='400Q' height='200Q' viewBox='0 0 100 50'", "1 unit = 1 mm = 40 plotter units", b"IN;PU400,1600;"),
                ("width='210mm' height='297mm' viewBox='0 0 744.09449 1052.3622'", "1 unit = 0.282222222 mm = 11.2888889 plotter units",
                 b"IN;PU113,11767;"),
                ("width='100mm' height='50mm' viewBox='-10 -5 100 50'", "1 unit = 1 mm = 40 plotter units", b"IN;PU800,1400;")):
            file, told = self.cuts(path(), attributes=attributes)
            holds(told, f"{said}, as its width, height and viewBox say; the table's 0,0 is the page's lower left corner")
            same((attributes, file[:len(start)]), (attributes, start))

    def test_a_scale_that_is_given_comes_first(self):
        file, said = self.cuts(path(), options=("--scale", "0.5"))
        holds(said, "1 unit = 0.5 mm = 20 plotter units, as --scale says; the table's 0,0 is the page's lower left corner")
        same(file, b"IN;PU200,800;PD600,800;PD200,200;PD200,800;")
        for attributes, corner, file in (
                ("width='100' height='50px'", "the page's lower left corner", b"IN;PU400,1600;PD1200,1600;PD400,400;PD400,1600;"),
                ("height='50mm'", "the document's own 0,0, since it says no height", b"IN;PU400,-400;PD1200,-400;PD400,-1600;PD400,-400;"),
                ("height='100%'", "the document's own 0,0", b"IN;PU400,-400;PD1200,-400;PD400,-1600;PD400,-400;"),
                ("height='50' style='height:70px'", "the document's own 0,0", b"IN;PU400,-400;PD1200,-400;PD400,-1600;PD400,-400;")):
            cut, said = self.cuts(path(), attributes=attributes, options=("--scale", "1"))
            same((attributes, cut), (attributes, file))
            holds(said, f"the table's 0,0 is {corner}")
        holds(self.cuts(path(), attributes="", options=("--scale", "25.4/96"))[1], "1 unit = 0.264583333 mm = 10.5833333 plotter units")
        same([scale_of(word) for word in ("1", "2.5", ".5", "3.", "25.4/96")],
             [1, Fraction(5, 2), Fraction(1, 2), 3, Fraction(127, 480)])
        for word in ("0", "-1", "1/0", "0/3", "nan", "inf", "1e3", "", "1 mm", "1/2/3"):
            result = hinth("cut", BRIM, f"--scale={word}")
            same((word, result.status, result.out), (word, 2, b""))
            holds(result.said, "invalid size in millimetres value")

    def test_no_scale_is_asked_for(self):
        ask = "; say how many millimetres a unit of it has, with --scale; nothing is written"
        for attributes, why in (
                ("", "it has no width"), ("width='100mm' viewBox='0 0 100 50'", "it has no height"),
                ("width='100mm' height='50mm'", "it has no viewBox, and programs differ in how many of its units make an inch: 96, 90 or 72"),
                ("width='425.2px' height='300px' viewBox='0 0 425.2 300'", "its width is '425.2px', and programs differ in how many px make"),
                ("width='100' height='50' viewBox='0 0 100 50'", "its width is '100', and programs differ"),
                ("width='100%' height='50mm' viewBox='0 0 100 50'", "its width is '100%', and that is no length in mm, cm, in, pt, pc or Q"),
                ("width='100mm' height='5em' viewBox='0 0 100 50'", "its height is '5em', and that is no length"),
                ("width='0mm' height='50mm' viewBox='0 0 100 50'", "its width is '0mm', which is not above zero"),
                ("width='100mm' height='50.01mm' viewBox='0 0 100 50'", "by its width and viewBox a unit is 1 mm, and by its height 1.0002 mm"),
                (f"{MILLIMETRES} style='width:7px'", "its width or height is said in a style, which is not read")):
            said = self.refuses(path(), attributes=attributes)
            holds(said, why)
            holds(said, ask)
        holds(self.refuses("<style>svg { width: 10px }</style>", path()), "said in a style")
        same(self.cuts("<style>.a { stroke-width: 10px }</style>", path())[0][:14], b"IN;PU400,1600;")
        for view in ("0 0 100", "0 0 100 -5", "0 0 0 50", "a b c d", "0 0 100 50 60", ""):
            holds(self.refuses(path(), attributes=f"width='100mm' height='50mm' viewBox='{view}'", options=("--scale", 1)),
                  "is not four numbers of which the last two are above zero")

    def test_transforms_of_the_path_and_its_groups_hold(self):
        file, _ = self.cuts("<g transform='translate(10 5)'>", path("M0 0L20 0L0 30Z", "transform='scale(0.5)'"), "</g>")
        same(file, b"IN;PU400,1800;PD800,1800;PD400,1200;PD400,1800;")
        file, _ = self.cuts(path("M0 0L20 0L0 30Z", "transform='translate(50 40) scale(1 -1)'"))
        same(file, b"IN;PU2000,400;PD2800,400;PD2000,1600;PD2000,400;")

    def test_a_path_that_is_turned_or_slanted_is_refused(self):
        for how in ("rotate(30)", "rotate(90)", "matrix(1 0.1 0 1 0 0)", "matrix(1 0 0.1 1 0 0)"):
            said = self.refuses(path(more=f"id='p' transform='{how}'"))
            holds(said, "path 'p' (line 1): refused 73: its transforms turn or slant it")
            holds(said, "in Inkscape, ungroup it, or Path, Object to Path")
        holds(self.refuses(path(more="transform='skewX(3)'")), "is not cut: its transform has skewX")
        same(self.cuts(path(more="transform='rotate(180 50 25)'"))[0][:13], b"IN;PU3600,400"[:13])

    def test_the_even_odd_rule_is_refused(self):
        for more in ("fill-rule='evenodd'", "style='fill-rule:evenodd'"):
            said = self.refuses(path(more=f"id='p' {more}"))
            holds(said, "path 'p' (line 1) is not cut: its fill-rule is evenodd, which the profile for lay-up sheets refuses (71)")
            holds(said, "nonzero")

    def test_several_paths_are_never_put_together(self):
        both = path(more="id='a'"), path("M1 1L2 2L3 1Z", "id='b'"), path("M0 0L1 0L1 1Z", "")
        said = self.refuses(*both)
        holds(said, "it has 3 paths and shapes, and a file for the table holds one path: choose it with --path; the ids of its paths "
                    "are a, b, without an id is path (line 1)")
        same(self.cuts(*both, options=("--path", "b"))[0], b"IN;PU40,1960;PD80,1920;PD120,1960;PD40,1960;")
        missing = hinth("cut", "-", "--path", "c", data=document(*both))
        same((missing.status, missing.out), (2, b""))
        holds(missing.said, "no path has the id 'c'; the ids of its paths are a, b")
        holds(hinth("cut", "-", "--path", "", data=document(*both)).said, "no path has the id ''")
        holds(self.refuses(path(more="id='a'"), path(more="id='a'"), options=("--path", "a")), "2 elements have the id 'a'")
        holds(self.refuses(*[path(more=f"id='p{n}'") for n in range(30)]), "p18, p19, and 10 more")
        holds(self.refuses(path(more=""), path(more="")), "none of its paths has an id")

    def test_shapes_and_hidden_paths(self):
        holds(self.refuses(path(more="id='a'"), "<rect id='r'/>"), "it has 2 paths and shapes")
        same(self.cuts(path(more="id='a'"), "<rect id='r'/>", options=("--path", "a"))[0][:4], b"IN;P")
        holds(self.refuses("<rect id='r'/>"), "rect 'r' (line 1) is not cut: a rect is no path")
        holds(self.refuses(path(more="id='a' display='none'")), "path 'a' (line 1) is not cut: it is hidden")
        holds(self.refuses(path(more="id='a' clip-path='url(#c)'")), "it has clip-path")
        holds(self.refuses(), "it has no path")

    def test_path_data_that_is_not_taken_is_told_by_its_byte(self):
        said = self.refuses(path("M10 10H30L10 40Z"))
        holds(said, "path 'p' (line 1): refused 60 at byte 6 of its path data, behind 'M10 10', at 'H30L10 40Z'")
        holds(said, "make that piece a curve: in Inkscape, select its nodes and press Shift+U")
        holds(self.refuses(path("m10 10l30 0z")), "save with absolute coordinates")
        holds(self.refuses(path("M10 10L1e3 40Z")), "an exponent is not taken")
        holds(self.refuses(path("M10 10L1.1234567891 4Z")), "refused 61 at byte 7 of its path data")
        holds(self.refuses(path("M10 10L")), "where it ends")

    def test_too_many_segments_are_told_by_the_first(self):
        data = "M0 0" + "L1 1L0 0" * 2048
        same(len(self.cuts(path(data))[0]), 3 + len("PU0,2000;") + 2048 * len("PD40,1960;PD0,2000;"))
        said = self.refuses(path(data + "L5 5"))
        holds(said, f"refused 75 at segment 4,097 of its path data, which is over at byte {len(data) + 4:,}, behind 'L1 1L0 0L5 5'")
        holds(said, "part the drawing")

    def test_a_piece_that_the_table_does_not_take(self):
        said = self.refuses(path("M10 10L1000 10L10 40Z"), options=("--table", "old"))
        holds(said, "path 'p' (line 1): refused 30 at segment 1 of its path data, which is over at byte 14, behind '0 10L1000 10': the "
                    "end of a line has x = 40000 plotter units, 1000 mm, at (1000, 10) of the document, and the old table takes -32767 to "
                    "32767; make the piece smaller, move it nearer to what is the table's 0,0, or cut it for the new table")
        same(self.cuts(path("M10 10L1000 10L10 40Z"))[0][:27], b"IN;PU400,1600;PD40000,1600;")
        said = self.refuses(path("M10 10L20 10L10 -900Z"), options=("--table", "old"))
        holds(said, "at segment 2 of its path data")
        holds(said, "the end of a line has y = 38000 plotter units, 950 mm, at (10, -900) of the document")
        said = self.refuses(path("M999999 10L1000000 10L10 40Z"), options=("--table", "new"))
        holds(said, "the start of a line has x = 39999960 plotter units")
        holds(said, "the new table takes -8388608 to 8388607; make the piece smaller, move it nearer to what is the table's 0,0, or part it")

    def test_numbers_that_grow_too_large(self):
        holds(self.refuses(path(more="transform='scale(1e200)'")), "is not cut: its transform has a number that is too large")
        said = self.refuses(path("M0 0C900000000 0 900000000 0 900000000 900000000Z", "id='p' transform='scale(1e30)'"))
        assert re.search(r"path 'p' \(line 1\): refused [58] at segment 1 of its path data, which is over at byte 48, ", said), said

    def test_an_outline_that_is_left_open_is_told(self):
        result = hinth("cut", "-", data=document(path("M10 10L30 10L10 40")))
        same((result.status, result.out), (0, self.cuts(path("M10 10L30 10L10 40Z"))[0]))
        holds(result.said, "path 'p' (line 1): 1 outline is open in the drawing, and closed by a straight cut back to its start\n")
        for data, outlines in (("M0 0L1 1L0 1Z", 0), ("M0 0L1 1L0 0", 0), ("M0 0L1 1L0.0-0", 0), ("M0 0L1 1M5 5L6 6", 2), ("M0 0M1 1", 0), ("", 0),
                               ("M0 0 1 1 0 1", 1), ("M0 0L1 1ZL2 2", 1), ("M0 0L1 1ZL2 2Z", 0), ("M0 0C1 1 2 2 3 3M1 1L2 2Z", 1)):
            same((data, left_open(data)), (data, outlines))
        holds(hinth("cut", "-", data=document(path("M0 0L1 1M5 5L6 6"))).said, "2 outlines are open in the drawing, and closed by a "
                                                                               "straight cut back to the start of each")

    def test_numbers_of_any_size_get_a_sentence(self):
        long = "9" * 5000
        holds(self.refuses(path(), attributes="width='1e999mm' height='1mm' viewBox='0 0 1 1'"), "a unit is inf mm, and by its height 1 mm")
        holds(self.refuses(path(), attributes="width='1e999mm' height='1e999mm' viewBox='0 0 1 1'"), "a number that is too large")
        holds(self.refuses(path(), attributes=f"width='1mm' height='1mm' viewBox='0 0 1 {long}'"), "is not four numbers")
        holds(self.refuses(path(), attributes=f"width='{long}mm' height='1mm' viewBox='0 0 1 1'"), "that is no length")
        holds(self.refuses(path(more=f"transform='scale({long})'")), "has something else than plain numbers")
        same(hinth("cut", BRIM, "--scale", long).status, 2)
        holds(self.refuses(path(), attributes="viewBox='0 0 1e999 1'", options=("--scale", "9" * 90)), "a number that is too large")

    def test_a_path_that_draws_nothing_is_told(self):
        file, said = self.cuts(path("M5 5"))
        same(file, b"IN;")
        holds(said, "0 lines in 0 chains, so the file cuts nothing")

    def test_a_drawing_is_told_from_a_list(self):
        same(hinth("cut", "-", "--scale", "1", data=b"\xef\xbb\xbf\n" + document(path())).status, 0)
        for options, said in ((("--scale", "1"), "--scale and --picture are for a drawing"), (("--picture", "x"), "for a drawing")):
            result = hinth("cut", "samples/socket.lines", "--path", 0, *options)
            same((result.status, result.out), (2, b""))
            holds(result.said, said)
        holds(hinth("cut", "samples/socket.lines").said, "a list is cut by path: --path is missing")

    @in_folder
    def test_a_file_by_its_name(self, folder):
        (folder / "empty.SVG").write_bytes(b"")
        result = hinth("cut", folder / "empty.SVG")
        same((result.status, result.out), (2, b""))
        holds(result.said, "it is damaged, or no SVG")


class Files(unittest.TestCase):
    """What is written, and what stays as it was."""

    @in_folder
    def test_a_refusal_leaves_what_was_there(self, folder):
        for name in ("a.plt", "a.svg"):
            (folder / name).write_text("before")
        result = hinth("cut", "-", "-o", folder / "a.plt", "--picture", folder / "a.svg", data=document(path("M1 1h5")))
        same(result.status, 1)
        same([(folder / name).read_text() for name in ("a.plt", "a.svg")], ["before", "before"])

    @in_folder
    def test_neither_is_written_where_one_cannot_be(self, folder):
        for file, picture in ((folder / "no/a.plt", folder / "a.svg"), (folder / "a.plt", folder / "no/a.svg"), (folder, folder / "a.svg")):
            result = hinth("cut", BRIM, "-o", file, "--picture", picture)
            same((result.status, sorted(folder.iterdir())), (2, []))
            same(result.said.count("\n"), 1)

    @in_folder
    def test_no_file_takes_the_place_of_another(self, folder):
        drawing = folder / "a.svg"
        drawing.write_bytes(document(path()))
        for options in (("-o", drawing), ("--picture", drawing), ("-o", folder / "b", "--picture", folder / "b"), ("--picture", "-")):
            result = hinth("cut", drawing, *options)
            same((options, result.status, drawing.read_bytes()), (options, 2, document(path())))
        holds(hinth("cut", drawing, "--picture", drawing).said, "it would take the place of what is cut; give it another name")

    def test_the_help_says_what_is_decided(self):
        text = hinth("cut", "--help").out.decode()
        for part in ("cut as it looks on the screen", "40 to a millimetre", "one in a million", "evenodd", "never put together"):
            holds(" ".join(text.split()), part)
        assert max(map(len, text.split("\n"))) <= 132


class Damage(unittest.TestCase):
    """Damaged drawings get a sentence, never a traceback and never a part of a file."""

    def test_bytes_changed(self):
        chance, whole = random.Random(30), (ROOT / BRIM).read_bytes()
        begin = whole.index(b"<svg")
        statuses = set()
        for _ in range(40):
            data = bytearray(whole)
            for _ in range(chance.randrange(1, 4)):
                data[chance.randrange(begin, len(data))] = chance.choice(b"\0<>&\"'/ =MlZ019.,-em%\xff")
            result = hinth("cut", "-", data=bytes(data))
            statuses.add(result.status)
            assert "Traceback" not in result.said, (bytes(data), result.said)
            assert (result.out == b"") == (result.status != 0), result.said
        assert statuses >= {0, 1, 2}, statuses


if __name__ == "__main__":
    unittest.main()
