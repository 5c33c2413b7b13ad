"""Path data by the library, and whole SVG documents by `hinth import`."""
import random
import struct
import unittest
from array import array
from fractions import Fraction
from io import BytesIO

import hinthevoun
from hinthevoun import NotImported, Pen, Sheet
from hinthevoun.flattening import flattened
from hinthevoun.sheets import read_sheet
from hinthevoun.svg.placing import NotPlaced, floats_of, matrix_of, nearest
from support import ROOT, hinth, holds, in_folder, same

SAMPLES = ROOT / "samples/import"
TRIANGLE = "M0 0L3 0L0 6Z"
CURE = "save with absolute coordinates: in Inkscape, Preferences, Input/Output, SVG output, Path string format: Absolute"


def words(*floats):
    return list(struct.unpack(f"={len(floats)}I", struct.pack(f"={len(floats)}f", *floats)))


def imported(text, tags=16, points=64):
    """The refusal's number and byte, and the tags and words that the pen counts; nothing behind them is touched."""
    pen, bytes_, words_ = Pen(), bytearray(b"\xa5" * tags), array("I", [0xa5a5a5a5]) * points
    told = (0, 0)
    try:
        hinthevoun.import_path(pen, text, bytes_, words_)
    except NotImported as why:
        assert str(why).startswith(f"refused {why.number} at byte {why.byte}: "), why
        told = (why.number, why.byte)
    drawn, used = pen.counts
    same((bytes_[drawn:], words_[used:].tolist()), (b"\xa5" * (tags - drawn), [0xa5a5a5a5] * (points - used)))
    return told, bytes(bytes_[:drawn]), words_[:used].tolist()


def document(*elements, attributes=""):
    return f'<svg xmlns="http://www.w3.org/2000/svg" {attributes}>{"".join(elements)}</svg>'.encode()


def path(data=TRIANGLE, more=""):
    return f'<path {more} d="{data}"/>'


def lines_of(result):
    """The answer of flattening the sheet that a command wrote."""
    return flattened(read_sheet("imported", BytesIO(result.out)))


class PathData(unittest.TestCase):
    """import_path."""

    def test_a_triangle(self):
        wanted = ((0, 0), b"\x09\x09\x0d", words(0, 0, 3, 0, 0, 6, 0, 0))
        same(imported(TRIANGLE.encode()), wanted)
        same(imported(b"\tM 0,0 3 , 0\r\n0,6\x0c"), wanted)

    def test_behind_a_z_it_starts_at_the_first_point(self):
        same(imported(b"M1 2L3 4ZL5 6")[1:], (b"\x09\x0d\x09\x0d", words(1, 2, 3, 4, 1, 2, 1, 2, 5, 6, 1, 2)))
        same(imported(b"M1 2L3 4ZZ M7 8 Z")[1:], (b"\x09\x0d", words(1, 2, 3, 4, 1, 2)))

    def test_numbers(self):
        for text, number in (("1", 1), (".5", 0.5), ("+000000001", 1), ("-0", -0.0), ("999999999.999999999", 1e9),
                             ("16777217", 16777216), ("16777219", 16777220), ("0.000000001", 1e-9), ("-.1", -0.1)):
            same((text, imported(f"M{text} 0L0 0".encode())[2][0]), (text, words(number)[0]))
        same(imported(b"M1.5.5-1+2")[2], words(1.5, 0.5, -1, 2, 1.5, 0.5))

    def test_where_it_is_left(self):
        for text, byte in ((b"M1 2,", 5), (b"M1,,2", 3), (b"Z", 0), (b"M", 1), (b"M0 0L1 2.", 9), (b"M1 2z", 4), (b"m1 2", 0),
                           (b"M1\x0b2", 2), (b"M1 2\x00", 4), (b"M1 2\xa0", 4), (b",M1 2", 0), (b"M,1 2", 1), (b"M1e3 2", 2),
                           (b"M1. 2", 3), (b"M1 2 3", 6), (b"M1 2L", 5), (b"M1 2 3Z", 6), (b"L1 2", 0), (b"M--1 2", 2)):
            same((text, imported(text)), (text, ((60, byte), b"", [])))
        for text, byte in ((b"M1234567890", 1), (b"M1 -1234567890", 3), (b"M.0000000000", 1), (b"M1 2 +1.0000000000", 5)):
            same((text, imported(text)), (text, ((61, byte), b"", [])))

    def test_what_stands_before_a_refusal(self):
        same(imported(b"M0 0L3 0L0 6L1 1?"), ((60, 16), b"\x09\x09\x09", words(0, 0, 3, 0, 0, 6, 1, 1)))
        same(imported(b"M0 0L3 0L0 6?", points=5), ((21, 12), b"\x09", words(0, 0, 3, 0)))
        same(imported(b"M0 0L3 0 ", tags=1), ((21, 9), b"\x09", words(0, 0, 3, 0)))

    def test_an_empty_text_draws_nothing(self):
        same(imported(b""), ((0, 0), b"", []))
        same(imported(b" \n"), ((0, 0), b"", []))

    def test_buffers_that_cannot_be_lent(self):
        shared = bytearray(8)
        self.assertRaises(ValueError, hinthevoun.import_path, Pen(), memoryview(shared), shared, array("I"))
        self.assertRaises(TypeError, hinthevoun.import_path, Pen(), b"", b"read", array("I"))


class Sheets(unittest.TestCase):
    """Path data in the class Sheet."""

    def test_it_is_drawn_as_by_commands(self):
        by_commands = Sheet().move(0, 0).line(3, 0).line(0, 6).path().words()
        same(Sheet().data(TRIANGLE).path().words().tolist(), by_commands.tolist())

    def test_a_refusal_leaves_the_sheet(self):
        sheet = Sheet().move(0, 0).line(3, 0)
        self.assertRaises(NotImported, sheet.data, "M1 1L2 2 5")
        same(sheet.line(0, 6).path().words().tolist(), Sheet().data(TRIANGLE).path().words().tolist())

    def test_room_grows(self):
        text = "M0 0" + "".join(f"L{k} {k % 7}" for k in range(5000))
        answer = Sheet().data(text).path().flatten()
        same((answer.refusal, len(answer.lines) // 6), (None, 5000))  # the first has no length, and one closes it

    def test_places(self):
        sheet = Sheet().data(TRIANGLE).path().place((9, 0, 0, 9, 0, 0)).place((1, 0, 0, 1, 10, 0)).data(TRIANGLE).path()
        sheet.place((1, 0, 0, 1, 10, 0)).data(TRIANGLE).path().place((2, 0, 0, 2, 0, 0))
        same(sheet.flatten().boxes.tolist(), [0, 0, 3, 6, 0, 0, 10, 0, 13, 6, 0, 1, 10, 0, 13, 6, 0, 1])
        same(sheet.paths, [(1, 3)] * 3)


class Transforms(unittest.TestCase):
    """Transforms as one matrix."""

    def test_functions(self):
        for text, numbers in (("", (1, 0, 0, 1, 0, 0)), ("translate(3)", (1, 0, 0, 1, 3, 0)), ("scale(2)", (2, 0, 0, 2, 0, 0)),
                              ("scale(2,-3)", (2, 0, 0, -3, 0, 0)), ("rotate(90)", (0, 1, -1, 0, 0, 0)),
                              ("rotate(-450 1 2)", (0, -1, 1, 0, -1, 3)), ("matrix(1 2,3-4 5e1 .5)", (1, 2, 3, -4, 50, 0.5)),
                              ("translate(1 2) scale(2), translate(1,1)", (2, 0, 0, 2, 3, 4))):
            same((text, floats_of(matrix_of(text))), (text, numbers))
        turned = floats_of(matrix_of("rotate(30)"))
        same(turned, (0.8660253882408142, 0.5, -0.5, 0.8660253882408142, 0, 0))

    def test_others_are_refused_by_name(self):
        for text, said in (("skewX(3)", "skewX"), ("scale(1,2,3)", "3 numbers"), ("rotate(3deg)", "plain numbers"),
                           ("scale", "'scale'"), ("translate(1)5", "list of functions"), ("matrix(1 2 3 4 5)", "5 numbers"),
                           ("scale()", "plain numbers")):
            with self.assertRaises(NotPlaced) as why:
                matrix_of(text)
            holds(str(why.exception), said)

    def test_numbers_are_rounded_once(self):
        """A number just above the middle of two f32, which f64 takes for the middle."""
        same(nearest(1 + Fraction(1, 2**24)), 1.0)
        same(nearest(1 + Fraction(1, 2**24) + Fraction(1, 2**80)), 1 + 2**-23)
        same(nearest(-3 * Fraction(1, 2**24) - 1), -1 - 2**-22)
        self.assertRaises(NotPlaced, nearest, Fraction(2)**128)
        self.assertRaises(NotPlaced, nearest, Fraction(10)**400)


class Documents(unittest.TestCase):
    """hinth import."""

    def imports(self, *elements, attributes="", options=()):
        return hinth("import", "-", *options, data=document(*elements, attributes=attributes))

    def refuses(self, *elements, attributes="", options=()):
        """The sentence of a refusal."""
        result = self.imports(*elements, attributes=attributes, options=options)
        same((result.status, result.out, result.said.count("\n")), (1, b"", 1))
        holds(result.said, "; nothing is written\n")
        return result.said

    def test_paths_in_their_order_each_with_its_number(self):
        result = self.imports(path(more='id="one"'), "<g>", path("M0 0L9 9L9 0"), "</g>")
        same((result.status, result.said), (0, "hinth: standard input: path 0 is path 'one' (line 1): 1 outline, 3 segments\n"
                                               "hinth: standard input: path 1 is path (line 1): 1 outline, 3 segments\n"))
        answer = lines_of(result)
        same((answer.refusal, answer.lines.tolist()[0::6]), (None, [0, 0, 0, 1, 1, 1]))

    def test_transforms_of_groups_and_of_the_path_itself(self):
        result = self.imports("<g transform='translate(10,0)'><a transform='scale(2)'>", path(more="transform='rotate(90)'"),
                              "</a></g>", path())
        same(lines_of(result).boxes.tolist(), [-2, 0, 10, 6, 0, 0, 0, 0, 3, 6, 0, 1])
        holds(self.refuses("<g transform='skewY(2)'>", path(more="id='a'"), "</g>"),
              "path 'a' (line 1) is not imported: its transform has skewY, and only matrix, translate, scale, rotate are taken")
        holds(self.refuses(path(more="style='transform: rotate(2deg)'")), "its attribute style has transform")
        holds(self.refuses(path(more="transform='scale(1e200) scale(1e200)'")), "a number that is too large")
        holds(self.refuses(path(more="transform-origin='1 1'")), "it has transform-origin")

    def test_fill_rules(self):
        for elements, flags in (([path()], 0), ([path(more="fill-rule='evenodd'")], 1),
                                ([path(more="style='fill-rule: evenodd;'")], 1), (["<g fill-rule='evenodd'>", path(), "</g>"], 1),
                                (["<g fill-rule='evenodd'>", path(more="style='fill:red;fill-rule:nonzero'"), "</g>"], 0)):
            same((elements, lines_of(self.imports(*elements)).boxes.tolist()[4]), (elements, flags))
        holds(self.refuses(path(more="fill-rule='odd'")), "its fill-rule 'odd' is neither nonzero nor evenodd")

    def test_what_the_language_does_not_have_is_told_by_its_byte_with_a_cure(self):
        said = self.refuses(path("M1 1L2 2l3 3", "id='strap'"))
        same(said, "hinth: standard input: path 'strap' (line 1): refused 60 at byte 8 of its path data, behind 'M1 1L2 2', "
                   f"at 'l3 3': no path data of absolute M, L, Q, C and Z goes on so; {CURE}; nothing is written\n")
        holds(self.refuses(path("M1 1H5")), "Shift+U")
        holds(self.refuses(path("M1 1L1e5 0")), "an exponent is not taken")
        holds(self.refuses(path("M1 1L2")), "refused 60 at byte 6 of its path data, behind 'M1 1L2', where it ends")
        holds(self.refuses(path("M1 1L1234567890 2")), "refused 61 at byte 5 of its path data")
        holds(self.refuses(path("none")), "at byte 0 of its path data, at its beginning, at 'none'")

    def test_what_is_no_path_is_told_by_its_name(self):
        for element in ("rect", "circle", "ellipse", "line", "polyline", "polygon", "text", "image", "use"):
            holds(self.refuses(path(), f"<g><{element} id='it'/></g>"),
                  f"{element} 'it' (line 1) is not imported: a {element} is no path")
        for element in ("defs", "symbol", "clipPath", "mask", "marker", "pattern", "switch", "svg", "other"):
            holds(self.refuses(path(), f"<{element}>", path(), f"</{element}>"), f"it stands in '{element}', and only")
        holds(self.refuses("<path id='p'/>"), "path 'p' (line 1) is not imported: it has no d")
        for how in ("display='none'", "style='display:none'", "visibility='hidden'"):
            holds(self.refuses(f"<g {how}>", path(), "</g>"), "it is hidden")
        same(self.imports("<g visibility='hidden'>", path(more="visibility='visible'"), "</g>").status, 0)
        for name in ("clip-path", "mask"):
            holds(self.refuses(path(more=f"{name}='url(#c)'")), f"it has {name}, which changes what is drawn of it")
        holds(self.refuses(), "it has no path")

    def test_only_chooses(self):
        elements = (path(more="id='a'"), "<rect id='r'/>", "<g id='g'>", path(more="id='b'"), path("M0 0Z"), "</g>")
        holds(self.refuses(*elements), "rect 'r'")
        holds(self.imports(*elements, options=("--only", "a")).said, "path 0 is path 'a' (line 1): 1 outline, 3 segments\n")
        result = self.imports(*elements, options=("--only", "g"))
        holds(result.said, "path 1 is path (line 1): 0 outlines, 0 segments")
        same((result.status, lines_of(result).lines.tolist()[0::6]), (0, [0, 0, 0]))
        missing = self.imports(*elements, options=("--only", "a", "x"))
        same(missing.status, 2)
        holds(missing.said, "no path has the id 'x'")

    def test_bad_documents(self):
        for data, said in ((b"<svg", "it is damaged, or no SVG"), (b"<svg/>", "its outermost element is 'svg', and not an SVG's"),
                           (b"<a xmlns='http://www.w3.org/2000/svg'/>", "save it as plain SVG"),
                           (document("<style>.a{fill-rule:evenodd}</style>", path()), "its style sheet says 'fill-rule'"),
                           (document("<style>/* d: */ @import 'a'</style>", path()), "'@import'"),
                           (b"<?xml-stylesheet href='a.css'?>" + document(path()), "stands in another file"),
                           (document(path(), attributes="transform='scale(2)'"), "svg element itself has a transform"),
                           (document("&no;"), "undefined entity")):
            result = hinth("import", "-", data=data)
            same((data, result.status, result.out, result.said.count("\n")), (data, 2, b"", 1))
            holds(result.said, said)
        same(self.imports("<style>.a { fill: red; /* fill-rule: evenodd */ }</style>", path()).status, 0)

    def test_path_data_alone(self):
        result = hinth("import", SAMPLES / "triangle.path")
        same(result.status, 0)
        holds(result.said, "triangle.path: path 0 is the path data: 1 outline, 3 segments")
        same(lines_of(result).boxes.tolist(), [0, 0, 30, 60, 0, 0])
        result = hinth("import", "-", data=b"M1 2 \xff")
        same(result.status, 1)
        holds(result.said, "the path data: refused 60 at byte 5 of its path data")
        same(hinth("import", "-", "--only", "a", data=TRIANGLE.encode()).status, 2)

    @in_folder
    def test_a_refusal_leaves_the_file_that_was_there(self, folder):
        (folder / "a.sheet").write_text("before")
        same(hinth("import", SAMPLES / "relative.svg", "-o", folder / "a.sheet").status, 1)
        same((folder / "a.sheet").read_text(), "before")
        same(hinth("import", SAMPLES / "triangle.path", "-o", folder / "a.sheet").status, 0)
        same(len((folder / "a.sheet").read_text().split()), 6 + 64 + 8 + 6 + 2)
        (folder / "b.svg").write_bytes(document(path()))
        same(hinth("import", folder / "b.svg", "-o", folder / "b.svg").status, 2)


class Samples(unittest.TestCase):
    """Drawings as drawing programs save them."""

    def test_each_is_imported_flattened_and_closed(self):
        for name, paths, outlines in (("inkscape", 2, 3), ("illustrator", 2, 2), ("cad", 2, 3)):
            result = hinth("import", SAMPLES / f"{name}.svg")
            same((name, result.status, result.said.count("\n")), (name, 0, paths))
            checked = hinth("check", "-", data=hinth("flatten", "-", data=result.out).out)
            same((name, checked.status), (name, 0))
            same(sum(int(row.split(": ")[3].split()[0]) for row in result.said.strip().split("\n")), outlines)

    @in_folder
    def test_the_picture_in_the_papers(self, folder):
        same(hinth("import", SAMPLES / "inkscape.svg", "-o", folder / "brim.sheet").status, 0)
        same(hinth("draw", "--mm", "1", "--ink", folder / "brim.sheet", "-o", folder / "brim.svg").status, 0)
        drawn = (folder / "brim.svg").read_text().replace(f"{folder}/", "")
        same(drawn, (ROOT / "docs/figures/import.svg").read_text())

    def test_relative_coordinates_are_refused_with_the_cure(self):
        result = hinth("import", SAMPLES / "relative.svg")
        same(result.status, 1)
        holds(result.said, "path 'strap' (line 3): refused 60 at byte 16 of its path data")
        holds(result.said, CURE)


class Damage(unittest.TestCase):
    """Damaged documents get a sentence, never a traceback and never a sheet that is not whole."""

    def test_bytes_changed(self):
        chance, whole = random.Random(23), (SAMPLES / "inkscape.svg").read_bytes()
        statuses = set()
        for _ in range(40):
            data = bytearray(whole)
            for _ in range(chance.randrange(1, 4)):
                data[chance.randrange(len(data))] = chance.choice(b"\0<>&\"'/ =MlZ019.,-e\xff")
            result = hinth("import", "-", data=bytes(data))
            statuses.add(result.status)
            assert "Traceback" not in result.said, (bytes(data), result.said)
            assert (result.out == b"") == (result.status != 0), result.said
        assert statuses >= {0, 2}, statuses


if __name__ == "__main__":
    unittest.main()
