"""hinth info: what a sheet holds."""
import unittest

from support import SOCKET_SHEET, TRIANGLE_SHEET, hinth, holds, packed, same, triangle

TRIANGLE = TRIANGLE_SHEET.read_text()


def sheet_of(tags, data, styles, transforms=1):
    """A sheet of one workgroup with these tags, data words and styles, and transforms that change nothing."""
    tags = bytes(tags).ljust(256, b"\0")
    words = [int.from_bytes(tags[i:i + 4], "little") for i in range(0, 256, 4)] + data
    transform = len(words)
    words += [0x3f800000, 0, 0, 0x3f800000, 0, 0] * transforms
    head = [1, 0, 64, transform, len(words), 8]
    return "".join(f"{word:08x}\n" for word in [*head, *words, *styles])


def told(data):
    """The rows, by their first word; a row without one goes on from the last."""
    result = hinth("info", "-", data=data if isinstance(data, bytes) else data.encode())
    same((result.status, result.said), (0, ""))
    rows, last = {}, ""
    for row in result.out.decode().split("\n")[1:-1]:
        last = row[2:13].strip() or last
        rows.setdefault(last, []).append(row[14:])
    return rows


FILL, STROKE = [0, 0], [0xaa000000, 0x40000000]


class Info(unittest.TestCase):
    """Row by row."""

    def test_the_triangle(self):
        rows = told(TRIANGLE)
        same(rows["form"], ["text, a word a line"])
        same(rows["size"], ["82 words: a head of 6 and a scene of 76"])
        same(rows["parts"], ["tags at 0, data at 64, transforms at 68, styles at 74"])
        same(rows["tags"], ["1 workgroup of 256; 6 up to the last that is not zero"])
        same(rows["segments"], ["3 lines, 0 quadratics, 0 cubics"])
        same(rows["points"], ["f32 in 0 segments, i16 in 3 segments"])
        same(rows["paths"], ["1; boxes: 1"])
        same(rows["filled"], ["1 subpath: 1 closed, 0 open"])
        same(rows["styles"], ["1", "1 × fill by the nonzero rule"])
        same(rows["transforms"], ["1", "1 × 1, 0, 0, 1, 0, 0"])
        same(rows["drawn"], ["3 lines, x from 0 to 3, y from 0 to 6"])

    def test_the_sample_packed(self):
        rows = told(packed(SOCKET_SHEET.read_text()))
        same(rows["form"], ["packed words"])
        same(rows["segments"], ["4 lines, 3 quadratics, 7 cubics"])
        same(rows["filled"], ["2 subpaths: 2 closed, 0 open"])
        same(rows["stroked"], ["1 subpath: 0 closed, 1 open"])
        same(rows["styles"], ["2", "1 × fill by the even-odd rule",
                              "1 × stroke of width 2, round joins, caps round and round"])
        same(rows["drawn"], ["112 lines, x from 20 to 247, y from 20 to 240"])

    def test_subpaths_open_and_closed(self):
        """An open fill, a closed one of a quadratic, a closed stroke, an open one, a fill without its end bit."""
        tags = [0x20, 0x40, 1, 5, 2, 5, 0x10, 0x40, 1, 1, 5, 0x10, 1, 6, 0x10, 0x40, 1, 0x10]
        data = [0, 1, 2, 0, 1, 2, 0, 0, 1, 0, 1, 0, 1, 0, 1, 0, 9]
        rows = told(sheet_of(tags, data, FILL + STROKE + FILL))
        same(rows["filled"], ["3 subpaths: 1 closed, 1 open, 1 without an end or with points missing"])
        same(rows["stroked"], ["2 subpaths: 1 closed, 1 open"])
        same(rows["styles"], ["3", "2 × fill by the nonzero rule",
                              "1 × stroke of width 2, round joins, caps round and round"])

    def test_f32_points_are_two_words(self):
        same(told(sheet_of([0x20, 0x40, 9, 13, 0x10], [7, 8, 1, 2, 7, 8], FILL))["filled"], ["1 subpath: 1 closed, 0 open"])
        same(told(sheet_of([0x20, 0x40, 9, 13, 0x10], [7, 8, 1, 2, 7, 9], FILL))["filled"], ["1 subpath: 0 closed, 1 open"])

    def test_styles_in_words(self):
        for flags, width, words in ((0x90004400, 0x3f000000, "stroke of width 0.5, miter joins up to 4, caps butt and butt"),
                                    (0x85000000, 0, "stroke of width 0, bevel joins, caps square and square"),
                                    (0xb9000000, 0x3f800000, "stroke of width 1, no kind of joins, caps round and square"),
                                    (0x40000000, 0, "fill by the even-odd rule")):
            holds(told(triangle(flags=f"{flags:08x}", width=f"{width:08x}"))["styles"], f"1 × {words}")

    def test_many_kinds_are_not_all_told(self):
        styles = [word for i in range(20) for word in (0x80000000, 0x3f800000 + i)]
        rows = told(sheet_of([0x40] * 20, [], styles))["styles"]
        same((rows[0], len(rows), rows[-1]), ("20", 14, "and 8 more kinds"))

    def test_what_is_damaged_is_told(self):
        rows = told(triangle(boxes=0))
        same(rows["drawn"], ["refused 4 at tag 5: a path tag names a box that is not there, behind 3 lines"])
        rows = told("\n".join(TRIANGLE.split("\n")[:75]))
        same(rows["styles"], ["1", "1 × missing: behind the sheet's end"])
        same(rows["transforms"], ["1", "1 × missing: behind the sheet's end"])
        same(rows["no style"], ["1 subpath: 0 closed, 0 open, 1 without an end or with points missing"])
        rows = told("\n".join([*TRIANGLE.split("\n")[:6], "01014020"]))
        holds(rows["tags"][0], "of which 252 lie past the sheet's end")
        holds(rows["parts"][0], "data at 64 (past the end)")
        same(told("00000000\n" * 6)["drawn"], ["0 lines"])

    def test_without_the_library_the_rest_is_told(self):
        result = hinth("info", TRIANGLE_SHEET, env={"HINTHEVOUN_LIBRARY": "/no/such.so"})
        same((result.status, result.said), (0, ""))
        holds(result.out.decode(), "3 lines, 0 quadratics, 0 cubics")
        holds(result.out.decode(), "not known: there is no library at /no/such.so: run tools/library")


if __name__ == "__main__":
    unittest.main()
