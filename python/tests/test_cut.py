"""hinth cut, the functions cut and read_cut, and drawing HP-GL files."""
import math
import sys
import unittest
from array import array

from support import PACKAGE, SOCKET_LINES, SOCKET_SHEET, hinth, holds, in_folder, listed, record, same

sys.path.insert(0, str(PACKAGE))

from hinthevoun import NotCut, Table, cut, read_cut  # noqa: E402

# A chain of two lines of path 7, with a record of another path between, and another chain.
ROWS = [record(7, 0.5, 1.5, 2.5, -0.5), record(8, math.nan, 0, 0, 0), record(7, 2.5, -0.5, 3, -4.5), record(7, 0, -0.0, 0.25, -40)]
FILE = b"IN;PU0,2;PD2,0;PD3,-4;PU0,0;PD0,-40;"


def words_of(rows):
    return array("I", [int(word, 16) for row in rows for word in row.split()])


def refusal_of(function, *arguments):
    """The number, what stands and the place of the refusal that a call gets."""
    try:
        function(*arguments)
    except NotCut as why:
        return why.number, why.stands, why.place
    raise AssertionError("it was not refused")


class Functions(unittest.TestCase):
    """cut and read_cut on Python's own lists."""

    def test_a_path_is_written_and_read_back(self):
        file, lines = bytearray(b"x" * 40), array("i", [9] * 14)
        same(cut(words_of(ROWS), 7, file), len(FILE))
        same(bytes(file), FILE + b"xxxx")
        same(read_cut(FILE, Table.OLD, lines), 3)
        same(lines.tolist(), [0, 2, 2, 0, 2, 0, 3, -4, 0, 0, 0, -40, 9, 9])

    def test_words_left_over_and_other_paths_do_not_matter(self):
        file = bytearray(40)
        same(cut([*words_of(ROWS), 7, 7, 7, 7, 7], 7, file), len(FILE))
        same(cut(words_of(ROWS), 6, file), 3)
        same(cut([], 7, file), 3)
        same(cut(words_of([record(7, 1, 1, 2, 2, tag=2**32 - 1)]), 7, memoryview(file)), 15)

    def test_the_writer_refuses(self):
        words = words_of(ROWS)
        same(refusal_of(cut, words, 8, bytearray(40)), (30, 3, 1))
        same(refusal_of(cut, words, 7, bytearray(len(FILE) - 1)), (31, 28, 3))
        same(refusal_of(cut, words, 7, bytearray(2)), (31, 0, 0))
        same(refusal_of(cut, words_of([record(0, 1, 1, 8388607.5, 0)]), 0, bytearray(40)), (30, 9, 0))
        same(str(NotCut(30, 9, 0)), "refused 30 at record 0: a coordinate is not a number or, rounded, outside -8388608 "
                                    "to 8388607; 9 bytes stand")

    def test_the_reader_refuses(self):
        room = array("i", bytes(16))
        for file, place in ((b"", 0), (b"IN", 2), (b"IN;PD", 4), (b"IN;PU-0", 6), (b"IN;PU01", 6), (b"IN;PU1,1;PU", 10),
                            (b"IN;PU1,1;", 9)):
            for table in Table:
                same(refusal_of(read_cut, file, table, room), (33, 0, place))
        same(refusal_of(read_cut, b"IN;PU1,1;PD2,2;PD3,3;?", Table.NEW, room), (34, 1, 15))
        same(room.tolist(), [1, 1, 2, 2])

    def test_each_table_has_its_ends(self):
        file, lines = bytearray(60), array("i", [9] * 8)
        stands = cut(words_of([record(0, 1, 1, 32767, -32767), record(0, 32767, -32767, -8388607.5, 8388607)]), 0, file)
        same(bytes(file[:stands]), b"IN;PU1,1;PD32767,-32767;PD-8388608,8388607;")
        same(refusal_of(read_cut, file[:stands], Table.OLD, lines), (32, 1, 26))
        same(lines.tolist(), [1, 1, 32767, -32767, 9, 9, 9, 9])
        same(read_cut(file[:stands], Table.NEW, lines), 2)
        same(lines.tolist(), [1, 1, 32767, -32767, 32767, -32767, -8388608, 8388607])
        same(refusal_of(read_cut, b"IN;PU32768x", Table.OLD, lines), (32, 0, 5))
        same(refusal_of(read_cut, b"IN;PU0,8388608x", Table.NEW, lines), (32, 0, 7))
        self.assertRaises(ValueError, read_cut, FILE, 2, lines)

    def test_what_cannot_be_lent_is_told(self):
        words = words_of(ROWS)
        for wrong in (-1, 2**32):
            self.assertRaises(ValueError, cut, words, wrong, bytearray(40))
        self.assertRaises(TypeError, cut, words, 7, b"only for reading")
        self.assertRaises(ValueError, cut, words, 7, memoryview(words).cast("B"))
        self.assertRaises(TypeError, read_cut, FILE, Table.NEW, array("d", [0]))
        same(read_cut(list(FILE), Table.NEW, array("i", bytes(48))), 3)


class Command(unittest.TestCase):
    """What hinth cut writes and says."""

    @in_folder
    def test_a_file_is_written(self, folder):
        for form in (listed(ROWS), "".join(row + "\n" for row in ROWS)):
            place = folder / "cut.hpgl"
            result = hinth("cut", "-", "--path", 7, "-o", place, data=form.encode())
            same((result.status, result.out, result.said), (0, b"", ""))
            same(place.read_bytes(), FILE)
        same(hinth("cut", "--path", "7", "-", data=words_of(ROWS).tobytes()).out, FILE)

    @in_folder
    def test_a_refusal_names_its_record_and_writes_nothing(self, folder):
        place = folder / "cut.hpgl"
        place.write_bytes(b"before")
        result = hinth("cut", "-", "--path", 0, "-o", place, data=listed([record(1, 0, 0, 9, 9), record(0, 0, 0, 1e9, 0)]).encode())
        same(result.status, 1)
        holds(result.said, "standard input: refused 30 at record 1, counted from 0 (line 3): a coordinate is no number or, "
                           "rounded, outside -8388608 to 8388607; scale or move the drawing; nothing is written")
        same(place.read_bytes(), b"before")

    @in_folder
    def test_the_old_table_refuses_what_the_new_one_takes(self, folder):
        place = folder / "cut.hpgl"
        rows = [record(1, 0, 0, 9, 9), record(0, 0, 0, 8, 8), record(1, 1e6, 0, 0, 0), record(0, 8, 8, 8, 32767.5),
                record(0, 1e6, 0, 0, 0)]
        result = hinth("cut", "-", "--path", 0, "--table", "old", "-o", place, data=listed(rows).encode())
        same((result.status, place.exists()), (1, False))
        holds(result.said, "standard input: refused 32 at record 3, counted from 0 (line 5): a coordinate is, rounded, outside "
                           "-32767 to 32767, what the old table takes; scale or move the drawing; nothing is written")
        same(hinth("cut", "-", "--path", 0, data=listed(rows).encode()).out, b"IN;PU0,0;PD8,8;PD8,32768;PU1000000,0;PD0,0;")
        same(hinth("cut", "--table", "old", "-", "--path", 0, data=listed(rows[:3]).encode()).out, b"IN;PU0,0;PD8,8;")
        same(hinth("cut", "--table", "older", "-", "--path", 0, data=b"").status, 2)

    def test_a_list_that_is_not_whole_is_not_cut(self):
        result = hinth("cut", "-", "--path", 0, data=b"refused 6 at 3\n")
        same((result.status, result.out), (1, b""))
        holds(result.said, "the list is not whole")

    def test_a_path_without_lines_is_told(self):
        result = hinth("cut", SOCKET_LINES, "--path", 77)
        same((result.status, result.out), (0, b"IN;"))
        holds(result.said, "path 77 has no lines, so the file cuts nothing")

    def test_bad_input(self):
        for arguments in (["cut", SOCKET_LINES], ["cut", SOCKET_LINES, "--path", "x"], ["cut", SOCKET_LINES, "--path", 2**32],
                          ["cut", SOCKET_SHEET, "--path", 0], ["cut", "nowhere", "--path", 0]):
            same(hinth(*arguments).status, 2)
        holds(hinth("cut", "--help").out.decode(), "usage: hinth cut LIST --path P")

    def test_the_sample_is_a_closed_cut(self):
        file = hinth("cut", SOCKET_LINES, "--path", 0).out
        lines = array("i", bytes(16 * file.count(b"PD")))
        count = read_cut(file, Table.OLD, lines)
        starts = sorted(zip(lines[0::4], lines[1::4]))
        same(starts, sorted(zip(lines[2::4], lines[3::4])))
        assert count > 50, count


class Drawing(unittest.TestCase):
    """hinth draw on HP-GL files."""

    @in_folder
    def test_a_cut_is_drawn_with_its_moves(self, folder):
        place = folder / "cut.hpgl"
        place.write_bytes(FILE)
        result = hinth("draw", place)
        same(result.status, 0)
        holds(result.said, "path 0: 3 lines")
        picture = result.out.decode()
        same(picture.count('class="moves"'), 1)
        holds(picture, "move with the pen up")

    @in_folder
    def test_one_chain_has_no_moves(self, folder):
        place = folder / "cut.hpgl"
        place.write_bytes(b"IN;PU0,0;PD5,0;PD5,5;PD0,0;")
        picture = hinth("draw", place).out.decode()
        assert "moves" not in picture and "pen up" not in picture

    @in_folder
    def test_a_cut_lies_over_its_drawing(self, folder):
        place, rows = folder / "cut.hpgl", [record(0, 0, 0, 8, 0), record(0, 8, 0, 8, 6.5), record(0, 8, 6.5, 0, 0)]
        source = folder / "a.lines"
        source.write_text(listed(rows))
        same(hinth("cut", source, "--path", 0, "-o", place).status, 0)
        same(place.read_bytes(), b"IN;PU0,0;PD8,0;PD8,6;PD0,0;")
        result = hinth("draw", source, place, "-o", folder / "both.svg")
        same(result.status, 0)
        holds(result.said, "1 line in both, 2 only in the first, 2 only in the second")

    def test_the_tables_that_take_a_file_are_told(self):
        result = hinth("draw", "-", data=b"IN;PU0,0;PD32767,0;")
        holds(result.said, "standard input: fits both tables\n")
        assert b'class="outside"' not in result.out
        result = hinth("draw", "-", data=b"IN;PU0,0;PD32768,0;PD0,0;PD0,5;")
        same(result.status, 0)
        holds(result.said, "standard input: fits the new table only: 2 lines outside -32767 to 32767")
        same(result.out.count(b'class="outside"'), 1)
        holds(result.out.decode(), "line that the old table does not take")

    def test_a_damaged_file_is_told_by_its_byte(self):
        result = hinth("draw", "-", data=FILE[:-1])
        same((result.status, result.out), (2, b""))
        holds(result.said, f"standard input: refused 33 at byte {len(FILE) - 1}: ")
        same(hinth("draw", "-", data=b"IN").status, 2)
