"""hinth mend and the functions mend and report_of; and how hinth draw shows what was appended."""
import struct
import sys
import unittest
from array import array

from support import PACKAGE, SOCKET_LINES, hinth, holds, in_folder, listed, record, same, word

sys.path.insert(0, str(PACKAGE))

from hinthevoun import Mended, NotMendable, PathCase, check, mend, report_of  # noqa: E402

TAG = 0xffffffff
MARK = 0xa5a5a5a5
# A triangle of path 4 that lacks its last side, from (1, 1) to (0, 0), and a loop of path 2 between.
GAP = [record(4, -0.0, 0, 1, 0, tag=7), record(2, 0, 0, 1, 0), record(2, 1, 0, 0, 0), record(4, 1, 0, 1, 1, tag=8)]
LINE = record(4, 1, 1, 0, 0, tag=TAG)
ONE = int(word(1), 16)


def words_of(rows):
    return array("I", [int(digits, 16) for row in rows for digits in row.split()])


def marked(words):
    return array("I", [MARK]) * words


def refusal_of(words, within, room, report):
    """The refusal that a list gets; nothing is written."""
    before = room[:], report[:]
    try:
        mend(words, within, room, report)
    except NotMendable as why:
        same((room, report), before)
        return why.number, why.first, why.second
    raise AssertionError("it was not refused")


class Function(unittest.TestCase):
    """mend on Python's own lists."""

    def test_a_gap_is_closed_and_all_is_reported(self):
        words, room, report = words_of(GAP), marked(7), marked(13)
        same(mend(words, 1, room, report), Mended(2, 1))
        same((words, list(room)), (words_of(GAP), [*words_of([LINE]), MARK]))
        same(list(report), [4, 1, ONE, ONE, 0, 0, 2, 0, 0, 0, 0, 0, MARK])
        same(report_of(report[:12]), [PathCase(4, 1, (ONE, ONE, 0, 0)), PathCase(2, 0, (0, 0, 0, 0))])
        whole = words + room[:6]
        same(check(whole).kind, 0)
        same(mend(whole, 1, array("I"), report), Mended(2, 0))

    def test_the_room_may_stand_behind_the_list(self):
        both = memoryview(words_of([*GAP, GAP[0]]))
        same(mend(both[:24], 1, both[24:], marked(12)), Mended(2, 1))
        same(list(both), list(words_of([*GAP, LINE])))
        self.assertRaises(ValueError, mend, both[:24], 1, both[18:], marked(12))

    def test_a_wide_gap_and_a_doubly_broken_path_are_left(self):
        for rows, within in ((GAP, 0), ([GAP[0], GAP[0]], 9), ([GAP[0], record(4, 5, 5, 6, 6)], 9)):
            report = marked(12)
            same(mend(words_of(rows), within, array("I"), report).lines, 0)
            same(list(report[:6]), [4, 2, 0, 0, 0, 0])

    def test_the_tolerance_is_exact(self):
        for x0, x1, within, lines in ((2**24, 0.5, 2**24, 1), (2**24, -0.5, 2**24, 0), (2**24, -0.5, 2**24 + 1, 1),
                                      (0, 1e-45, 0, 0), (0, 1e-45, 1, 1), (3e38, -3e38, 2**32 - 1, 0)):
            words = words_of([record(0, x0, 0, x1, 0)])
            same((x0, x1, within, mend(words, within, marked(6), marked(6)).lines), (x0, x1, within, lines))

    def test_the_refusals_in_their_order(self):
        bad = array("I", [TAG]) * (6 * 2001 + 5)
        same(refusal_of(bad, 1, marked(0), marked(0)), (50, 0, 0))
        same(refusal_of(bad[:6 * 2000 + 5], 1, marked(0), marked(0)), (51, 0, 0))
        same(refusal_of(words_of(GAP) + bad[:6], 1, marked(0), marked(0)), (52, 4, 0))
        same(refusal_of(words_of(GAP), 1, marked(5), marked(12)), (53, 2, 1))
        same(refusal_of(words_of(GAP), 1, marked(6), marked(11)), (53, 2, 1))
        full = words_of([record(1, 0, 0, 0, 0)] * 1996 + GAP)
        same(refusal_of(full, 1, marked(6), marked(18)), (53, 3, 1))
        same(mend(full[6:], 1, marked(6), marked(18)), Mended(3, 1))
        same(str(NotMendable(52, 4)), "refused 52: a coordinate is a NaN or an infinity in record 4, counted from 0")

    def test_a_tolerance_that_is_no_word_is_told(self):
        for within in (-1, 2**32):
            self.assertRaises(ValueError, mend, [], within, marked(0), marked(0))


class Command(unittest.TestCase):
    """hinth mend."""

    said = ("hinth: standard input: path 4: mended with a line from (1, 1) to (0, 0)\n"
            "hinth: standard input: path 2: sound\n")

    def test_text_comes_out_as_text(self):
        box = "box 0 0 1 1 0 0"
        result = hinth("mend", "-", "--within", "1", data=listed(GAP, box).encode())
        same((result.status, result.said), (0, self.said))
        same(result.out.decode(), listed([*GAP, LINE], box))
        again = hinth("mend", "--within", "1", "-", data=result.out)
        same((again.status, again.out), (0, result.out))

    def test_records_alone_and_packed_words(self):
        rows = "".join(row + "\n" for row in GAP).encode()
        same(hinth("mend", "-", "--within", "1", data=rows).out, rows + LINE.encode() + b"\n")
        packed = struct.pack("<24I", *words_of(GAP))
        same(hinth("mend", "-", "--within", "1", data=packed).out, packed + struct.pack("<6I", *words_of([LINE])))

    @in_folder
    def test_a_packed_list_in_a_file(self, folder):
        place, mended = folder / "old.list", folder / "new.list"
        head = struct.pack("<4s11I", b"HLST", 1, 0, 0, 0, 0, 4, 1, 0, 0, 0, 0)
        box = struct.pack("<4i2I", 0, 0, 1, 1, 0, 0)
        place.write_bytes(head + struct.pack("<24I", *words_of(GAP)) + box)
        result = hinth("mend", place, "--within", "1", "-o", mended)
        same((result.status, result.out), (0, b""))
        data = mended.read_bytes()
        same(data, head[:24] + struct.pack("<I", 5) + head[28:] + struct.pack("<30I", *words_of([*GAP, LINE])) + box)
        same(hinth("mend", place, "--within", "1", "-o", place).status, 2)

    def test_a_path_that_is_left_is_status_1(self):
        result = hinth("mend", "-", "--within", "0", data=listed(GAP).encode())
        same((result.status, result.out.decode()), (1, listed(GAP)))
        holds(result.said, "path 4: not mended")

    def test_a_sound_list_stays_as_it_is(self):
        text = SOCKET_LINES.read_bytes()
        result = hinth("mend", "-", "--within", "4294967295", data=text)
        same((result.status, result.out), (0, text))

    def test_what_is_not_mended_is_one_sentence(self):
        bad = listed([*GAP, record(1, 0, 0, float("inf"), 0)]).encode()
        for data, within, why in ((bad, "1", "refused 52: a coordinate is a NaN or an infinity in record 4, counted from 0"),
                                  (bytes(24 * 2001), "1", "refused 50"), (bytes(28), "1", "refused 51"),
                                  (b"refused 6 at 4\n", "1", "the list is not whole"), (bad, "-1", "within"),
                                  (bad, "1.5", "within"), (bad, "4294967296", "within")):
            result = hinth("mend", "-", "--within", within, data=data)
            same((why, result.status, result.out), (why, 2, b""))
            holds(result.said, why)
            same(result.said.count("\n"), 1)
        same(hinth("mend", "-", data=bad).status, 2)

    def test_help(self):
        result = hinth("mend", "--help")
        same((result.status, result.said), (0, ""))
        holds(result.out.decode(), "--within N")


class Drawing(unittest.TestCase):
    """hinth draw on a mended list."""

    def test_an_appended_line_has_its_own_colour_and_a_legend(self):
        picture = hinth("draw", "-", data=listed([*GAP, LINE]).encode())
        same(picture.status, 0)
        text = picture.out.decode()
        holds(text, "path 4, appended when the list was mended")
        holds(text, "1 line appended when the list was mended")
        same(text.count("#8a2be2"), 2)  # the line, and its mark in the legend
        holds(picture.said, "1 line appended when the list was mended")

    def test_other_lists_have_none(self):
        picture = hinth("draw", "-", data=listed(GAP).encode())
        assert "#8a2be2" not in picture.out.decode() and "appended" not in picture.said

    @in_folder
    def test_of_two_lists_each_tells_its_own(self, folder):
        old, new = folder / "old.lines", folder / "new.lines"
        old.write_text(listed(GAP))
        new.write_text(listed([*GAP, LINE]))
        picture = hinth("draw", old, new)
        same(picture.status, 0)
        holds(picture.out.decode(), "second, 1 line appended when the list was mended")


if __name__ == "__main__":
    unittest.main()
