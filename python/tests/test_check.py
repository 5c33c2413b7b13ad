"""hinth check and the function check: whether a list of lines is sound."""
import math
import struct
import sys
import unittest
from array import array

from support import PACKAGE, SOCKET_LINES, SOCKET_SHEET, TRIANGLE_SHEET, hinth, holds, in_folder, listed, record, same

sys.path.insert(0, str(PACKAGE))

import hinthevoun  # noqa: E402
from hinthevoun import NotChecked, Verdict, check  # noqa: E402

SQUARE = [record(0, 0, 0, 1, 0), record(0, 1, 0, 1, 1), record(0, 1, 1, 0, 0)]


def words_of(rows):
    return array("I", [int(word, 16) for row in rows for word in row.split()])


def refusal_of(words):
    """The number of the refusal that a list gets."""
    try:
        check(words)
    except NotChecked as why:
        return why.number, str(why)
    raise AssertionError("it was not refused")


def said(rows, status, records_only=False):
    """The sentence about a list, without the name before it."""
    text = "".join(row + "\n" for row in rows) if records_only else listed(rows)
    result = hinth("check", "-", data=text.encode())
    same((result.status, result.said), (status, ""))
    return result.out.decode().split(": ", 1)[1].rstrip("\n")


class Function(unittest.TestCase):
    """check on Python's own lists."""

    def test_each_verdict(self):
        same(check([]), Verdict(0, 0))
        same(check(words_of(SQUARE)), Verdict(0, 0))
        same(check(words_of(SQUARE[:2])), Verdict(2, 0))
        same(check(words_of([*SQUARE, record(1, 0, 0, 1, 0)])), Verdict(2, 3))
        for bad in (math.inf, -math.inf, math.nan):
            same(check(words_of([*SQUARE[:2], record(1, 0, 0, bad, 0)])), Verdict(1, 2))

    def test_zeros_are_one_and_paths_are_apart(self):
        same(check(words_of([record(0, 0, -0.0, 1, 0), record(0, 1, -0.0, -0.0, 0)])), Verdict(0, 0))
        same(check(words_of([record(0, 0, 0, 1, 0), record(1, 1, 0, 0, 0)])), Verdict(2, 0))

    def test_the_list_is_only_read(self):
        words = words_of(SQUARE)
        for lent in (words, words.tobytes(), memoryview(words).toreadonly(), list(words)):
            same(check(lent), Verdict(0, 0))
        same(words, words_of(SQUARE))

    def test_the_refusals_in_their_order(self):
        bad = array("I", [0xffffffff]) * (6 * 2001 + 5)
        same(check(bad[:6 * 2000]), Verdict(1, 0))
        same(refusal_of(bad[:6 * 2000 + 5]), (51, "refused 51: the length is not a multiple of six"))
        same(refusal_of(bad[:6 * 2001]), (50, "refused 50: more than 2,000 records"))
        same(refusal_of(bad)[0], 50)
        same(refusal_of([1])[0], 51)

    def test_what_cannot_be_lent_is_told(self):
        for wrong, error in ((array("H", [1] * 6), TypeError), (b"123", ValueError), ([-1], OverflowError)):
            self.assertRaises(error, check, wrong)


class Sentences(unittest.TestCase):
    """What is wrong, in which record, at which point of which path."""

    def test_a_sound_list(self):
        same(said(SQUARE, 0), "sound: 3 records in 1 path")
        same(said([], 0), "sound: 0 records in 0 paths")
        same(said([*SQUARE, record(7, 1, 1, 1, 1)], 0), "sound: 4 records in 2 paths")

    def test_a_bad_number(self):
        same(said([*SQUARE[:2], record(5, 1, 2, math.inf, 3)], 1),
             "record 2, counted from 0 (line 4), has a bad number: its end (inf, 3) in path 5")
        same(said([record(5, -math.inf, 2, 1, math.nan)], 1, records_only=True),
             "record 0, counted from 0 (line 1), has a bad number: its start (-inf, 2) and its end (1, nan) in path 5")

    def test_a_point_out_of_balance(self):
        same(said([*SQUARE, record(3, 0.1, 0, 0.1, 0), record(3, 0.1, 0, 2, -0.0)], 1),
             "record 3, counted from 0 (line 5), is out of balance: its start (0.100000001, 0) in path 3 is a start 2 times "
             "and an end once, and its end (0.100000001, 0) in path 3 is a start 2 times and an end once")
        same(said([record(0, 0, 0, 0, 0), record(0, -0.0, 0, 1, 0), record(0, 5, 5, 0, -0.0)], 1, records_only=True),
             "record 1, counted from 0 (line 2), is out of balance: its end (1, 0) in path 0 is a start never and an end once")

    def test_a_run_over_two_paths_leaves_both_open(self):
        """Demand 3's run may cross from one path to the next; its lines then balance, but not those of each path."""
        sheet = TRIANGLE_SHEET.read_text().split("\n")
        sheet[5:8] = ["00000002", "11014020", "00001005"]  # two boxes; the second side ends path 0
        flattened = hinth("flatten", "-", data="\n".join(sheet).encode())
        same(flattened.status, 0)
        result = hinth("check", "-", data=flattened.out)
        same(result.status, 1)
        holds(result.out.decode(), "is out of balance")


class Forms(unittest.TestCase):
    """Text and packed, whole or records alone."""

    def test_what_flatlist_and_flatten_write(self):
        text = SOCKET_LINES.read_bytes()
        packed = hinth("flatten", "--binary", SOCKET_SHEET).out
        records = b"".join(row + b"\n" for row in text.split(b"\n")[1:-1] if not row.startswith(b"box"))
        alone = struct.pack("<672I", *(int(word, 16) for word in records.split()))
        for data in (text, packed, records, records[:-1], alone):
            result = hinth("check", "-", data=data)
            same((result.status, result.said), (0, ""))
            same(result.out, b"standard input: sound: 112 records in 2 paths\n")

    @in_folder
    def test_the_file_is_named_and_stays(self, folder):
        place = folder / "other.lines"
        place.write_text(listed(SQUARE[1:]))
        result = hinth("check", place)
        same((result.status, result.said), (1, ""))
        same(result.out.decode(), f"{place}: record 0, counted from 0 (line 2), is out of balance: its start (1, 0) in path 0 "
                                  "is a start once and an end never\n")
        same(place.read_text(), listed(SQUARE[1:]))

    def test_a_refused_list_is_not_whole(self):
        text = "refused 6 at 4\n" + "".join(row + "\n" for row in SQUARE)
        result = hinth("check", "-", data=text.encode())
        same((result.status, result.said), (1, ""))
        same(result.out.decode(), "standard input: sound: 3 records in 1 path; and the list is not whole: refused 6 at tag 4: "
                                  "no room for the next line\n")

    def test_what_is_not_looked_at(self):
        for data, why in ((bytes(24 * 2001), "refused 50: more than 2,000 records; nothing of it was looked at"),
                          (bytes(28), "refused 51: the length is not a multiple of six; nothing of it was looked at"),
                          (bytes(27), "its 27 bytes are not whole words of four"), (b"", "empty"),
                          (TRIANGLE_SHEET.read_bytes(), "a sheet and not a list"),
                          (b"lines 2\n" + SQUARE[0].encode() + b"\n", "promises 2 lines, and 1 follow"),
                          (SQUARE[0].encode() + b"\nbox\n", ":2: not a record"),
                          (SQUARE[0].upper().replace("3F", "3F ").encode(), "neither"),
                          (SQUARE[0].encode() + b"\r\n", "Windows' end")):
            result = hinth("check", "-", data=data)
            same((why, result.status, result.out), (why, 2, b""))
            holds(result.said, why)
            same(result.said.count("\n"), 1)

    def test_a_missing_file_and_a_wrong_word(self):
        for arguments in (["no such file"], [], ["a", "b"], ["--what", "a"]):
            result = hinth("check", *arguments)
            same((result.status, result.out), (2, b""))
            same(result.said.count("\n"), 1)

    def test_help(self):
        result = hinth("check", "--help")
        same((result.status, result.said), (0, ""))
        holds(result.out.decode(), "usage: hinth check LIST")
        assert hinthevoun.check.__doc__


if __name__ == "__main__":
    unittest.main()
