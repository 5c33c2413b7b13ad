"""hinth profile and the function profile: the profile for lay-up sheets."""
import sys
import unittest
from array import array

from support import PACKAGE, SOCKET_SHEET, TRIANGLE_SHEET, hinth, holds, packed, same, word

sys.path.insert(0, str(PACKAGE))

from hinthevoun import Layout, NotPassed, Passed, profile, scan  # noqa: E402

LAYOUT = Layout(1, 0, 64, 72, 78)
ONE = 0x3f800000


def scene_with(changes=None):
    """A triangle of three lines, tags 2 to 4, behind a transform and a style; some words are others."""
    words = [0x09094020, 0x0000100d, *[0] * 62, 0, 0, ONE, 0, ONE, ONE, 0, 0, ONE, 0, 0, ONE, 0, 0, 0, 0, 0x80000000, ONE]
    for at, value in (changes or {}).items():
        words[at] = value
    return array("I", words)


def tested(scene, prefixes=None):
    """What the library answers: what passed, or the number and the tag."""
    if prefixes is None:
        prefixes = array("I", [0]) * 256
        scan(scene, 0, prefixes)
    try:
        return profile(*LAYOUT, scene, prefixes)
    except NotPassed as why:
        return why.number, why.tag


def sheet_of(scene):
    """A sheet's text."""
    return "".join(f"{value:08x}\n" for value in (*LAYOUT, 1, *scene)).encode()


class Function(unittest.TestCase):
    """profile on Python's own lists."""

    def test_a_closed_outline_passes(self):
        same(tested(scene_with()), Passed(3, 1))
        same(tested(scene_with({73: 0x80000000})), Passed(3, 1))
        same(tested(scene_with({70: 0x80000000})), Passed(3, 1))

    def test_each_rule_by_itself(self):
        same(tested(scene_with({78: 0x80000000})), (70, 2))
        same(tested(scene_with({78: 0x40000000})), (71, 2))
        same(tested(scene_with({0: 0x09014020})), (72, 2))
        same([tested(scene_with({at: ONE})) for at in (73, 74)], [(73, 2), (73, 2)])
        same(tested(scene_with({73: 0x7fc00000})), (73, 2))
        same(tested(scene_with({71: ONE})), (74, 4))
        same(tested(scene_with({1: 0x00001009})), (74, 4))
        same(tested(scene_with({1: 0x0000140d})), (74, 5))

    def test_of_two_the_first_is_told(self):
        same(tested(scene_with({78: 0xc0000000, 73: ONE})), (70, 2))
        same(tested(scene_with({73: ONE, 71: ONE})), (73, 2))
        same(tested(scene_with({1: 0x04001009})), (74, 4))

    def test_reads_come_before_rules(self):
        same(tested(scene_with({73: ONE})[:64]), (2, 0))
        same(tested(scene_with()[:63]), (1, 0))
        same(tested(scene_with(), array("I", [0] * 4)), (3, 4))
        same(tested(scene_with({78: 0x80000000}), array("I", [0] * 4)), (3, 3))  # the neighbour of a stroke

    def test_what_a_refusal_says(self):
        holds(str(NotPassed(75, 4098)), "refused 75 at tag 4098: it is the 4,097th segment")
        holds(str(NotPassed(2, 1)), "a read falls outside the scene")


class Command(unittest.TestCase):
    """hinth profile."""

    def test_a_sheet_that_passes(self):
        for data in (sheet_of(scene_with()), packed(sheet_of(scene_with()).decode())):
            result = hinth("profile", "-", data=data)
            same((result.status, result.said), (0, ""))
            holds(result.out.decode(), "passes: 3 segments in 1 subpath")

    def test_one_sentence_with_rule_tag_path_and_points(self):
        result = hinth("profile", "-", data=sheet_of(scene_with({71: ONE})))
        same((result.status, result.said), (1, ""))
        same(result.out.decode().count("\n"), 1)
        for part in ("refused 74 at tag 4", "line 8, last pair of digits", "path 0, from (1, 1) to (0, 1)", "began"):
            holds(result.out.decode(), part)
        result = hinth("profile", "-", data=sheet_of(scene_with({1: 0x0000140d})))
        holds(result.out.decode(), "path 0, no segment")

    def test_samples(self):
        place = "at tag 2 (line 7, second pair of digits; path 0, from"
        for sheet, part in ((TRIANGLE_SHEET, f"refused 72 {place} (0, 0) to (3, 0))"),
                            (SOCKET_SHEET, f"refused 71 {place} (10, 20) to (10, 80))")):
            result = hinth("profile", sheet)
            same((result.status, result.said), (1, ""))
            holds(result.out.decode(), part)

    def test_the_tag_can_be_drawn(self):
        result = hinth("draw", "--tag", "4", "-", data=sheet_of(scene_with({71: ONE})))
        holds(result.said, "tag 4")

    def test_bad_input(self):
        same(hinth("profile", "-", data=word(1.0).encode()).status, 2)


if __name__ == "__main__":
    unittest.main()
