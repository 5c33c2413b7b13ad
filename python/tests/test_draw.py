"""Draws lists and sheets, sound and damaged, with hinth draw, and looks at what it made."""
import math
import os
import random
import re
import resource
import struct
import tempfile
import unittest
import xml.etree.ElementTree as ET
from collections import Counter
from pathlib import Path

import browser
from support import EMPTY_BOX, ROOT, f32, hinth, holds, in_folder, listed, record, same

SVG = "{http://www.w3.org/2000/svg}"
INFINITY = math.inf


class Picture:
    """What one run of hinth draw said and drew."""

    def __init__(self, result):
        self.status, self.out, self.said = result.status, result.out, result.said
        self.picture = ET.fromstring(result.out) if result.out.startswith(b"<svg") else None

    def drawn(self, kind):
        return self.picture.find(f"{SVG}g[@id='drawing']").findall(f".//{SVG}{kind}")

    def groups(self):
        """The groups of lines."""
        return self.picture.find(f"{SVG}g[@id='drawing']").findall(f"{SVG}g[@class='lines']")

    def told(self):
        """Of each element of lines its title, its colour, its width, and how many lines it has."""
        return [(path.find(f"{SVG}title").text, group.get("stroke"), float(group.get("stroke-width")),
                 sum(len(places_in(chain)) - 1 for chain in path.get("d").split("M")[1:]))
                for group in self.groups() for path in group.findall(f"{SVG}path")]

    def words(self):
        """All that is written around the drawing."""
        return [text.text for text in self.picture.iter(f"{SVG}text")]

    def chains(self):
        ways = [path.get("d") for group in self.groups() for path in group.findall(f"{SVG}path")]
        return [places_in(chain) for way in ways for chain in way.split("M")[1:]]

    def lines(self):
        return [start + end for chain in self.chains() for start, end in zip(chain, chain[1:])]

    def marks(self, kind):
        """The paths of the groups of a class."""
        groups = self.picture.find(f"{SVG}g[@id='drawing']").findall(f"{SVG}g[@class='{kind}']")
        return [path.get("d") for group in groups for path in group.findall(f"{SVG}path")]

    def heads(self):
        """Of each arrow head its middle, and how far its tip lies ahead."""
        heads = [places_in(way.strip("Mz")) for way in self.marks("heads")]
        backs = [tuple((a + b) / 2 for a, b in zip(left, right)) for _, left, right in heads]
        return [(tuple((t + b) / 2 for t, b in zip(tip, back)), tuple(t - b for t, b in zip(tip, back)))
                for (tip, _, _), back in zip(heads, backs)]

    def scale_bar(self):
        """How long the bar is, and its label."""
        bar = self.picture.find(f"{SVG}g[@id='scale']")
        (x0, _), (x1, _) = places_in(bar.findall(f".//{SVG}path")[1].get("d").strip("M"))
        return x1 - x0, bar.find(f".//{SVG}text").text

    def rings(self):
        return sorted((float(ring.get("cx")), float(ring.get("cy"))) for ring in self.drawn("circle"))

    def titles(self):
        return sorted(ring.find(f"{SVG}title").text for ring in self.drawn("circle"))

    def notes(self):
        return [text.text for text in self.picture.iter(f"{SVG}text") if text.get("font-weight") == "bold"]


def places_in(way):
    numbers = list(map(float, way.split()))
    return list(zip(numbers[0::2], numbers[1::2]))


def run_draw(*arguments, **more):
    return Picture(hinth("draw", *arguments, **more))


def draw(*lists, options=()):
    """hinth draw on lists that are given as text."""
    with tempfile.TemporaryDirectory() as folder:
        names = [os.path.join(folder, name) for name in ("a.lines", "b.lines")][:len(lists)]
        for name, rows in zip(names, lists):
            Path(name).write_bytes(rows.encode("latin-1"))
        return run_draw(*options, *names)


A, B, C = (0, 0), (3, 0), (0, 6)
SIDES = [record(0, *A, *B, tag=2), record(0, *B, *C, tag=3), record(0, *C, *A, tag=4)]
CURVE = [record(0, *A, *B, tag=2), record(0, *B, *C, tag=2), record(0, *C, *A, tag=2)]  # the same, drawn by one tag
BOX = "box 0 0 3 6 0 0"
TRIANGLE = listed(SIDES, BOX)


class OneList(unittest.TestCase):
    """The triangle of the scope paper; the picture is 128 times as large."""

    def test_a_closed_triangle_has_no_ring(self):
        result = draw(TRIANGLE)
        same(result.status, 0)
        same(result.lines(), [(0, 0, 384, 0), (384, 0, 0, 768), (0, 768, 0, 0)])
        same(result.rings(), [])
        holds(result.said, "a.lines: path 0: 3 lines, 0 open points\n")

    def test_its_box_is_drawn_with_the_number_of_its_path(self):
        result = draw(TRIANGLE)
        same(result.marks("box"), ["M0 0 384 0 384 768 0 768z"])
        same([label.text for label in result.drawn("text")], ["path 0"])

    def test_a_removed_line_leaves_a_ring_at_both_its_ends(self):
        result = draw(listed(SIDES[:2], BOX))
        same(result.status, 0)
        same(result.rings(), [(0, 0), (0, 768)])
        same(result.titles(), ["path 0, (0, 0): 1 start, 0 ends", "path 0, (0, 6): 0 starts, 1 end"])
        holds(result.said, "path 0: 2 lines, 2 open points, each within about 6 of another\n")

    def test_a_doubled_line_has_a_ring_at_both_its_ends(self):
        result = draw(listed([*SIDES, SIDES[1]], BOX))
        same(result.titles(), ["path 0, (0, 6): 1 start, 2 ends", "path 0, (3, 0): 2 starts, 1 end"])
        same(result.rings(), [(0, 768), (384, 0)])

    def test_a_gap_of_one_bit_is_two_rings(self):
        near = struct.unpack("<f", struct.pack("<I", 0x40400001))[0]
        result = draw(listed([record(0, *A, near, 0), *SIDES[1:]], BOX))
        same(result.rings(), [(384, 0), (384, 0)])
        same(result.titles(), ["path 0, (3, 0): 1 start, 0 ends", "path 0, (3.00000024, 0): 0 starts, 1 end"])
        holds(result.said, "path 0: 3 lines, 2 open points, each within about 2.38e-07 of another\n")

    def test_zeros_of_both_signs_are_two_points(self):
        result = draw(listed([record(0, 0, 0, 3, 0), record(0, 3, 0, -0.0, 0)]))
        same(result.titles(), ["path 0, (-0, 0): 0 starts, 1 end", "path 0, (0, 0): 1 start, 0 ends"])

    def test_another_path_does_not_hide_a_gap(self):
        result = draw(listed([*SIDES[:2], record(1, *C, *A)], BOX, BOX))
        same(len(result.rings()), 4)
        holds(result.said, "path 0: 2 lines, 2 open points, each within about 6 of another\n")
        holds(result.said, "path 1: 1 line, 2 open points, each within about 6 of another\n")

    def test_six_colours_repeat(self):
        result = draw(listed([record(path, path, 0, path, 1) for path in range(7)]))
        colours = [group.get("stroke") for group in result.groups()]
        same((len(colours), len(set(colours)), colours[6]), (7, 6, colours[0]))

    def test_an_empty_box_has_no_rectangle_and_its_path_is_told(self):
        result = draw(listed(SIDES, BOX, EMPTY_BOX))
        same(len(result.marks("box")), 1)
        holds(result.said, "path 1: 0 lines, 0 open points\n")

    def test_a_flat_box_is_drawn(self):
        result = draw(listed([record(0, 5, 0, 5, 9)], "box 5 0 5 9 0 0"))
        same(result.marks("box"), ["M0 0 0 0 0 576 0 576z"])

    def test_a_list_without_a_line_is_a_picture_that_says_so(self):
        for rows in ("lines 0\n", f"lines 0\n{EMPTY_BOX}\n"):
            result = draw(rows)
            same((result.status, result.lines(), result.rings()), (0, [], []))
            holds(result.notes(), "the list has no lines")
            holds(result.said, "a.lines: the list has no lines\n")
        assert "no lines" not in draw(TRIANGLE).said
        both = draw(TRIANGLE, "lines 0\n")
        holds(both.notes(), "the list has no lines")
        holds(both.said, "b.lines: the list has no lines\n")

    def test_a_line_whose_ends_meet_is_drawn(self):
        result = draw(listed([record(0, 5, 5, 5, 5)]))
        same((result.lines(), result.rings()), ([(0, 0, 0, 0)], []))

    def test_every_coordinate_stands_where_it_must(self):
        """Less the corner's, and times one power of two, to a thousandth."""
        draws = random.Random(1)
        for exponent in (-140, -20, 0, 30, 120):
            places = [f32(math.ldexp(draws.uniform(-1, 1), exponent)) for _ in range(800)]
            result = draw(listed([record(0, *places[i:i + 4]) for i in range(0, 800, 4)]))
            corner = min(places[0::2]), min(places[1::2])
            longest = max(max(places[0::2]) - corner[0], max(places[1::2]) - corner[1])
            scale = 2.0 ** math.floor(math.log2(800 / longest))
            drawn = [x for line in result.lines() for x in line]
            same(len(drawn), 800)
            off = [abs(x - (place - corner[i % 2]) * scale) for i, (x, place) in enumerate(zip(drawn, places))]
            assert max(off) <= 0.000501, max(off)

    def test_far_from_the_origin_the_picture_is_the_same(self):
        """Its numbers stay small, so that no viewer cuts off what tells its points apart."""
        far = [tuple(16_000_000 + c for c in corner) for corner in (A, B, C)]
        sides = [record(0, *start, *end) for start, end in zip(far, far[1:] + far[:1])]
        result = draw(listed(sides, "box 16000000 16000000 16000003 16000006 0 0"))
        near = draw(TRIANGLE)
        same((result.lines(), result.marks("box")), (near.lines(), near.marks("box")))
        place = [g.get("transform") for g in (result.picture, near.picture) for g in g.findall(f"{SVG}g[@id='drawing']")]
        same(place, ["translate(30 80)"] * 2)


def rounds(count):
    """Closed outlines of 100 lines each, a tag a line."""
    records, boxes = [], []
    for path in range(count):
        x, y = 40 * (path % 50) + 20, 40 * (path // 50) + 20
        turns = [math.tau * i / 100 for i in range(100)]
        places = [(x + 15 * math.cos(turn), y + 15 * math.sin(turn)) for turn in turns]
        records += [record(path, *start, *end, tag=2 + 101 * path + number)
                    for number, (start, end) in enumerate(zip(places, places[1:] + places[:1]))]
        boxes.append(f"box {x - 15} {y - 15} {x + 15} {y + 15} 0 0")
    return listed(records, *boxes)


class Chains(unittest.TestCase):
    """How lines become chains."""

    def test_a_chain_is_one_path(self):
        result = draw(listed(CURVE))
        same([group.findall(f"{SVG}path")[0].get("d") for group in result.groups()], ["M0 0 384 0 0 768 0 0"])
        same([len(chain) for chain in draw(listed([*CURVE[:2], record(0, 1, 1, 2, 2, tag=2)])).chains()], [3, 2])

    def test_the_side_of_a_stroke_that_runs_backward_is_one_chain(self):
        same(draw(listed(CURVE[::-1])).chains(), [[(0, 0), (384, 0), (0, 768), (0, 0)]])

    def test_a_chain_ends_with_its_path_and_with_its_tag(self):
        same([len(chain) for chain in draw(listed([CURVE[0], record(1, *B, *C, tag=2)])).chains()], [2, 2])
        same(draw(TRIANGLE).chains(), [[(0, 0), (384, 0)], [(384, 0), (0, 768)], [(0, 768), (0, 0)]])

    def test_a_long_chain_is_cut_and_goes_on_where_it_was_cut(self):
        steps = [record(0, i, i % 2, i + 1, (i + 1) % 2) for i in range(2500)]
        chains = draw(listed(steps)).chains()
        same([len(chain) for chain in chains], [1001, 1001, 501])
        same([chain[-1] for chain in chains[:-1]], [chain[0] for chain in chains[1:]])

    def test_many_lines_take_little_room(self):
        """40 MB for 1,000,000 lines, measured on a fifth of them."""
        result = draw(rounds(2000))
        same((result.status, len(result.lines()), len(result.chains())), (0, 200_000, 2000))
        assert len(result.out) < 8_000_000, f"{len(result.out)} bytes"

    def test_of_many_paths_the_open_ones_are_told(self):
        rows = rounds(100).split("\n")
        del rows[1 + 7777]
        result = draw("\n".join(["lines 9999", *rows[1:]]))
        holds(result.said, "path 77: 99 lines, 2 open points, each within about 0.942 of another\n")
        holds(result.said, "a.lines: and 60 more paths: 6,000 lines, 0 open points\n")
        same((result.said.count("\n"), len(result.marks("box")), result.drawn("text")), (41, 100, []))
        same(len(draw(rounds(40)).drawn("text")), 40)

    def test_very_many_open_points_are_dots(self):
        apart = [record(0, i, 0, i, 1) for i in range(5001)]
        result = draw(listed(apart))
        same((result.rings(), "".join(result.marks("dots")).count("M")), ([], 10_002))
        same(len(draw(listed(apart[:5000])).rings()), 10_000)


class Tags(unittest.TestCase):
    """Which tag drew a line."""

    def test_every_line_tells_its_path_and_tag(self):
        same([(title, n) for title, _, _, n in draw(TRIANGLE).told()],
             [("path 0, tag 2", 1), ("path 0, tag 3", 1), ("path 0, tag 4", 1)])
        same([(title, n) for title, _, _, n in run_draw("samples/triangle.sheet").told()],
             [("path 0, tag 2", 1), ("path 0, tag 3", 1), ("path 0, tag 4", 1)])
        apart = [record(0, i, 0, i, 1, tag=2) for i in range(3)]
        same([(title, n) for title, _, _, n in draw(listed(apart)).told()], [("path 0, tag 2", 3)])

    def test_any_second_word_is_read(self):
        for tag in (1, 2**31, 2**32 - 2):
            same([title for title, *_ in draw(listed([record(5, *A, *B, tag=tag)])).told()], [f"path 5, tag {tag}"])

    def test_the_sample_tells_the_lines_of_each_of_its_segments(self):
        rows = [row.split()[:2] for row in (ROOT / "samples/socket.lines").read_text().split("\n")[1:113]]
        expected = Counter(f"path {int(path, 16)}, tag {int(tag, 16)}" for path, tag in rows)
        same(Counter(tag for _, tag in rows)["00000002"], 1)
        told = run_draw("samples/socket.sheet").told()
        same({title: n for title, _, _, n in told}, dict(expected))
        same(len(told), len(expected))

    def test_a_list_of_an_older_version_tells_no_tag(self):
        old = [record(0, *A, *B), record(0, *B, *C), record(0, *C, *A)]
        same([(title, n) for title, _, _, n in draw(listed(old, BOX)).told()], [("path 0, tag not told", 3)])
        for tag in ("0", "2"):
            words = f"tag {tag} drew no line; of 3 lines the list does not tell the tag: flatten the sheet again"
            result = draw(listed(old, BOX), options=["--tag", tag])
            holds(result.said, f"a.lines: {words}\n")
            holds(result.words(), words)

    def test_as_many_tags_as_can_be_opened_have_an_element_each(self):
        steps = [record(0, i % 200, i // 200, (i + 1) % 200, (i + 1) // 200, tag=2 + i) for i in range(20_001)]
        told = draw(listed(steps[:20_000])).told()
        same((len(told), told[-1][0], told[-1][3]), (20_000, "path 0, tag 20001", 1))
        told = draw(listed(steps)).told()
        same(sum(n for *_, n in told), 20_001)
        same([title for title, *_ in told][:2], ["path 0, tags 2 to 1001", "path 0, tags 1002 to 2001"])
        assert len(told) < 25, told

    def test_of_two_large_lists_neighbours_share_their_words(self):
        told = draw(rounds(150), rounds(150)).told()
        same(sum(n for *_, n in told), 30_000)
        same({title.split(", ")[0] for title, *_ in told}, {"first", "second"})
        holds([title for title, *_ in told], "first, paths 0 to 8, tags 2 to 909: in both")

    def test_a_tag_that_is_asked_for_is_strong_and_all_others_are_pale(self):
        plain = {title: (colour, width) for title, colour, width, _ in draw(TRIANGLE).told()}
        result = draw(TRIANGLE, options=["--tag", "3"])
        same(result.status, 0)
        told = {title: (colour, width) for title, colour, width, _ in result.told()}
        same(list(told), ["path 0, tag 2", "path 0, tag 4", "path 0, tag 3"])  # the strong one lies over the others
        same(told["path 0, tag 3"][0], plain["path 0, tag 3"][0])
        assert told["path 0, tag 3"][1] > 2 * plain["path 0, tag 3"][1], told
        for other in ("path 0, tag 2", "path 0, tag 4"):
            same(told[other][1], plain[other][1])
            assert lightness(told[other][0]) > lightness(plain[other][0]) + 60, told
        holds(result.said, "a.lines: tag 3 drew 1 line\n")
        holds(result.words(), "tag 3 drew 1 line")
        holds(result.words(), "pale: a line of another tag")
        assert "tag" not in " ".join(draw(TRIANGLE).words() + [draw(TRIANGLE).said])

    def test_all_lines_of_a_strokes_tag_are_strong(self):
        result = run_draw("--tag", "17", "samples/socket.sheet")
        strong = [(title, n) for title, _, width, n in result.told() if width > 2]
        rows = (ROOT / "samples/socket.lines").read_text().split("\n")
        same(strong, [("path 1, tag 17", sum(row[9:17] == "00000011" for row in rows))])
        holds(result.said, f"tag 17 drew {strong[0][1]} lines\n")

    def test_a_tag_that_drew_nothing_leaves_all_pale_and_is_told(self):
        for tag in ("0", "5", "4294967295"):
            result = draw(TRIANGLE, options=["--tag", tag])
            same((result.status, {width for _, _, width, _ in result.told()}, len(result.lines())), (0, {2.0}, 3))
            assert all(lightness(colour) > 100 for _, colour, _, _ in result.told()), result.told()
            holds(result.said, f"a.lines: tag {tag} drew no line\n")
            holds(result.words(), f"tag {tag} drew no line")

    def test_a_tag_of_two_lists_is_told_of_each(self):
        other = [record(0, *A, *B, tag=3), record(0, *B, 1, 1, tag=3), record(0, 1, 1, *A, tag=4)]
        result = draw(TRIANGLE, listed(other, BOX), options=["--tag", "3"])
        holds(result.said, "a.lines: tag 3 drew 1 line\n")
        holds(result.said, "b.lines: tag 3 drew 2 lines\n")
        for words in ("first, tag 3 drew 1 line", "second, tag 3 drew 2 lines"):
            holds(result.words(), words)
        told = result.told()
        strong = {(title, colour, width) for title, colour, width, _ in told[-3:]}
        same(strong, {("first, path 0, tag 3: only in the first", "#0072b2", 6.0),
                      ("second, path 0, tag 3: in both", "#b85c00", 3.0),
                      ("second, path 0, tag 3: only in the second", "#b85c00", 3.0)})
        same(len(told), 6)
        assert all(lightness(colour) > 120 for _, colour, _, _ in told[:3]), told

    def test_a_tag_of_a_large_list_is_found_among_those_that_share_their_words(self):
        told = draw(rounds(250), options=["--tag", "10203"]).told()
        same([(title, n) for title, _, width, n in told if width > 2], [("path 101, tag 10203", 1)])
        same(sum(n for *_, n in told), 25_000)

    def test_a_bad_tag_is_told_in_a_sentence(self):
        for tag in ("-1", "x", "1.5", "", "4294967296", "0x2", "1_0", "\u0663"):
            result = run_draw("--tag", tag, "samples/triangle.sheet")
            same((tag, result.status, result.out, result.said.count("\n")), (tag, 2, b"", 1))
            holds(result.said, "argument --tag: invalid tag number value: ")

    def test_arrows_do_not_grow_with_the_tags(self):
        same(draw(TRIANGLE, options=["--arrows"]).heads(), draw(listed(CURVE, BOX), options=["--arrows"]).heads())

    @unittest.skipUnless(browser.PROGRAM, "there is no Chromium, so no line was pointed at in a browser")
    @in_folder
    def test_a_browser_finds_the_tag_at_the_pointer(self, folder):
        """In the middle of each side, where an arrow stands too; the drawing lies 30 and 80 from the picture's corner."""
        same(run_draw("--arrows", "samples/triangle.sheet", "-o", folder / "a.svg").status, 0)
        title = "[[192, 0], [192, 384], [0, 384]].map(([x, y]) => document.elementFromPoint(x + 30, y + 80)" \
                ".querySelector('title').textContent)"
        with browser.Browser() as shown:
            shown.open(folder / "a.svg")
            same(shown.value(title), ["path 0, tag 2", "path 0, tag 3", "path 0, tag 4"])


def lightness(colour):
    """How light a colour is: 0 is black and 255 white."""
    return sum(int(colour[i:i + 2], 16) for i in (1, 3, 5)) / 3


def square(path, low, high, turned=False):
    """The four lines of a square."""
    corners = [(low, low), (high, low), (high, high), (low, high)]
    corners = corners[::-1] if turned else corners
    return [record(path, *start, *end) for start, end in zip(corners, corners[1:] + corners[:1])]


def turns(loops, place):
    """How often the loops run around a place: each crossing of the ray to its right counts by its way."""
    x, y = place
    count = 0
    for loop in loops:
        for (x0, y0), (x1, y1) in zip(loop, loop[1:] + loop[:1]):
            if (y0 <= y) != (y1 <= y) and x0 + (y - y0) / (y1 - y0) * (x1 - x0) > x:
                count += 1 if y1 > y0 else -1
    return count


def inked(rows, *places):
    """Whether each place is inked in the picture, by path: the rule that its element names, over its loops."""
    result = draw(rows, options=["--ink"])
    answers = []
    for group in result.picture.find(f"{SVG}g[@id='drawing']").findall(f"{SVG}g[@class='ink']"):
        path = group.find(f"{SVG}path")
        ways = path.get("d").split("M")[1:]
        assert all(way.endswith("z") for way in ways), ways
        counts = [turns([places_in(way[:-1]) for way in ways], place) for place in places]
        answers.append([bool(n % 2 if path.get("fill-rule") == "evenodd" else n) for n in counts])
    return answers


class Ink(unittest.TestCase):
    """What a fill inks. The squares' picture is 64 times as large, from their corner on."""

    middle, rim, outside = (5 * 64, 5 * 64), (1 * 64, 1 * 64), (-5, 5)

    def shades(self, inner_turned, flags):
        lines = square(0, 0, 10) + square(0, 3, 7, inner_turned)
        return inked(listed(lines, f"box 0 0 10 10 {flags} 0"), self.middle, self.rim, self.outside)

    def test_an_opening_is_open_or_solid_by_the_paths_rule(self):
        same(self.shades(False, 0), [[True, True, False]])
        same(self.shades(True, 0), [[False, True, False]])
        same(self.shades(False, 1), [[False, True, False]])
        same(self.shades(True, 1), [[False, True, False]])

    def test_only_the_lowest_flag_is_the_rule(self):
        same(self.shades(False, 2), [[True, True, False]])

    def test_each_path_has_its_own_rule(self):
        lines = [line for path in (0, 1) for line in square(path, 0, 10) + square(path, 3, 7)]
        boxes = ["box 0 0 10 10 1 0", "box 0 0 10 10 0 0"]
        same(inked(listed(lines, *boxes), self.middle), [[False], [True]])
        same(inked(listed(lines), self.middle), [[True], [True]])

    def test_the_order_of_the_lines_does_not_count(self):
        lines = square(0, 0, 10) + square(0, 3, 7)
        random.Random(2).shuffle(lines)
        same(inked(listed(lines, "box 0 0 10 10 1 0"), self.middle, self.rim), [[False, True]])

    def test_a_gap_of_a_last_bit_is_closed_where_it_is(self):
        """A square of four sides, each a bit away from the next, around another."""
        near = [record(0, 0.0, 1e-6, 10, 0), record(0, 10, 1e-6, 10, 10), record(0, 10 - 1e-5, 10, 0, 10),
                record(0, 1e-6, 10, 0, 0)]
        same(inked(listed(near, "box 0 0 10 10 0 0"), self.middle, self.rim, self.outside), [[True, True, False]])
        same(inked(listed(near + square(0, 3, 7, True), "box 0 0 10 10 0 0"), self.middle, self.rim), [[False, True]])

    def test_an_open_outline_is_shaded_as_if_it_were_closed(self):
        rows = listed(square(0, 0, 10)[:3], "box 0 0 10 10 0 0")
        same(inked(rows, self.middle, self.outside), [[True, False]])
        words = [text.text for text in draw(rows, options=["--ink"]).picture.iter(f"{SVG}text")]
        holds(words, "path 0: 3 lines, 2 open points, each within about 10 of another; "
                     "ink by the nonzero rule, as if it were closed")

    def test_without_the_option_nothing_is_shaded_and_a_line_to_infinity_has_no_ink(self):
        assert b"ink" not in draw(TRIANGLE).out
        result = draw(listed([*square(0, 0, 10), record(0, 0, 0, INFINITY, 0)], BOX), options=["--ink"])
        same((result.status, result.marks("ink")), (1, []))
        holds(" ".join(text.text for text in result.picture.iter(f"{SVG}text")),
              "; no ink is shown, since a coordinate is infinite")

    def test_two_lists_are_both_shaded(self):
        same(len(draw(TRIANGLE, TRIANGLE, options=["--ink"]).marks("ink")), 2)


class BarAndArrows(unittest.TestCase):
    """The scale bar and the arrows."""

    def test_the_scale_bar_is_as_long_as_it_says(self):
        same(draw(TRIANGLE).scale_bar(), (128, "1 unit"))
        same(draw(TRIANGLE, options=["--mm", "0.5"]).scale_bar(), (128, "0.5 mm"))
        same(draw(TRIANGLE, options=["--mm", "10"]).scale_bar(), (128, "10 mm"))
        same(draw(listed([record(0, 0, 0, 3000, 0)])).scale_bar(), (125, "500 units"))
        same(draw(listed([record(0, 0, 0, 0.003, 0)])).scale_bar()[1], "0.0005 units")
        same(draw("lines 0\n").picture.find(f"{SVG}g[@id='scale']"), None)

    def test_millimetres_are_told_of_the_whole(self):
        words = [text.text for text in draw(TRIANGLE, options=["--mm", "0.5"]).picture.iter(f"{SVG}text")]
        holds(words, "x from 0 rightward to 3: 1.5 mm")
        holds(words, "y from 0 downward to 6: 3 mm")

    def test_arrows_show_the_way_of_the_lines(self):
        same(draw(TRIANGLE).heads(), [])
        same(draw(listed([SIDES[0]]), options=["--arrows"]).heads(), [((384, 0), (11, 0))])
        there = draw(TRIANGLE, options=["--arrows"]).heads()
        back = [record(0, *end, *start) for start, end in ((C, A), (B, C), (A, B))]
        again = draw(listed(back, BOX), options=["--arrows"]).heads()
        same(len(there), 3)
        rounded = [sorted((round(x), round(y), round(sign * u, 2), round(sign * v, 2)) for (x, y), (u, v) in heads)
                   for heads, sign in ((there, 1), (again, -1))]
        same(*rounded)

    def test_arrows_stand_apart_and_on_every_chain(self):
        steps = [record(0, i, 0, i + 1, 0) for i in range(800)] + [record(1, 0, 5, 2, 5)]
        heads = draw(listed(steps), options=["--arrows"]).heads()
        places = sorted(x for (x, y), _ in heads if y == 0)
        same((len(places), len(heads)), (9, 10))
        assert all(90 <= b - a <= 91 for a, b in zip(places, places[1:])), places


class TwoLists(unittest.TestCase):
    """Two lists."""

    def test_a_moved_point_changes_two_lines(self):
        moved = [record(0, *A, 4, 0), record(0, 4, 0, *C), SIDES[2]]
        result = draw(TRIANGLE, listed(moved, "box 0 0 4 6 0 0"))
        same((result.status, len(result.lines()), result.rings()), (0, 6, []))
        holds(result.said, "hinth: 1 line in both, 2 only in the first, 2 only in the second\n")
        holds(result.said, "hinth: boxes differ at path 0\n")

    def test_lines_that_one_list_has_are_drawn_apart(self):
        told = draw(TRIANGLE, listed([*SIDES[:2], record(0, *C, 1, 1, tag=4)], BOX)).told()
        same([(title, n) for title, _, _, n in told],
             [("first, path 0, tag 2: in both", 1), ("first, path 0, tag 3: in both", 1),
              ("first, path 0, tag 4: only in the first", 1),
              ("second, path 0, tag 2: in both", 1), ("second, path 0, tag 3: in both", 1),
              ("second, path 0, tag 4: only in the second", 1)])
        same(len({(colour, width) for _, colour, width, _ in told}), 4)

    def test_tags_do_not_tell_two_lines_apart(self):
        """Lists of an older version have 0 there, and a segment that is put in before moves all tags behind it."""
        for tags in ((0, 0, 0), (7, 8, 9)):
            others = [" ".join([side[:8], f"{tag:08x}", side[18:]]) for tag, side in zip(tags, SIDES)]
            result = draw(TRIANGLE, listed(others, BOX))
            holds(result.said, "hinth: 3 lines in both, 0 only in the first, 0 only in the second\n")
            same([n for *_, n in result.told()], [1, 1, 1, *([1, 1, 1] if any(tags) else [3])])

    def test_order_does_not_count_but_direction_does(self):
        holds(draw(TRIANGLE, listed(SIDES[::-1], BOX)).said, "3 lines in both, 0 only in the first, 0 only in the second\n")
        turned = [record(0, *B, *A), *SIDES[1:]]
        holds(draw(TRIANGLE, listed(turned, BOX)).said, "2 lines in both, 1 only in the first, 1 only in the second\n")

    def test_a_line_is_matched_as_often_as_it_stands(self):
        result = draw(listed([SIDES[0]] * 3), listed([SIDES[0]] * 2))
        holds(result.said, "2 lines in both, 1 only in the first, 0 only in the second\n")
        holds(result.said, "the boxes are the same\n")

    def test_each_list_has_its_rings(self):
        result = draw(listed(SIDES[:2], BOX), listed(SIDES[1:], BOX))
        same(result.rings(), [(0, 0), (0, 0), (0, 768), (384, 0)])
        radii = {ring.get("r") for ring in result.drawn("circle")}
        same(len(radii), 2)


class Lacks(unittest.TestCase):
    """What a picture lacks."""

    def test_each_refusal_is_noted_in_the_words_of_the_paper(self):
        table = re.findall(r"^\| ([0-9]+) \| (.*) \|$", (ROOT / "docs/FLATLIST.md").read_text(), re.M)
        same(len(table), 9)
        for refusal, why in table:
            result = draw(f"refused {refusal} at 5\n" + "".join(side + "\n" for side in SIDES[:2]))
            note = f"refused {refusal} at tag 5: {why}; drawn up to there"
            same((result.status, len(result.lines()), len(result.rings())), (1, 2, 2))
            holds(result.notes(), note)
            holds(result.said, f"a.lines: {note}\n")

    def test_a_refused_second_list_is_noted(self):
        result = draw(TRIANGLE, f"refused 6 at 3\n{SIDES[0]}\n{BOX}\n")
        same(result.status, 1)
        holds(result.notes(), "refused 6 at tag 3: no room for the next line; drawn up to there")

    def test_infinite_coordinates_are_noted_and_the_rest_is_drawn(self):
        far = [SIDES[0], record(0, *B, INFINITY, 0), record(0, INFINITY, 0, *A), record(1, *A, *B)]
        result = draw(listed(far, "box 0 0 2147483647 0 0 0", "box 0 0 3 0 0 0"))
        note = "2 lines not drawn, nor the box of the path, since a coordinate is infinite; the first is record 2"
        same((result.status, len(result.lines()), len(result.marks("box"))), (1, 2, 1))
        holds(result.notes(), note)
        holds(result.said, f"a.lines: {note}\n")

    def test_an_open_point_at_infinity_is_counted(self):
        result = draw(listed([record(0, *A, *B), record(0, *B, 0, -INFINITY)]))
        same(result.rings(), [(0, 0)])
        holds(result.said, "path 0: 2 lines, 2 open points, 1 of them at infinity\n")

    def test_open_points_at_infinity_do_not_hide_how_near_the_others_are(self):
        result = draw(listed([*SIDES[:2], record(0, INFINITY, 0, 0, -INFINITY)]))
        holds(result.said, "4 open points, 2 of them at infinity, the others each within about 6 of another\n")


def refuses(rows, message):
    result = draw(rows)
    same((result.status, result.out), (2, b""))
    holds(result.said, message)
    same(result.said.count("\n"), 1)


class NotDrawn(unittest.TestCase):
    """What is not drawn."""

    def test_lists_that_are_not_in_the_form_are_not_drawn(self):
        refuses("", "a.lines:1: empty")
        refuses("bad input\n", "a.lines:1: flatlist's 'bad input'")
        refuses("hello\n", "a.lines:1: neither 'lines N', 'refused R at T' nor a sheet's first word: 'hello'")
        refuses("refused 0 at 1\n", "a.lines:1: neither")
        refuses("refused 99 at 1\n", "a.lines:1: neither")
        refuses("lines 3\r", "a.lines:1: neither 'lines N', 'refused R at T' nor a sheet's first word: 'lines 3?'")
        refuses(TRIANGLE.replace("lines 3", "lines 4"), "a.lines:1: promises 4 lines, and 3 follow")
        refuses(TRIANGLE.replace("lines 3", "lines 2"), "a.lines:1: promises 2 lines, and 3 follow")
        refuses(TRIANGLE + "\n", "a.lines:6: neither a record of six words nor, behind the records, a box: ''")
        refuses(TRIANGLE + TRIANGLE, "a.lines:6: neither")
        refuses(TRIANGLE + SIDES[0] + "\n", "a.lines:6: neither")

    def test_records_and_boxes_that_are_not_in_the_form_are_not_drawn(self):
        refuses(listed([SIDES[0], SIDES[1][:-1]]), "a.lines:3: neither a record of six words")
        refuses(listed([SIDES[1].upper().replace("0000", "ABCD")]), "a.lines:2: neither a record")
        refuses(listed([SIDES[1] + " "]), "a.lines:2: neither a record")
        refuses(listed([SIDES[1] + BOX]), "a.lines:2: neither a record")
        refuses(listed(["\xe9" * 53]), "a.lines:2: neither a record")
        refuses(listed([record(0, *A, math.nan, 0)]), "a.lines:2: a coordinate is not a number")
        refuses(listed(SIDES, "box 0 0 3 6 0"), "a.lines:5: neither")
        refuses(listed(SIDES, "box 3 0 0 6 0 0"), "a.lines:5: a box's corners are out of order")
        refuses(listed(SIDES, "box 0 0 3 2147483648 0 0"), "a.lines:5: a box's corner is past 32 bits")

    def test_sheets_that_are_not_in_the_form_are_not_drawn(self):
        rows = (ROOT / "samples/triangle.sheet").read_text().split("\n")
        short = [*rows[:8], rows[8][:-1], *rows[9:]]
        refuses("\n".join(short), "a.lines:9: not a word of eight lowercase hex digits: '0000000'")
        refuses("\n".join(rows + [""]), f"a.lines:{len(rows)}: not a word of eight lowercase hex digits: ''")
        refuses("\n".join(rows[:5]), "a.lines:5: the sheet ends here, and six words stand before a scene")
        refuses("\n".join([*rows[:5], "00001001", *rows[6:]]), "a.lines:6: asks for 4,097 boxes")

    def test_windows_line_ends_are_named(self):
        refuses(TRIANGLE.replace("\n", "\r\n"), "a.lines:1: the line has Windows' end, CR LF")
        refuses(listed([SIDES[0], SIDES[1] + "\r", SIDES[2]]), "a.lines:3: the line has Windows' end, CR LF")
        sheet = (ROOT / "samples/triangle.sheet").read_text()
        refuses(sheet.replace("\n", "\r\n"), "a.lines:1: the line has Windows' end, CR LF")

    def test_an_endless_input_ends_with_a_sentence(self):
        """Also where the machine has no more than 1 GiB."""
        def little():
            resource.setrlimit(resource.RLIMIT_AS, (2**30, 2**30))
        for name in ("/dev/zero", "-"):
            with open("/dev/zero", "rb") as endless:
                result = hinth("draw", name, stdin=endless, preexec_fn=little)
            same((result.status, result.out), (2, b""))
            holds(result.said, ": longer than 120,000,000 bytes, so it is not read to its end and not drawn\n")

    def test_a_sheet_without_the_library_is_not_drawn_and_a_list_is(self):
        none = {"HINTHEVOUN_LIBRARY": "/no/such/library.so"}
        result = run_draw("samples/triangle.sheet", env=none)
        same((result.status, result.out), (2, b""))
        holds(result.said, "hinth: there is no library at /no/such/library.so: run tools/library")
        same(run_draw("samples/socket.lines", env=none).status, 0)

    def test_a_bad_second_list_stops_the_picture(self):
        result = draw(TRIANGLE, "lines 1\n")
        same((result.status, result.out), (2, b""))
        holds(result.said, "b.lines:1: promises 1 line, and 0 follow")

    def test_a_missing_file_is_told(self):
        result = run_draw("no-such.lines")
        same((result.status, result.out), (2, b""))
        same(result.said, "hinth: no-such.lines: No such file or directory; is the name right?\n")

    def test_wrong_arguments_are_told_in_a_sentence(self):
        wrong_sizes = [["--mm", size, "a"] for size in ("0", "-1", "nan", "inf", "x")]
        for arguments in ([], ["a", "b", "c"], ["--mm"], ["--arrow", "a"], *wrong_sizes):
            result = run_draw(*arguments)
            same((result.status, result.out, result.said.count("\n")), (2, b"", 1))
            holds(result.said, "; `hinth draw --help` shows how it is used\n")
        result = run_draw("-", "-")
        same((result.status, result.out), (2, b""))
        holds(result.said, "both lists would come from standard input")

    def test_a_picture_that_is_not_written_whole_is_told(self):
        with open("/dev/full", "wb") as full:
            result = hinth("draw", "-", data=TRIANGLE.encode(), stdout=full)
        same(result.status, 2)
        holds(result.said, "hinth: standard output: not written whole: ")

    def test_a_name_with_signs_of_xml_is_only_a_name(self):
        with tempfile.TemporaryDirectory() as folder:
            name = os.path.join(folder, "<&>\"\n.lines")
            Path(name).write_text(TRIANGLE)
            result = run_draw(name)
        same(result.status, 0)
        holds(result.notes(), name.replace("\n", "?"))


class Samples(unittest.TestCase):
    """The samples."""

    def test_the_last_line_of_a_list_may_lack_its_end(self):
        same(run_draw("-", data=TRIANGLE[:-1].encode()).out, run_draw("-", data=TRIANGLE.encode()).out)

    def test_the_readmes_picture_is_what_is_drawn(self):
        result = run_draw("--mm", "0.5", "--arrows", "--ink", "samples/socket.lines")
        same((result.status, len(result.lines()), result.rings()), (0, 112, []))
        assert result.out == (ROOT / "docs/figures/socket.svg").read_bytes(), "docs/figures/socket.svg is another picture"

    def test_the_gap_of_a_bevel_join_is_ringed(self):
        result = run_draw("samples/bevel-gap.sheet")
        same((result.status, len(result.lines()), len(result.rings())), (0, 6, 2))
        same(result.titles(), ["path 0, (-0.99999994, 1): 0 starts, 1 end", "path 0, (-1, 0.99999994): 1 start, 0 ends"])
        wide = (ROOT / "samples/bevel-gap.sheet").read_text().replace("34000000", "40000000")
        same(run_draw("-", data=wide.encode()).rings(), [])

    def test_a_sheet_gives_the_picture_of_its_lines(self):
        socket = run_draw("-", data=(ROOT / "samples/socket.sheet").read_bytes())
        same(socket.status, 0)
        same(socket.out, run_draw("-", data=(ROOT / "samples/socket.lines").read_bytes()).out)
        triangle = run_draw("-", data=(ROOT / "samples/triangle.sheet").read_bytes())
        same(triangle.out, run_draw("-", data=TRIANGLE.encode()).out)

    def test_a_sheet_that_flatlist_refuses_is_noted(self):
        rows = (ROOT / "samples/triangle.sheet").read_text().split("\n")
        result = run_draw("-", data="\n".join([*rows[:5], "00000000", *rows[6:]]).encode())
        same((result.status, len(result.lines())), (1, 3))
        holds(result.notes(), "refused 4 at tag 5: a path tag names a box that is not there; drawn up to there")


if __name__ == "__main__":
    unittest.main()
