"""hinth compare: which drawings are a pair, what is said of each, in which order, and the page in a real browser."""
import re
import shutil
import unittest
from html.parser import HTMLParser

import browser
from support import SOCKET_LINES, SOCKET_SHEET, TRIANGLE_SHEET, hinth, holds, in_folder, listed, packed, record, same, \
    triangle

TRIANGLE = TRIANGLE_SHEET.read_text()
VOID = {"meta", "br", "img", "input", "link"}


class Cards(HTMLParser):
    """Reads a page: its cards with name, kind and sentences, and whether every element is closed in turn."""

    def __init__(self, page):
        super().__init__()
        self.cards, self.open, self.ids, self.links = [], [], [], []
        self.feed(page)
        assert not self.open, self.open

    def handle_starttag(self, tag, attributes):
        given = dict(attributes)
        self.ids += [given["id"]] if "id" in given else []
        self.links += [given[name] for name in ("href", "src", "data") if name in given]
        if "card" in (given.get("class") or "").split():
            self.cards.append({"name": "", "kind": "", "said": [], "pictures": 0})
        if tag == "svg":
            self.cards[-1]["pictures"] += 1
        if tag == "li":
            self.cards[-1]["said"].append("")
        if tag not in VOID:
            self.open.append((tag, given.get("class")))

    def handle_startendtag(self, tag, attributes):
        pass

    def handle_endtag(self, tag):
        same(self.open.pop()[0], tag)

    def handle_data(self, data):
        within = self.open[-1] if self.open else ("", None)
        if within[0] == "h2":
            self.cards[-1]["name"] += data
        elif within == ("div", "kind"):
            self.cards[-1]["kind"] += data
        elif within[0] == "li":
            self.cards[-1]["said"][-1] += data


def folders(folder):
    """Two folders with drawings of every kind."""
    old, new = folder / "old", folder / "new"
    old.mkdir()
    new.mkdir()
    lines = SOCKET_LINES.read_text().split("\n")
    gap = "\n".join(["lines 111", *lines[1:50], *lines[51:]])
    solid = "\n".join(lines).replace("247 240 1 0", "247 240 0 0")
    moved = TRIANGLE.replace("\n00060000\n", "\n00070000\n")
    for name, old_text, new_text in (
            ("equal.lines", SOCKET_LINES.read_text(), None), ("equal.sheet", None, SOCKET_SHEET.read_text()),
            ("moved.sheet", TRIANGLE, moved), ("gap.lines", SOCKET_LINES.read_text(), gap),
            ("open.lines", gap, gap), ("gone.sheet", TRIANGLE, None), ("solid.lines", "\n".join(lines), solid),
            ("wide.lines", "\n".join(lines), "\n".join(lines).replace("box 38", "box 37")), ("added.sheet", None, TRIANGLE),
            ("refused.sheet", TRIANGLE, triangle(boxes=0)), ("damaged.sheet", TRIANGLE, "hello\n"),
            ("notes.txt", "about these drawings\n", None), (".hidden", "x", "x")):
        for place, text in ((old, old_text), (new, new_text)):
            if text is not None:
                (place / name).write_text(text)
    (old / "folder").mkdir()
    return old, new


def compared(folder, *options):
    """The command on these folders, and the page."""
    result = hinth("compare", *options, *folders(folder), "-o", folder / "report.html")
    return result, (folder / "report.html").read_text()


class Page(unittest.TestCase):
    """What stands on the page."""

    @in_folder
    def test_the_worst_come_first(self, folder):
        result, page = compared(folder)
        cards = Cards(page).cards
        same([(card["name"], card["kind"]) for card in cards],
             [("damaged", "not read"), ("refused", "refused"), ("added", "only in one folder"),
              ("gone", "only in one folder"), ("solid", "ink differs"), ("moved", "lines differ"), ("gap", "lines differ"),
              ("wide", "boxes differ"), ("open", "open points"), ("equal", "the same")])
        same([card["pictures"] for card in cards], [1] * 10)
        same((result.status, result.out), (1, b""))
        same(result.said, "hinth: 10 drawings; not read: 1; refused: 1; only in one folder: 2; ink differs: 1; lines differ: 2; "
                          f"boxes differ: 1; open points: 1; the same: 1; left out: {folder}/old/notes.txt\n")

    @in_folder
    def test_what_is_said_of_each(self, folder):
        said = {card["name"]: card["said"] for card in Cards(compared(folder)[1]).cards}
        holds(said["damaged"][0], f"not read: {folder}/new/damaged.sheet:1: ")
        holds(said["refused"], "new: refused 4 at tag 5: a path tag names a box that is not there; drawn up to there")
        holds(said["added"], "only in the new folder: the old one has no such drawing")
        holds(said["gone"], "only in the old folder: the new one has no such drawing")
        holds(said["moved"], "1 line in both, 2 only in the old, 2 only in the new")
        holds(said["moved"], "boxes differ at path 0")
        holds(said["gap"], "111 lines in both, 1 only in the old, 0 only in the new")
        holds(said["gap"], "0 open points in the old, 2 in the new")
        holds(said["solid"], "path 0: ink by the even-odd rule in the old, by the nonzero rule in the new")
        holds(said["solid"], "112 lines in both, 0 only in the old, 0 only in the new")
        holds(said["wide"], "boxes differ at path 1")
        holds(said["open"], "2 open points in the old, 2 in the new")
        holds(said["equal"], "112 lines in both, 0 only in the old, 0 only in the new")

    @in_folder
    def test_it_asks_for_nothing_from_anywhere(self, folder):
        _, page = compared(folder)
        read = Cards(page)
        same((read.ids, read.links), ([], []))
        same(re.findall(r"""(?:https?:)?//[^\s"'<]+""", page.replace("http://www.w3.org/2000/svg", "")), [])
        same(re.findall(r"url\(|@import|fetch\(|XMLHttp|<link|<iframe", page), [])

    @in_folder
    def test_names_are_only_names(self, folder):
        old, new = folder / "<b>&'\"", folder / "new"
        for place in (old, new):
            place.mkdir()
        (new / "<script>x&amp;.sheet").write_text(TRIANGLE)
        hinth("compare", old, new, "-o", folder / "report.html")
        same([card["name"] for card in Cards((folder / "report.html").read_text()).cards], ["<script>x&amp;"])

    @in_folder
    def test_pairs_by_name_and_by_name_without_the_end(self, folder):
        old, new = folder / "old", folder / "new"
        for place, names in ((old, ("a.sheet", "b.sheet", "b.lines", "c")), (new, ("a.lines", "b.lines", "c.sheet"))):
            place.mkdir()
            for name in names:
                (place / name).write_text(TRIANGLE)
        hinth("compare", old, new, "-o", folder / "report.html")
        cards = Cards((folder / "report.html").read_text()).cards
        same([(card["name"], card["kind"]) for card in cards],
             [("b.sheet", "only in one folder"), ("a", "the same"), ("b.lines", "the same"), ("c", "the same")])

    @in_folder
    def test_text_and_packed_are_the_same_drawing(self, folder):
        old, new = folder / "old", folder / "new"
        for place in (old, new):
            place.mkdir()
        (old / "a.sheet").write_text(TRIANGLE)
        (new / "a.packed").write_bytes(packed(TRIANGLE))
        (old / "b.lines").write_bytes(SOCKET_LINES.read_bytes())
        hinth("flatten", "--binary", SOCKET_SHEET, "-o", new / "b.list")
        result = hinth("compare", old, new, "-o", "-")
        same((result.status, [card["kind"] for card in Cards(result.out.decode()).cards]), (0, ["the same"] * 2))

    @in_folder
    def test_a_list_that_tells_no_tags_is_the_same_drawing(self, folder):
        """As lists were before lines told their tags."""
        old, new = folder / "old", folder / "new"
        for place in (old, new):
            place.mkdir()
        untold = re.sub("^([0-9a-f]{8}) [0-9a-f]{8}", r"\1 00000000", SOCKET_LINES.read_text(), flags=re.M)
        (old / "a.lines").write_text(untold)
        (new / "a.sheet").write_text(SOCKET_SHEET.read_text())
        result = hinth("compare", old, new, "-o", "-")
        same((result.status, [card["kind"] for card in Cards(result.out.decode()).cards]), (0, ["the same"]))
        titles = re.findall("<title>((?:first|second)[^<]*)</title>", result.out.decode())
        same((len(titles), titles[:3]), (16, ["first, path 0, tag not told: in both", "first, path 1, tag not told: in both",
                                              "second, path 0, tag 2: in both"]))

    @in_folder
    def test_the_drawings_of_a_page_share_the_elements_that_it_may_have(self, folder):
        """One pair of 6,000 tags each can have them, and two cannot."""
        steps = listed([record(0, i, i % 7, i + 1, (i + 1) % 7, tag=2 + i) for i in range(6000)])
        told = []
        for name in ("a.lines", "b.lines"):
            (folder / name).write_text(steps)
            told.append(hinth("compare", folder, folder, "-o", "-").out.decode().count(": in both</title>"))
        same(told[0], 12_000)
        assert told[1] < 40, told

    @in_folder
    def test_folders_that_are_none(self, folder):
        (folder / "file").write_text("x")
        for old, said in ((folder / "none", "No such file or directory"), (folder / "file", "not a folder")):
            result = hinth("compare", old, folder, "-o", folder / "report.html")
            same((result.status, (folder / "report.html").exists(), result.said.count("\n")), (2, False, 1))
            holds(result.said, said)

    @in_folder
    def test_empty_folders_are_a_page(self, folder):
        (folder / "old").mkdir()
        result = hinth("compare", folder / "old", folder / "old", "-o", folder / "report.html")
        same((result.status, result.said), (0, "hinth: 0 drawings\n"))
        same(Cards((folder / "report.html").read_text()).cards, [])


@unittest.skipUnless(browser.PROGRAM, "there is no Chromium, so the page was not looked at in a browser")
class InABrowser(unittest.TestCase):
    """The page as a browser shows it."""

    @in_folder
    def test_a_click_shows_a_picture_large(self, folder):
        compared(folder, "--ink")
        sizes = ("[...document.querySelectorAll('.card')].map(c => { const b = c.querySelector('svg')"
                 ".getBoundingClientRect(); return Math.round(b.width) })")
        with browser.Browser() as shown:
            shown.open(folder / "report.html")
            small = shown.value(sizes)
            same(len(small), 10)
            assert all(100 < width < 600 for width in small), small
            words = "[...document.querySelectorAll('.words')].filter(g => g.getBoundingClientRect().width > 0).length"
            same(shown.value(words), 0)
            shown.click(".card:nth-child(6) .picture")
            large = shown.value(sizes)
            same([width > 1000 for width in large], [number == 5 for number in range(10)])
            same(shown.value(words), 1)
            same(shown.value("document.querySelector('.large h2').textContent"), "moved")
            same(shown.value("document.elementFromPoint(600, 20).closest('.card').querySelector('h2').textContent"), "moved")
            shown.press("Escape")
            same(shown.value(sizes), small)
            shown.click(".card:nth-child(6) .picture")
            shown.click(".card:nth-child(6) .picture")
            same(shown.value(sizes), small)
            same((shown.failures(), [url.split("/")[-1] for url in shown.requests()]), ([], ["report.html"]))

    @in_folder
    def test_an_opening_is_open_in_what_is_inked(self, folder):
        """The sample's opening, and the same with the nonzero rule."""
        shutil.copy(SOCKET_SHEET, folder / "a.sheet")
        (folder / "b.sheet").write_text(SOCKET_SHEET.read_text().replace("40000000\n00000000\naa", "00000000\n00000000\naa"))
        inked = ("[[150, 122], [40, 200]].map(([x, y]) => document.querySelector('.ink path')"
                 ".isPointInFill(new DOMPoint((x - 20) * 2, (y - 20) * 2)))")
        with browser.Browser() as shown:
            for name, expected in (("a", [False, True]), ("b", [True, True])):
                same(hinth("draw", "--ink", folder / f"{name}.sheet", "-o", folder / f"{name}.svg").status, 0)
                shown.open(folder / f"{name}.svg")
                same((name, shown.value(inked)), (name, expected))


if __name__ == "__main__":
    unittest.main()
