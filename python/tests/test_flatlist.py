"""hinth flatten beside flatlist: byte for byte the same answers, on the samples and on the oracle's random scenes."""
import contextlib
import io
import struct
import subprocess
import sys
import tempfile
import unittest
from pathlib import Path

from oracle_sheets import sheets
from support import PACKAGE, ROOT, SOCKET_LINES, SOCKET_SHEET, TRIANGLE_SHEET, hinth, holds, packed, same

sys.path.insert(0, str(PACKAGE))

from hinthevoun.cli import main  # noqa: E402

FEWEST = 300
ROOM = "1000"  # lines that flatlist has room for

RUN_ALL = """. tools/kit.sh
made target/bin/flatlist flatlist make_program flatlist
for sheet in "$1"/*.sheet; do
    start target/bin/flatlist <"$sheet" >"${sheet%.sheet}.flatlist" 2>"${sheet%.sheet}.said" || exit
done"""


def flatten(*arguments):
    """The command in this process, which is quicker: how it ended, and what it said."""
    with contextlib.redirect_stderr(io.StringIO()) as said:
        return main(["flatten", *map(str, arguments)]), said.getvalue()


def text_of(data):
    """A packed list as flatlist would write it, from its own words."""
    magic, form, number, _, low, high, lines, boxes = struct.unpack_from("<4s7I", data)
    assert (magic, form, data[32:48]) == (b"HLST", 1, bytes(16)), data[:48]
    words = struct.unpack(f"<{6 * lines}I", data[48:48 + 24 * lines])
    rows = [f"refused {number} at {low + (high << 32)}" if number else f"lines {lines}"]
    rows += [" ".join(f"{word:08x}" for word in words[i:i + 6]) for i in range(0, len(words), 6)]
    rows += ["box " + " ".join(map(str, box)) for box in struct.iter_unpack("<4i2I", data[48 + 24 * lines:])]
    assert len(rows) == 1 + lines + boxes
    return "".join(row + "\n" for row in rows).encode()


class Beside(unittest.TestCase):
    """Every answer of flatlist, and the command's."""

    @classmethod
    def setUpClass(cls):
        cls.held = tempfile.TemporaryDirectory()
        cls.folder = Path(cls.held.name)
        for number, sheet in enumerate([TRIANGLE_SHEET.read_text(), SOCKET_SHEET.read_text(), *sheets()]):
            (cls.folder / f"{number:03}.sheet").write_text(sheet)
        subprocess.run(["bash", "-c", RUN_ALL, "flatlist", cls.folder], cwd=ROOT, check=True)
        cls.answers = {place.with_suffix(".sheet"): place.read_bytes() for place in cls.folder.glob("*.flatlist")}

    @classmethod
    def tearDownClass(cls):
        cls.held.cleanup()

    def each(self, check, *options):
        """Each sheet with flatlist's answer and the command's, with these options."""
        out = self.folder / "out"
        for place, expected in sorted(self.answers.items()):
            status, said = flatten(*options, "--keep", place, "-o", out)
            holds(said, place.with_suffix(".said").read_text().strip())
            check(place.name, expected, status, out.read_bytes())

    def test_there_are_enough_and_of_every_kind(self):
        firsts = [answer.split(b" ")[0:2] for answer in self.answers.values()]
        assert len(firsts) >= FEWEST + 2, len(firsts)
        refusals = {int(first[1]) for first in firsts if first[0] == b"refused"}
        assert {1, 2, 4, 5, 6, 7, 8, 9} <= refusals, refusals
        assert sum(first[0] == b"lines" for first in firsts) > 100

    def test_with_flatlists_room_all_is_the_same(self):
        def check(name, expected, status, got):
            same((name, status, got), (name, int(expected.startswith(b"refused")), expected))
        self.each(check, "--room", ROOM)

    def test_with_all_room_only_refusal_6_goes_on(self):
        def check(name, expected, status, got):
            if not expected.startswith(b"refused 6"):
                same((name, status, got), (name, int(expected.startswith(b"refused")), expected))
                return
            behind = expected.index(b"\n") + 1
            lines = expected[behind:behind + 54 * int(ROOM)]
            assert not got.startswith(b"refused 6") and got[got.index(b"\n") + 1:].startswith(lines), name
        self.each(check)

    def test_packed_lists_have_the_same_words(self):
        def check(name, expected, _, got):
            same((name, text_of(got)), (name, expected))
        self.each(check, "--room", ROOM, "--binary")

    def test_packed_sheets_have_the_same_answer(self):
        place, out = self.folder / "packed", self.folder / "out"
        for sheet, expected in sorted(self.answers.items()):
            place.write_bytes(packed(sheet.read_text()))
            flatten("--room", ROOM, "--keep", place, "-o", out)
            same((sheet.name, out.read_bytes()), (sheet.name, expected))

    def test_the_sample_by_the_command_itself(self):
        result = hinth("flatten", SOCKET_SHEET)
        same((result.status, result.out, result.said), (0, SOCKET_LINES.read_bytes(), ""))
        result = hinth("flatten", "-", data=TRIANGLE_SHEET.read_bytes())
        same((result.status, result.out), (0, self.answers[self.folder / "000.sheet"]))


if __name__ == "__main__":
    unittest.main()
