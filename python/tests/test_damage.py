"""Files damaged at random: every command ends with 0, 1 or 2 and at most a sentence, and never with a traceback."""
import contextlib
import io
import random
import sys
import unittest

from support import PACKAGE, SOCKET_LINES, SOCKET_SHEET, TRIANGLE_SHEET, hinth, in_folder, packed, same

sys.path.insert(0, str(PACKAGE))

from hinthevoun.cli import main  # noqa: E402

FILES = 400


def damaged(draws, data):
    """A file with one to three things done to it."""
    for _ in range(draws.randint(1, 3)):
        at, other = sorted(draws.randrange(len(data) + 1) for _ in range(2))
        change = draws.choice(["byte", "cut", "out", "twice", "put", "case"])
        if change == "byte" and data:
            at = min(at, len(data) - 1)
            data = data[:at] + bytes([draws.randrange(256)]) + data[at + 1:]
        elif change == "cut":
            data = data[:other]
        elif change == "out":
            data = data[:at] + data[other:]
        elif change == "twice":
            data = data[:other] + data[at:]
        elif change == "put":
            data = data[:at] + draws.choice([b"\n", b"\r\n", b" ", b"\0", b"box ", b"7fc00000\n", b"lines"]) + data[at:]
        else:
            data = data.swapcase()
    return data


class Damage(unittest.TestCase):
    """Each kind of file, each command."""

    @in_folder
    def test_no_damage_is_answered_with_a_traceback(self, folder):
        sheet = SOCKET_SHEET.read_bytes()
        binary = hinth("flatten", "--binary", SOCKET_SHEET).out
        whole = [sheet, packed(sheet.decode()), packed(TRIANGLE_SHEET.read_text()), SOCKET_LINES.read_bytes(), binary]
        draws, ended = random.Random(3), {0: 0, 1: 0, 2: 0}
        place, out = folder / "file", folder / "out"
        for number in range(FILES):
            place.write_bytes(damaged(draws, draws.choice(whole)))
            for arguments in (["flatten", "--room", "100000", place, "-o", out], ["draw", "--ink", place, "-o", out]):
                with contextlib.redirect_stderr(io.StringIO()) as said:
                    status = main([str(word) for word in arguments])
                ended[status] += 1
                if status == 2:
                    same((number, said.getvalue().count("\n"), said.getvalue()[:7]), (number, 1, "hinth: "))
        assert all(count > 20 for count in ended.values()), ended


if __name__ == "__main__":
    unittest.main()
