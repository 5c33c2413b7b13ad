"""hinth flatten: sheets of any size, refusals, bad files of all kinds, and what is written where."""
import ctypes
import os
import random
import resource
import stat
import subprocess
import sys
import unittest

from support import EMPTY_BOX, PACKAGE, ROOT, SOCKET_LINES, SOCKET_SHEET, TRIANGLE_SHEET, hinth, holds, in_folder, packed, \
    same, triangle

TRIANGLE = TRIANGLE_SHEET.read_text()
ANSWER = b"""lines 3
00000000 00000002 00000000 00000000 40400000 00000000
00000000 00000003 40400000 00000000 00000000 40c00000
00000000 00000004 00000000 40c00000 00000000 00000000
box 0 0 3 6 0 0
"""


def many(triangles):
    """A sheet of so many triangles, a path each."""
    tags = bytearray([0x20, 0x40]) + bytes([1, 1, 5, 0x10]) * triangles
    workgroups = (len(tags) + 255) // 256
    tags += bytes(256 * workgroups - len(tags))
    words = [int.from_bytes(tags[i:i + 4], "little") for i in range(0, len(tags), 4)]
    data = len(words)
    words += [0, 3, 0x60000, 0] * triangles
    transform = len(words)
    words += [0x3f800000, 0, 0, 0x3f800000, 0, 0, 0, 0]
    head = [workgroups, 0, data, transform, transform + 6, triangles]
    return "".join(f"{word:08x}\n" for word in head + words)


def lists_of(triangles):
    """Its answer."""
    rows = [f"lines {3 * triangles}\n"]
    for path in range(triangles):
        rows += [f"{path:08x} {2 + 4 * path + line:08x}{row[17:]}\n"
                 for line, row in enumerate(ANSWER.decode().split("\n")[1:4])]
    return "".join(rows + ["box 0 0 3 6 0 0\n"] * triangles).encode()


def without_rights():
    """Takes from a process what lets root read and write everything."""
    libc = ctypes.CDLL(None)
    for right in (1, 2):  # CAP_DAC_OVERRIDE, CAP_DAC_READ_SEARCH
        libc.prctl(24, right, 0, 0, 0)  # PR_CAPBSET_DROP


class Sheets(unittest.TestCase):
    """Sheets that are sound."""

    def test_more_words_boxes_and_lines_than_flatlist_takes(self):
        result = hinth("flatten", "-", data=many(5000).encode())
        same((result.status, result.said), (0, ""))
        assert result.out == lists_of(5000)

    def test_the_size_of_what_is_read_at_once_is_not_seen(self):
        """Behind the head there are words of zeros, up to and around the end of a piece."""
        head = ["00000000"] * 6
        for words in ((1 << 16) - 7, (1 << 16) - 6, (1 << 16) - 5, (1 << 17) - 6):
            text = "\n".join(head + ["00000000"] * words)
            for data in (text, text + "\n"):
                result = hinth("flatten", "-", data=data.encode())
                same((words, result.status, result.out, result.said), (words, 0, b"lines 0\n", ""))
            result = hinth("flatten", "-", data=(text + "\n0000000G").encode())
            same((result.status, result.out), (2, b""))
            holds(result.said, f"standard input:{words + 7}: not a word")

    def test_the_last_lines_end_may_be_missing(self):
        same(hinth("flatten", "-", data=TRIANGLE.rstrip().encode()).out, ANSWER)

    def test_packed_there_and_back(self):
        result = hinth("flatten", "--binary", "-", data=packed(TRIANGLE))
        same((result.status, result.out[:4], len(result.out)), (0, b"HLST", 48 + 24 * 4))
        drawn = hinth("draw", "-", data=result.out)
        same((drawn.status, drawn.out), (0, hinth("draw", "-", data=ANSWER).out))

    def test_an_empty_scene(self):
        result = hinth("flatten", "-", data=b"00000000\n" * 6)
        same((result.status, result.out), (0, b"lines 0\n"))

    def test_boxes_that_no_path_names(self):
        result = hinth("flatten", "-", data=triangle(boxes=40).encode())
        same(result.out.decode().count(EMPTY_BOX), 39)

    def test_a_transform_that_is_not_there_is_an_unsigned_number(self):
        """A path tag without a transform before it names the one before the first, which is 2^32 - 1."""
        words = [1, 0, 0, 0, 66, 1, 0x00001040, *[0] * 63, *[0] * 4]
        result = hinth("flatten", "-", data="".join(f"{word:08x}\n" for word in words).encode())
        same((result.status, result.out.decode()), (0, f"lines 0\n{EMPTY_BOX[:-1]}4294967295\n"))

    def test_memory_is_taken_only_for_what_is_stored(self):
        """In 600 MB of addresses, of which the whole room that is tried first would be far more."""
        def little():
            resource.setrlimit(resource.RLIMIT_AS, (6 * 10**8, 6 * 10**8))
        result = hinth("flatten", "-", data=many(5000).encode(), preexec_fn=little)
        same((result.status, result.said), (0, ""))
        assert result.out == lists_of(5000)


class Refused(unittest.TestCase):
    """Each refusal that a sheet can get, in a sentence that says where and what to mend."""

    def check(self, sheet, first, *parts, options=()):
        result = hinth("flatten", *options, "-", data=sheet.encode())
        same((result.status, result.out.split(b"\n")[0].decode()), (1, first))
        same(result.said.count("\n"), 1)
        for part in ("hinth: standard input: ", *parts):
            holds(result.said, part)

    def test_each_number(self):
        self.check(TRIANGLE.replace("00000040", "0000004d", 1), "refused 1 at 0",
                   "refused 1 at tag 0: tag base or data base lies past the scene's end; the file was cut short")
        self.check(triangle(tags="01014000"), "refused 2 at 2", "refused 2 at tag 2 (line 7, second pair of digits): "
                   "a read falls outside the scene, or an address passes 2^32 - 1; a point, transform or style is missing")
        self.check(triangle(boxes=0), "refused 4 at 5", "refused 4 at tag 5 (line 8, third pair of digits): "
                   "a path tag names a box that is not there; raise the sheet's sixth word")
        self.check((ROOT / "samples/broken-marker.sheet").read_text(), "refused 5 at 3",
                   "refused 5 at tag 3 (line 7, first pair of digits): "
                   "the start of a line is not a number; a point is damaged, of a stroke perhaps the marker's")
        for name, number, why in (("transform", 9, "a transform has a NaN or an infinity among its six numbers; "
                                                   "the transform is damaged"),
                                  ("point", 5, "the end of a line is not a number; a point is damaged"),
                                  ("curve", 8, "the count of a curve's pieces is not a number; a point is damaged"),
                                  ("width", 8, "the count of a curve's pieces is not a number; a point is damaged")):
            self.check((ROOT / f"samples/broken-{name}.sheet").read_text(), f"refused {number} at 2",
                       f"refused {number} at tag 2 (line 7, second pair of digits): {why}")
        self.check(TRIANGLE, "refused 6 at 4", "more than the 2 lines that --room gives; give more",
                   options=["--room", "2"])
        self.check(triangle(flags="b0000000", width="3f800000"), "refused 7 at 2",
                   ": the join bits are 3 and a join is drawn; choose bevel, miter or round again")

    def test_a_tag_behind_the_sheets_end(self):
        words = [2, 0, 0, 0, 2, 0, *[0] * 64]
        self.check("".join(f"{word:08x}\n" for word in words), "refused 2 at 256", "(behind the sheet's end)")

    def test_the_place_in_a_packed_sheet(self):
        result = hinth("flatten", "-", data=packed(triangle(boxes=0)))
        holds(result.said, "refused 4 at tag 5 (byte 29): ")

    def test_too_little_memory_is_told_and_is_no_choice_of_the_command(self):
        code = ("import sys, hinthevoun.flattening as f, hinthevoun.cli as c; f.memory = lambda: 48; "
                "sys.exit(c.main(['flatten', '-']))")
        done = subprocess.run([sys.executable, "-c", code], input=TRIANGLE.encode(), capture_output=True, cwd=PACKAGE,
                              check=False)
        same(done.returncode, 1)
        holds(done.stderr.decode(), "refused 6 at tag 4 (line 8, last pair of digits): more than the 2 lines that this "
                                    "machine has memory for; part the drawing\n")


class Bad(unittest.TestCase):
    """Bad files: one sentence that names the file, the place and the cure, status 2, and nothing else."""

    def check(self, data, *parts):
        for command in ("flatten", "info"):
            result = hinth(command, "-", data=data)
            same((command, result.status, result.out, result.said.count("\n")), (command, 2, b"", 1))
            for part in ("hinth: standard input", *parts):
                holds(result.said, part)
            assert "Traceback" not in result.said

    def test_text(self):
        rows = TRIANGLE.split("\n")
        self.check(b"", ": empty", "export it again")
        self.check(b"\n", ":1: not a word of eight lowercase hex digits: ''; the line is empty: take it out")
        self.check(b"00000001\n" * 5, ":5: the sheet ends here, and six words stand before a scene; export it again")
        self.check(TRIANGLE.replace("\n", "\r\n").encode(), ":1: the line has Windows' end, CR LF; `tr -d '\\r'`")
        self.check(TRIANGLE.replace("\n", "\r").encode(), ":1: the lines end in CR alone; `tr '\\r' '\\n'`")
        self.check(TRIANGLE.replace("4a", "4A").encode(), ":5: not a word", "'0000004A'; `tr A-F a-f`")
        self.check(TRIANGLE[:-3].encode(), ":82: not a word", "'000000'; the file was cut short here: export it again")
        spaced = "\n".join([*rows[:8], rows[8] + " ", *rows[9:]])
        self.check(spaced.encode(), ":9: not a word", "'00000000 '; this is no sheet")
        self.check((TRIANGLE + "\n").encode(), ":83: not a word", "take it out")
        self.check(b"lines 3\n" + ANSWER, ":1: not a word", "'lines 3'")
        self.check(b"\xef\xbb\xbf" + TRIANGLE.encode(), ": not a sheet")
        self.check(b"%PDF-1.7\n\x80\x81\n", ":1: not a word", "'%PDF-1.7'")
        self.check(b"0" * 3_000_000, ":1: not a word", f"'{'0' * 60}'...")

    def test_words_that_are_not_in_text(self):
        self.check(packed(TRIANGLE)[:-1], ": not a sheet: it is not text, and its 327 bytes are not whole words of four")
        self.check(packed(TRIANGLE)[:20], ": the sheet ends here, and six words stand before a scene")
        garbage = bytes([200]) + bytes(random.Random(1).randrange(256) for _ in range(3999))
        self.check(garbage, ", word 6: asks for ", " boxes", "export it again")
        self.check(b"\x89PNG\r\n\x1a\n" + garbage[:1000], ", word 6: asks for ")

    def test_more_boxes_than_paths(self):
        self.check(triangle(boxes=0x131).encode(), ":6: asks for 305 boxes, and 76 words of a scene have at most 304 paths")
        same(hinth("flatten", "-", data=triangle(boxes=0x130).encode()).status, 0)

    @in_folder
    def test_files_that_cannot_be_read(self, folder):
        for argument, said in ((folder, f"{folder}: is a folder; name a file in it"),
                               (folder / "none", f"{folder}/none: No such file or directory; is the name right?"),
                               ("", ": No such file or directory; is the name right?"),
                               ("a" * 5000, "File name too long"), (folder / "none" / "x", "No such file")):
            for command in ("flatten", "info", "draw"):
                result = hinth(command, argument)
                same((result.status, result.out, result.said.count("\n")), (2, b"", 1))
                holds(result.said, said)

    @in_folder
    def test_no_permission(self, folder):
        place = folder / "closed.sheet"
        place.write_text(TRIANGLE)
        place.chmod(0)
        result = hinth("flatten", place, preexec_fn=without_rights)
        same((result.status, result.out), (2, b""))
        same(result.said, f"hinth: {place}: Permission denied; ask whoever owns it, or give the right with chmod\n")
        place.chmod(0o600)
        folder.chmod(0o500)
        result = hinth("flatten", place, "-o", folder / "new", preexec_fn=without_rights)
        same((result.status, result.said), (2, f"hinth: {folder}/new: not written: Permission denied; ask whoever owns it, "
                                               "or give the right with chmod\n"))
        folder.chmod(0o700)

    def test_a_name_that_is_not_text(self):
        result = hinth("flatten", b"\xff\n\x1b[31m".decode("utf-8", "surrogateescape"))
        same((result.status, result.said), (2, "hinth: ???[31m: No such file or directory; is the name right?\n"))


class Targets(unittest.TestCase):
    """Where the list goes: whole, or not at all."""

    def only(self, folder, *names):
        same(sorted(os.listdir(folder)), sorted(names))

    @in_folder
    def test_a_file(self, folder):
        result = hinth("flatten", SOCKET_SHEET, "-o", folder / "a.lines")
        same((result.status, result.out, result.said), (0, b"", ""))
        same((folder / "a.lines").read_bytes(), SOCKET_LINES.read_bytes())
        self.only(folder, "a.lines")

    @in_folder
    def test_a_refused_list_is_not_written_unless_it_is_asked_for(self, folder):
        (folder / "a.lines").write_text("before")
        refused = triangle(boxes=0).encode()
        result = hinth("flatten", "-", "-o", folder / "a.lines", data=refused)
        same((result.status, (folder / "a.lines").read_text()), (1, "before"))
        self.only(folder, "a.lines")
        result = hinth("flatten", "--keep", "-", "-o", folder / "a.lines", data=refused)
        same((result.status, (folder / "a.lines").read_bytes().split(b"\n")[0]), (1, b"refused 4 at 5"))
        same(hinth("flatten", "-", data=refused).out, (folder / "a.lines").read_bytes())
        self.only(folder, "a.lines")

    @in_folder
    def test_bad_input_leaves_the_file(self, folder):
        (folder / "a.lines").write_text("before")
        same(hinth("flatten", "-", "-o", folder / "a.lines", data=b"x").status, 2)
        same((folder / "a.lines").read_text(), "before")
        self.only(folder, "a.lines")

    @in_folder
    def test_a_disk_that_is_full_leaves_the_file(self, folder):
        def little():
            resource.setrlimit(resource.RLIMIT_FSIZE, (1000, 1000))
        (folder / "a.lines").write_text("before")
        result = hinth("flatten", SOCKET_SHEET, "-o", folder / "a.lines", preexec_fn=little)
        same((result.status, (folder / "a.lines").read_text()), (2, "before"))
        holds(result.said, f"hinth: {folder}/a.lines: not written: File too large")
        self.only(folder, "a.lines")

    @in_folder
    def test_the_rights_of_a_file_stay(self, folder):
        place = folder / "a.lines"
        place.write_text("before")
        place.chmod(0o640)
        hinth("flatten", SOCKET_SHEET, "-o", place)
        same(stat.S_IMODE(place.stat().st_mode), 0o640)
        hinth("flatten", SOCKET_SHEET, "-o", folder / "new", preexec_fn=lambda: os.umask(0o027))
        same(stat.S_IMODE((folder / "new").stat().st_mode), 0o640)

    @in_folder
    def test_a_link_stays_a_link(self, folder):
        (folder / "real").write_text("before")
        (folder / "link").symlink_to(folder / "real")
        same(hinth("flatten", SOCKET_SHEET, "-o", folder / "link").status, 0)
        assert (folder / "link").is_symlink()
        same((folder / "real").read_bytes(), SOCKET_LINES.read_bytes())

    @in_folder
    def test_a_list_does_not_take_its_sheets_place(self, folder):
        (folder / "a.sheet").write_text(TRIANGLE)
        result = hinth("flatten", folder / "a.sheet", "-o", folder / "a.sheet")
        same((result.status, (folder / "a.sheet").read_text()), (2, TRIANGLE))
        holds(result.said, "the list would take the place of its sheet; give -o another name")

    @in_folder
    def test_a_picture_does_not_take_its_lists_place(self, folder):
        (folder / "a.lines").write_bytes(ANSWER)
        for names in (["a.lines"], [SOCKET_LINES, "a.lines"]):
            result = hinth("draw", *(folder / name for name in names), "-o", folder / "a.lines")
            same((result.status, (folder / "a.lines").read_bytes()), (2, ANSWER))
            holds(result.said, "the picture would take the place of its list; give -o another name")

    def test_a_closed_standard_error_leaves_the_answer_alone(self):
        result = hinth("flatten", "-", data=triangle(boxes=0).encode(), preexec_fn=lambda: os.close(2))
        same((result.status, result.out.count(b"\n"), result.out[:15]), (1, 4, b"refused 4 at 5\n"))
        same(hinth("flatten", "none", preexec_fn=lambda: os.close(2)).out, b"")

    @in_folder
    def test_a_folder_and_a_device(self, folder):
        result = hinth("flatten", TRIANGLE_SHEET, "-o", folder)
        same((result.status, result.said), (2, f"hinth: {folder}: is a folder; name a file in it\n"))
        same(hinth("flatten", TRIANGLE_SHEET, "-o", "/dev/null").status, 0)
        same(hinth("flatten", TRIANGLE_SHEET, "-o", "-").out, ANSWER)
        result = hinth("flatten", TRIANGLE_SHEET, "-o", folder / "none" / "a")
        same(result.status, 2)
        holds(result.said, f"{folder}/none/a: not written: No such file or directory")

    def test_a_full_device(self):
        with open("/dev/full", "wb") as full:
            result = hinth("flatten", SOCKET_SHEET, stdout=full)
        same((result.status, result.said),
             (2, "hinth: standard output: not written whole: No space left on device; make room on the disk\n"))

    def test_a_pipe_that_closes_early(self):
        for arguments in (["flatten", "-"], ["flatten", "--binary", "-"], ["draw", "-"], ["info", "-"], ["--help"],
                          ["draw", "--help"]):
            reading, writing = os.pipe()
            os.close(reading)
            result = hinth(*arguments, data=many(20_000).encode() if "-" in arguments else b"", stdout=writing)
            os.close(writing)
            same((arguments, result.status), (arguments, 2))
            same(result.said.split("\n")[0],
                 "hinth: standard output: not written whole: Broken pipe; whoever read it has stopped")
            same(result.said.count("\n"), 1)

    def test_a_closed_standard_output(self):
        result = hinth("flatten", TRIANGLE_SHEET, preexec_fn=lambda: os.close(1))
        same((result.status, result.said), (2, "hinth: standard output: not written whole: Bad file descriptor\n"))


if __name__ == "__main__":
    unittest.main()
