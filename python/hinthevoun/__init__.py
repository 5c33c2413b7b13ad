"""Hinthevoun: from the encoded paths of a scene to lines and boxes, by the proved library.

The functions are those of include/hinthevoun.h, one for one:

    scan, flatten                                   from tags, points, transforms and styles to lines and boxes
    profile                                         whether a scene keeps to the profile for lay-up sheets
    check                                           whether a list of lines is sound
    to_f32, to_i16                                  tags and points of an old sheet moved to f32 points, and back
    cut, read_cut                                   a path's lines as HP-GL, and such a file back as lines
    cut_text                                        the whole way: path data of an SVG as HP-GL, in one call
    mend                                            the lines that a list lacks, and a report
    sqrt, hypot, cbrt, two_thirds, half,
    sin, cos, atan2, asin, acos                     the mathematics, each answer an f32
    move, line, quad, cubic, end                    drawing fills: from commands to tags and points, with a Pen
    import_path                                     the path data of an SVG as such commands: hinth_import there

Sheet draws a whole sheet with these: docs/DRAWING.md.

A list is an array, bytes, a memoryview or any other buffer of 32-bit words; it is lent as it is, without a copy. A
refusal is the exception Refusal. The triangle of docs/FLATLIST.md:

    from array import array
    import hinthevoun
    words = array("I", [int(row, 16) for row in open("samples/triangle.sheet")])
    layout, scene = hinthevoun.Layout(*words[:5]), words[6:]
    prefixes, boxes, lines = array("I", bytes(16 * 64)), hinthevoun.empty_boxes(words[5]), array("I", bytes(24 * 10))
    hinthevoun.scan(scene, layout.tag_base, prefixes)
    hinthevoun.flatten(*layout, scene, prefixes, boxes, lines)    # 3, and three lines of six words in `lines`
"""
from .calls import EMPTY_BOX, Layout, empty_boxes, flatten, scan
from .checking import NotChecked, Verdict, check
from .cutting import NotCut, Table, cut, read_cut
from .drawing import Sheet
from .errors import NoLibrary, Wrong
from .importing import NotImported, import_path
from .maths import acos, asin, atan2, cbrt, cos, half, hypot, sin, sqrt, two_thirds
from .mending import Mended, NotMendable, PathCase, mend, report_of
from .moving import Moved, NotMoved, to_f32, to_i16
from .pattern import NotDrawn, Pen, cubic, end, line, move, quad
from .profiling import NotPassed, Passed, profile
from .refusals import Refusal
from .whole import NotCutText, Stage, cut_text

__version__ = "0.1.0"
__all__ = ["EMPTY_BOX", "Layout", "Mended", "Moved", "NoLibrary", "NotChecked", "NotCut", "NotCutText", "NotDrawn",
           "NotImported", "NotMendable", "NotMoved", "NotPassed", "Passed", "PathCase", "Pen", "Refusal", "Sheet", "Stage",
           "Table", "Verdict", "Wrong", "acos", "asin", "atan2", "cbrt", "check", "cos", "cubic", "cut", "cut_text",
           "empty_boxes", "end", "flatten", "half", "hypot", "import_path", "line", "mend", "move", "profile", "quad",
           "read_cut", "report_of", "scan", "sin", "sqrt", "to_f32", "to_i16", "two_thirds"]
