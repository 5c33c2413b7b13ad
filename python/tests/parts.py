"""The whole way by its parts: what each function of the library leaves, one after the other, and a file written here."""
import struct
from array import array
from typing import NamedTuple, Optional, Sequence, Tuple

from hinthevoun.buffers import Buffer
from hinthevoun.calls import WORDS_OF_A_LINE, Layout, empty_boxes, flatten, scan
from hinthevoun.cutting import REACH, START, Table
from hinthevoun.importing import NotImported, import_path
from hinthevoun.pattern import Pen
from hinthevoun.profiling import NotPassed, profile
from hinthevoun.refusals import Refusal

TEXT, SHEET, PROFILE, FLATTEN, CUT = 1, 2, 4, 5, 6
BEFORE, BEHIND = bytes([0x20, 0x40]), bytes([0x10])
WORDS_OF_A_WORKGROUP = 64


class Told(NamedTuple):
    """What a call tells: the refusal's number or 0, the count of bytes, the stage that refused, and the place."""

    number: int = 0
    count: int = 0
    stage: int = 0
    place: int = 0


def cut_text_by_parts(text: bytes, transform: Sequence[float], table: Table, tags: Buffer, points: Buffer, scene: Buffer,
                      prefixes: Buffer, lines: Buffer, file: Buffer) -> Told:
    """What the whole call leaves and tells."""
    pen = Pen()
    try:
        import_path(pen, text, tags, points)
        sheet, layout = laid_out(bytes(tags[:pen.counts.tags]), points[:pen.counts.points], transform)
        if len(sheet) > len(scene):
            return Told(80, 0, SHEET, len(sheet) if len(sheet) < 2**31 else 0)
        scene[:len(sheet)] = sheet
        scan(scene, layout.tag_base, prefixes)
        profile(*layout, scene, prefixes)
        count = flatten(*layout, scene, prefixes, empty_boxes(1), lines)
    except NotImported as why:
        return Told(why.number, 0, TEXT, why.byte)
    except NotPassed as why:
        return Told(why.number, 0, PROFILE, why.tag)
    except Refusal as why:
        return Told(why.number, 0, FLATTEN, why.tag)
    return written(lines[:WORDS_OF_A_LINE * count], table, file)


def laid_out(drawn: bytes, points: "array[int]", transform: Sequence[float]) -> Tuple["array[int]", Layout]:
    """The words of the sheet, and where its parts begin."""
    workgroups = (len(drawn) + 3 + 255) // 256
    tags = (BEFORE + drawn + BEHIND).ljust(4 * WORDS_OF_A_WORKGROUP * workgroups, b"\0")
    words = array("I", struct.unpack(f"<{len(tags) // 4}I", tags))
    placing = array("I", struct.unpack("=6I", struct.pack("=6f", *transform)))
    transform_base = len(words) + len(points)
    layout = Layout(workgroups, 0, len(words), transform_base, transform_base + len(placing))
    return words + points + placing + array("I", [0, 0]), layout


def written(lines: "array[int]", table: Table, file: Buffer) -> Told:
    """Writes the file of path 0, command by command, if all of it can be written."""
    whole, pen = bytearray(START), None
    if len(whole) > len(file):
        return Told(31, 0, CUT, 0)
    for record in range(len(lines) // WORDS_OF_A_LINE):
        _, _, *ends = lines[WORDS_OF_A_LINE * record:WORDS_OF_A_LINE * (record + 1)]
        start, end = ends[:2], ends[2:]
        for name, point in ([] if pen == start else [("PU", start)]) + [("PD", end)]:
            numbers = [rounded(word, table) for word in point]
            if None in numbers:
                return Told(30, 0, CUT, record)
            command = f"{name}{numbers[0]},{numbers[1]};".encode()
            if len(whole) + len(command) > len(file):
                return Told(31, 0, CUT, record)
            whole += command
        pen = end
    file[:len(whole)] = whole
    return Told(0, len(whole), 0, 0)


def rounded(word: int, table: Table) -> Optional[int]:
    """The whole number nearest an f32, ties to even, if the table takes it."""
    value, = struct.unpack("=f", struct.pack("=I", word))
    least, greatest = REACH[table]
    return round(value) if least - 1 < value < greatest + 1 and least <= round(value) <= greatest else None
