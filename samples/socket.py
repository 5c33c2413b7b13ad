#!/usr/bin/env python3
"""Writes samples/socket.sheet: the panel of a socket brim, as a pattern maker would lay it out.

The brim is one filled path with an oval opening in it, lines and curves in f32 points. Both outlines run the same way
round, so the style has the even-odd rule: by the other one the opening would be inked. A seam is stroked over it, 2 units
wide, with round joins and round caps. Device units are half a millimetre: the transform scales by 2.
docs/SCENE.md says what the words mean.
"""
import struct
from pathlib import Path

LINE, QUAD, CUBIC, END, F32, PATH, TRANSFORM, STYLE = 1, 2, 3, 4, 8, 16, 32, 64
ROUND_STROKE = 0x80000000 | 0x20000000 | 0x08000000 | 0x02000000 | 0x4400
EVEN_ODD_FILL = 0x40000000

tags, points = [], []


def word(x):
    return struct.unpack("<I", struct.pack("<f", x))[0]


def subpath(start, *segments):
    """Each segment is its points behind the one where the last ended; the last one carries the end bit."""
    points.append(start)
    for i, segment in enumerate(segments):
        points.extend(segment)
        tags.append(F32 | len(segment) | (END if i == len(segments) - 1 else 0))


def open_stroke(start, *segments):
    """An open stroke: its segments, and a marker that holds the start and the first tangent for the caps."""
    points.append(start)
    for segment in segments:
        points.extend(segment)
        tags.append(F32 | len(segment))
    points.extend([start, segments[0][0]])
    tags.append(F32 | QUAD | END)


tags += [TRANSFORM, STYLE]
subpath((10, 20), [(10, 80)], [(10, 110), (40, 120), (70, 120)], [(110, 120)], [(130, 90), (120, 60)],
        [(115, 30), (90, 10), (60, 10)], [(35, 10), (10, 20)])
subpath((50, 60), [(50, 75), (62, 85), (75, 85)], [(90, 85), (100, 75), (100, 60)],
        [(100, 45), (90, 38), (75, 38)], [(62, 38), (50, 45), (50, 60)])
tags += [PATH, STYLE]
open_stroke((20, 30), [(20, 75)], [(22, 100), (45, 110), (70, 110)], [(105, 110)])
tags += [PATH]

tags += [0] * (256 - len(tags))
data_base = 64
data = [word(c) for p in points for c in p]
transform = [word(c) for c in (2, 0, 0, 2, 0, 0)]
styles = [EVEN_ODD_FILL, 0, ROUND_STROKE, word(2.0)]
scene = [int.from_bytes(bytes(tags[i:i + 4]), "little") for i in range(0, 256, 4)] + data + transform + styles
transform_base = data_base + len(data)
head = [1, 0, data_base, transform_base, transform_base + len(transform), 2]
Path(__file__).with_name("socket.sheet").write_text("".join(f"{w:08x}\n" for w in head + scene))
