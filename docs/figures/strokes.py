#!/usr/bin/env python3
"""Writes strokes.svg, the picture of strokes in docs/WATERTIGHT.md, beside this file. Its lines are those of samples/bevel-gap.sheet with
a width of 2, and with the sample's own width of 2^-23, there around the corner alone, a last bit being drawn as wide as a thumb."""
import os

from watertight import END, INK, PALE, START, arrow, dot, text

WIDE = [((-4, 2), (-1, 2)), ((-1, 0), (-4, 0)), ((-1, 2), (-2, 1)), ((0, 1), (-1, 0)), ((-2, 1), (-2, 4)),
        ((0, 4), (0, 1)), ((-2, 4), (0, 4)), ((-4, 0), (-4, 2))]


def whole():
    def at(p):
        return 275 + 50 * p[0], 40 + 50 * p[1]
    middle = " ".join(f"{x},{y}" for x, y in map(at, [(-4, 1), (-1, 1), (-1, 4)]))
    out = [f'<polyline points="{middle}" fill="none" stroke="{PALE}" stroke-width="2" stroke-dasharray="4 5"/>']
    out += [arrow(at(p), at(q)) for p, q in WIDE]
    return out + [dot(at(p), INK) for p, _ in WIDE]


def corner():
    """Around (-1, 1), in last bits: a side that coincides, one that does not, and the line between them that is not drawn."""
    def at(p):
        return 500 + 70 * p[0], 130 + 70 * p[1]
    lines = [((-2, 0), (0, 0)), ((0, -1), (-2, -1)), ((0, 0), (0, 1.6)), ((1, 1.6), (1, 0))]
    (x0, y0), (x1, y1) = at((1, 0)), at((0, -1))
    out = [f'<line x1="{x0}" y1="{y0}" x2="{x1}" y2="{y1}" stroke="{PALE}" stroke-width="2" stroke-dasharray="4 5"/>']
    out += [arrow(at(p), at(q)) for p, q in lines] + [dot(at((0, 0)), INK, 5)]
    out += [dot((x0, y0), END, 6), dot((x1, y1), START, 6)]
    return out + [text(x0 + 8, y0 - 10, "one end more", 12, END, "start"), text(x1 + 10, y1 + 4, "one start more", 12, START, "start")]


def main():
    out = ['<svg xmlns="http://www.w3.org/2000/svg" width="680" height="290" viewBox="0 0 680 290">',
           '<rect width="680" height="290" fill="white"/>']
    out += whole() + corner()
    out += [text(172, 22, "an open stroke: one way round, without a gap", 13), text(520, 22, "one side of a bevel coincides: a gap", 13),
            text(172, 275, "two segments, a bevel join, two caps", 12, "#555"),
            text(520, 275, "the width is 2\u207b\u00b2\u00b3, and the gap one last bit", 12, "#555"), "</svg>", ""]
    with open(os.path.join(os.path.dirname(os.path.abspath(__file__)), "strokes.svg"), "w", encoding="utf-8") as f:
        f.write("\n".join(out))


if __name__ == "__main__":
    main()
