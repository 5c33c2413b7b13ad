#!/usr/bin/env python3
"""Writes watertight.svg, the picture of docs/WATERTIGHT.md, beside this file. The lines are drawn coarser than the port draws them."""
import math
import os

INK, START, END, PALE = "#1f3b57", "#0b7a4b", "#b3261e", "#c9d3dc"


def cubic(p0, p1, p2, p3, n):
    """n + 1 points along a cubic; the first and the last are the given ones."""
    def at(i):
        if i == 0:
            return p0
        if i == n:
            return p3
        t = i / n
        u = 1 - t
        w = (u * u * u, 3 * u * u * t, 3 * u * t * t, t * t * t)
        return tuple(sum(k * p[a] for k, p in zip(w, (p0, p1, p2, p3))) for a in (0, 1))
    return [at(i) for i in range(n + 1)]


def arrow(p, q):
    """A line with its head in the middle, so that both ends stay free."""
    (x0, y0), (x1, y1) = p, q
    size = math.hypot(x1 - x0, y1 - y0)
    ux, uy = (x1 - x0) / size, (y1 - y0) / size
    mx, my = (x0 + x1) / 2 + 4 * ux, (y0 + y1) / 2 + 4 * uy
    head = [(mx, my), (mx - 8 * ux - 4 * uy, my - 8 * uy + 4 * ux), (mx - 8 * ux + 4 * uy, my - 8 * uy - 4 * ux)]
    points = " ".join(f"{x:.1f},{y:.1f}" for x, y in head)
    return (f'<line x1="{x0:.1f}" y1="{y0:.1f}" x2="{x1:.1f}" y2="{y1:.1f}" stroke="{INK}" stroke-width="2"/>'
            f'<polygon points="{points}" fill="{INK}"/>')


def dot(p, fill, r=4):
    return f'<circle cx="{p[0]:.1f}" cy="{p[1]:.1f}" r="{r}" fill="{fill}" stroke="white"/>'


def text(x, y, words, size=14, fill="#222", anchor="middle"):
    return f'<text x="{x}" y="{y}" font-family="sans-serif" font-size="{size}" fill="{fill}" text-anchor="{anchor}">{words}</text>'


def outline(dx, closed):
    a, b, c = (60 + dx, 210), (250 + dx, 210), (150 + dx, 60)
    runs = [[a, b], cubic(b, (300 + dx, 120), (230 + dx, 60), c, 6)]
    if closed:
        runs.append(cubic(c, (80 + dx, 60), (30 + dx, 130), a, 6))
    out = []
    if not closed:
        out.append(f'<line x1="{c[0]}" y1="{c[1]}" x2="{a[0]}" y2="{a[1]}" stroke="{PALE}" stroke-width="2" stroke-dasharray="4 5"/>')
    for run in runs:
        out += [arrow(p, q) for p, q in zip(run, run[1:])]
    for run in runs:
        out += [dot(p, INK, 3) for p in run[1:-1]]
    out += [dot(p, INK, 5) for p in (a, b, c)]
    if not closed:
        out += [dot(a, START, 6), dot(c, END, 6)]
        out += [text(a[0] - 6, a[1] + 22, "one start more", 12, START), text(c[0], c[1] - 14, "one end more", 12, END)]
    return out


def main():
    out = ['<svg xmlns="http://www.w3.org/2000/svg" width="680" height="290" viewBox="0 0 680 290">',
           '<rect width="680" height="290" fill="white"/>']
    out += outline(0, True) + outline(350, False)
    out += [text(165, 22, "closed: at each dot as many starts as ends", 13), text(510, 22, "left open: it stays open", 13),
            text(160, 265, "three segments, each a chain of lines", 12, "#555"),
            text(510, 265, "nothing is closed for the user", 12, "#555"), "</svg>", ""]
    with open(os.path.join(os.path.dirname(os.path.abspath(__file__)), "watertight.svg"), "w", encoding="utf-8") as f:
        f.write("\n".join(out))


if __name__ == "__main__":
    main()
