#!/usr/bin/env python3
"""Draws the panel of a socket brim with its opening, and writes brim.sheet and its picture brim.svg here.

In a checkout: PYTHONPATH=python python3 samples/drawn/brim.py. docs/DRAWING.md explains it.
"""
from hinthevoun import Sheet

brim = Sheet(scale=2)  # device units are half a millimetre
brim.move(10, 20).line(10, 80).cubic(10, 110, 40, 120, 70, 120).line(110, 120)
brim.quad(130, 90, 120, 60).cubic(115, 30, 90, 10, 60, 10).quad(35, 10, 10, 20)
brim.move(50, 60).cubic(50, 75, 62, 85, 75, 85).cubic(90, 85, 100, 75, 100, 60)
brim.cubic(100, 45, 90, 38, 75, 38).cubic(62, 38, 50, 45, 50, 60)
brim.path(even_odd=True)
brim.write("brim.sheet")
brim.draw("brim.svg", mm=0.5)
