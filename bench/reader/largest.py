#!/usr/bin/env python3
"""Writes the largest mesh text that is read, of exactly 268,435,456 bytes, to the standard output: 1,048,576 vertices
with 24 digits a coordinate, 1,048,576 triangles over them with three parts a corner, and one comment of what is left.
The same text at each run."""
import sys

from mesh import draw

COUNT = 1_048_576
BYTES = 268_435_456


def coordinate():
    sign = "-" if draw(2) else ""
    return f"{sign}{1000 + draw(1000)}.{draw(10**9):09}{draw(10**9):09}{draw(100):02}"


def corner(at):
    return f"{at + 1}/{at + 1}/{at + 1}"


lines = []
for _ in range(COUNT):
    lines.append(f"v {coordinate()} {coordinate()} {coordinate()}\n")
for at in range(COUNT):
    lines.append(f"f {corner(at)} {corner(draw(COUNT))} {corner(draw(COUNT))}\n")
text = "".join(lines)
left = BYTES - len(text)
sys.stdout.write(f"#{'-' * (left - 2)}\n" + text)
