#!/usr/bin/env python3
"""A terrain to try things on: a square of CELLS by CELLS cells, two triangles each, as OBJ text on standard output.

    terrain.py CELLS [SEED] > terrain.obj

Heights come from the midpoints of ever smaller squares, each moved by chance less than the one before. The same CELLS and
SEED give the same text. A cell is one unit wide, heights have two decimals, and the whole is one group, `terrain`.
"""

import random
import sys


def heights_of(cells, seed):
    """A height for each corner of each cell, row by row."""
    size = 1
    while size < cells:
        size *= 2
    chance = random.Random(seed)
    known = {(x, y): chance.uniform(0, size / 8) for x in (0, size) for y in (0, size)}
    step, reach = size, size / 6
    while step > 1:
        half = step // 2
        for y in range(half, size, step):
            for x in range(half, size, step):
                around = [known[x + a, y + b] for a in (-half, half) for b in (-half, half)]
                known[x, y] = sum(around) / 4 + chance.uniform(-reach, reach)
        for y in range(0, size + 1, half):
            for x in range((y // half + 1) % 2 * half, size + 1, step):
                around = [known[place] for place in ((x - half, y), (x + half, y), (x, y - half), (x, y + half)) if place in known]
                known[x, y] = sum(around) / len(around) + chance.uniform(-reach, reach)
        step, reach = half, reach / 2
    return [[known[x, y] for x in range(cells + 1)] for y in range(cells + 1)]


def main(cells, seed="1"):
    cells = int(cells)
    print("g terrain")
    for y, row in enumerate(heights_of(cells, int(seed))):
        for x, height in enumerate(row):
            print(f"v {x} {y} {height:.2f}")
    for y in range(cells):
        for x in range(cells):
            corner = y * (cells + 1) + x + 1
            print(f"f {corner} {corner + 1} {corner + cells + 2} {corner + cells + 1}")


if __name__ == "__main__":
    main(*sys.argv[1:])
