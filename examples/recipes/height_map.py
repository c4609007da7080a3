#!/usr/bin/env python3
"""The heights of a mesh seen from above: one segment straight down for each cell of a grid laid over its bounds.

    height_map.py MESH CELLS [UNIT] [PICTURE]

It writes the heights, a row of cells a line, the row that lies furthest along y first, and `.` where a segment meets
nothing; then how many met nothing. With a PICTURE it writes an SVG of the cells there in place of the rows. Segments go
through the middles of cells. Every answer is exact, so over a surface without holes none slips through, not even one that
runs right through an edge or a corner: both triangles there count it.
"""

import sys

from world import World


def heights_of(world, cells):
    """The rows of heights, in units, or None where nothing is met."""
    _, _, _, low, high = world.node(0)
    unit = world.unit
    across = [(high[k] - low[k]) / unit / cells for k in (0, 1)]
    top, ground = high[2] / unit + 1, low[2] / unit - 1
    rows = []
    for j in reversed(range(cells)):
        row = []
        for i in range(cells):
            x, y = low[0] / unit + (i + 0.5) * across[0], low[1] / unit + (j + 0.5) * across[1]
            met = world.hit((x, y, top), (x, y, ground))
            row.append(met and top + (ground - top) * met[1] / met[2])
        rows.append(row)
    return rows


def picture(rows):
    """An SVG of the cells in some twenty greys, dark where it is low; a cell that met nothing is red."""
    known = [height for row in rows for height in row if height is not None] or [0]
    least, span = min(known), max(known) - min(known) or 1
    runs = {}
    for y, row in enumerate(rows):
        shades = ["c00" if height is None else f"{5 + round(20 * (height - least) / span) * 9:02x}" * 3 for height in row]
        x = 0
        while x < len(shades):
            end = x + 1
            while end < len(shades) and shades[end] == shades[x]:
                end += 1
            runs.setdefault(shades[x], []).append(f"M{x} {y}h{end - x}v1h{x - end}z")
            x = end
    paths = "\n".join(f'<path fill="#{shade}" d="{"".join(parts)}"/>' for shade, parts in sorted(runs.items()))
    return (f'<svg xmlns="http://www.w3.org/2000/svg" width="384" height="384" viewBox="0 0 {len(rows)} {len(rows)}"'
            f' shape-rendering="crispEdges">\n{paths}\n</svg>\n')


def main(mesh, cells, unit="64", into=None):
    with World(mesh, int(unit)) as world:
        rows = heights_of(world, int(cells))
    if into:
        with open(into, "w", encoding="ascii") as file:
            file.write(picture(rows))
    else:
        for row in rows:
            print(" ".join("." if height is None else f"{height:g}" for height in row))
    slipped = sum(height is None for row in rows for height in row)
    print(f"{slipped} of {sum(map(len, rows))} met nothing")


if __name__ == "__main__":
    main(*sys.argv[1:])
