#!/usr/bin/env python3
"""The tree from above, as an SVG on standard output: the box of each inner node, the higher its node the thicker.

    tree_picture.py MESH [UNIT] > tree.svg

A node over the positions first to last with a split has its left child over first to split, and its right child over
split + 1 to last; a child of more than one position is an inner node, with the number split on the left and split + 1 on
the right. So the whole tree is read from node 0 on.
"""

import sys

from world import World


def nodes_of(world):
    """Each inner node with how deep it lies and the corners of its box, the root first."""
    rest, nodes = [(0, 0)], []
    while rest:
        number, depth = rest.pop()
        first, last, split, low, high = world.node(number)
        nodes.append((depth, low, high))
        if split + 1 < last:
            rest.append((split + 1, depth + 1))
        if first < split:
            rest.append((split, depth + 1))
    return nodes


def main(mesh, unit="64"):
    with World(mesh, int(unit)) as world:
        nodes = nodes_of(world)
    _, low, high = nodes[0]
    wide, deep = high[0] - low[0], high[1] - low[1]
    line = max(wide, deep) / 100
    print(f'<svg xmlns="http://www.w3.org/2000/svg" width="384" viewBox="{-line} {-line} {wide + 2 * line} {deep + 2 * line}">')
    for depth, lowest, highest in sorted(nodes, key=lambda node: -node[0]):
        x, y = lowest[0] - low[0], high[1] - highest[1]
        print(f'<rect x="{x}" y="{y}" width="{highest[0] - lowest[0]}" height="{highest[1] - lowest[1]}" fill="none"'
              f' stroke="hsl({210 + 25 * depth} 60% 45%)" stroke-width="{line * 0.75 ** depth:.3g}"/>')
    print("</svg>")


if __name__ == "__main__":
    main(*sys.argv[1:])
