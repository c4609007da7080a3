#!/usr/bin/env python3
"""The bounds of a mesh: the box of the tree's root.

    bounds.py MESH [UNIT]

It writes the lowest and the highest corner in units of the mesh. A mesh of fewer than two triangles has no inner node.
"""

import sys

from world import World


def main(mesh, unit="64"):
    with World(mesh, int(unit)) as world:
        _, _, _, low, high = world.node(0)
        print(*(f"{steps / world.unit:g}" for steps in low), "to", *(f"{steps / world.unit:g}" for steps in high))


if __name__ == "__main__":
    main(*sys.argv[1:])
