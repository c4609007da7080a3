#!/usr/bin/env python3
"""The nearest hit over several worlds: each is asked, and the fractions are compared by cross products.

    nearest_of_worlds.py PX PY PZ QX QY QZ MESH MESH ..

So a scene is cut into parts, each a process of its own. It writes the mesh, the triangle and the fraction, or `miss`. A
fraction N/D is less than M/E just where N * E is less than M * D: whole numbers alone, nothing is rounded, and where two
worlds are met at the same point the one that is named first is told.
"""

import sys

from world import World


def is_before(one, other):
    """Whether one hit's fraction is less than the other's; both are of the same segment."""
    return one[1] * other[2] < other[1] * one[2]


def main(*words):
    p, q, meshes = words[:3], words[3:6], words[6:]
    best = None
    for mesh in meshes:
        with World(mesh) as world:
            met = world.hit(p, q)
        if met and (best is None or is_before(met, best[1])):
            best = mesh, met
    if best is None:
        print("miss")
    else:
        mesh, (triangle, numerator, denominator) = best
        print(f"{mesh} {triangle} {numerator}/{denominator}")


if __name__ == "__main__":
    main(*sys.argv[1:])
