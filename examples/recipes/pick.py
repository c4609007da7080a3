#!/usr/bin/env python3
"""What lies under a pixel: a pick through a camera.

    pick.py MESH EYE TARGET ANGLE WIDTH HEIGHT COLUMN ROW

EYE and TARGET are three coordinates each, as 2,2,10; ANGLE is the camera's whole angle from the lowest row to the highest,
in degrees; pixels are counted from the left and from above, from 0, and are looked through in their middles. Up is +z, or +y
for a camera that looks straight down or up. It writes the triangle's number and its group, or `nothing`.

The segment goes from the eye to where the line of sight leaves the world. Its far end is rounded to a grid step, as every
point is, so the line is off by less than a step, there and everywhere before. Of the groups it is taken that each name
stands once in the file.
"""

import math
import sys

from world import REACH, World


def cross(a, b):
    return a[1] * b[2] - a[2] * b[1], a[2] * b[0] - a[0] * b[2], a[0] * b[1] - a[1] * b[0]


def unit_vector(a):
    length = math.hypot(*a)
    return tuple(x / length for x in a)


def line_of_sight(eye, target, angle, width, height, column, row):
    """The direction in which the camera looks through the middle of a pixel."""
    ahead = unit_vector([t - e for t, e in zip(target, eye)])
    up = (0, 1, 0) if abs(ahead[2]) > 0.999999 else (0, 0, 1)
    right = unit_vector(cross(ahead, up))
    above = cross(right, ahead)
    half = math.tan(math.radians(angle) / 2)
    over = half * (1 - 2 * (row + 0.5) / height)
    aside = half * (2 * (column + 0.5) / width - 1) * width / height
    return tuple(a + over * u + aside * r for a, u, r in zip(ahead, above, right))


def far_end(eye, direction, unit):
    """Where the line of sight leaves the world, a step inside."""
    reach = (REACH - 1) / unit
    ways = [((reach if d > 0 else -reach) - e) / d for e, d in zip(eye, direction) if d]
    return tuple(e + min(ways) * d for e, d in zip(eye, direction))


def group_of(triangle, groups):
    """The name of the group that the triangle is in."""
    for name, count in groups:
        if triangle <= count:
            return name
        triangle -= count
    return "no group"


def main(mesh, eye, target, angle, width, height, column, row):
    eye, target = (tuple(map(float, text.split(","))) for text in (eye, target))
    sight = line_of_sight(eye, target, float(angle), int(width), int(height), int(column), int(row))
    with World(mesh) as world:
        met = world.hit(eye, far_end(eye, sight, world.unit))
        print(f"{met[0]} {group_of(met[0], world.groups())}" if met else "nothing")


if __name__ == "__main__":
    main(*sys.argv[1:])
