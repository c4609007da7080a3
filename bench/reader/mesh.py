#!/usr/bin/env python3
"""Writes a mesh text of about 62 MB to the standard output: a million vertices with six places, as exporters write
them, each a whole number of 64th, then a million triangles over them. The same text at each run."""
import sys

COUNT = 1_000_000
state = 1


def draw(limit):
    """A number from 0 to limit - 1."""
    global state
    state = (state * 6364136223846793005 + 1442695040888963407) % 2**64
    return (state >> 33) % limit


def coordinate():
    steps = draw(262144) - 131072
    size = abs(steps)
    return f"{'-' if steps < 0 else ''}{size // 64}.{size % 64 * 15625:06}"


def main():
    lines = []
    for _ in range(COUNT):
        lines.append(f"v {coordinate()} {coordinate()} {coordinate()}\n")
    for at in range(COUNT):
        lines.append(f"f {at + 1} {draw(COUNT) + 1} {draw(COUNT) + 1}\n")
    sys.stdout.write("".join(lines))


if __name__ == "__main__":
    main()
